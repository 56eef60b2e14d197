//! The tests of proved/distances_and_texts.rs, where KC_LIB names the folder of the proved
//! library at compile time.

#[cfg(proved)]
#[path = "proved/distances_and_texts.rs"]
mod compared;
#[cfg(not(proved))]
#[path = "proved/missing.rs"]
mod missing;
