//! The tests of proved/counts.rs, where KC_LIB names the folder of the proved
//! library at compile time.

#[cfg(proved)]
#[path = "proved/counts.rs"]
mod compared;
#[cfg(not(proved))]
#[path = "proved/missing.rs"]
mod missing;
