//! The tests of proved/marks.rs, where KC_LIB names the folder of the proved
//! library at compile time.

#[cfg(proved)]
#[path = "proved/marks.rs"]
mod compared;
#[cfg(not(proved))]
#[path = "proved/missing.rs"]
mod missing;
