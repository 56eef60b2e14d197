//! In place of the comparisons with the proved library, where it is not there.

#[path = "../common/mod.rs"]
mod common;

/// Nothing is compared, which fails where CI is set.
#[test]
fn the_library_is_handed_over() {
    assert!(common::handed_over("KC_LIB").is_none(), "built without KC_LIB");
}
