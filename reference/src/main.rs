//! Prints the table or the refusal over the current folder, counted from the
//! definitions. It ends with 0 either way: the paper names no other signal than
//! the printed line.

use reference::program::print_folder;
use reference::table::from_definitions;

fn main() {
    print_folder(from_definitions);
}
