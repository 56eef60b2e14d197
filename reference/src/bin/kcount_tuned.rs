//! Prints the table or the refusal over the current folder as fast as can be had
//! here, to be timed beside the proved program. A word (query, augmentation or
//! sharing) sets the method; without one it is guessed.

use reference::counts::Method;
use reference::program::print_folder;
use reference::tuned::{by, fastest};

fn main() {
    let word = std::env::args().nth(1).and_then(|name| Method::named(&name));
    print_folder(|network, sets, thresholds| {
        let method = word.unwrap_or_else(|| fastest(sets, thresholds));
        Ok(by(method, network, sets, thresholds))
    });
}
