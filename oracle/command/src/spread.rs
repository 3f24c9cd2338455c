//! How far the source's certificates spread.

use cases::chain::{random_feed, reach};
use cases::random::Random;

/// By depth for some windows, and on feeds by seed against the plain rule.
pub fn run(seed: u64, feeds: u64) -> Result<(), String> {
    let mut wrong = 0;
    for history in [1, 2, 3, 5, 21] {
        let reach = reach(history, u32::from(history) + 6);
        println!(
            "commit_history_rounds {history}: a certified point certifies included points down to depth {}, \
             witnessed ones to {}; all between: {}",
            reach.included, reach.witnessed, reach.whole
        );
        wrong += reach.differences;
    }
    let (mut kept, mut certified) = (0, 0);
    for place in 0..feeds {
        let (points, marks, differences) = random_feed(&mut Random::new(seed, place));
        kept += points;
        certified += marks;
        wrong += differences;
    }
    println!("seed {seed}: {feeds} feeds, {kept} points kept, {certified} certified");
    println!("marks that are not the plain rule's (height of the window plus 1, one less a round): {wrong}");
    if wrong == 0 { Ok(()) } else { Err(format!("{wrong} marks differ from the plain rule")) }
}
