//! The comparison tried: each mistake of `mistakes.txt` is caught within a bounded number of line bytes.
//! `cargo test --test mistakes -- --nocapture` prints how many each one took.

use compare::differ::{sessions, Tally};
use compare::wheel::Second;
// What the copies of the second program find under these names in their own crate.
use compare::{record, wheel, Part};

mod mistakes {
    include!(concat!(env!("OUT_DIR"), "/mistakes.rs"));
}

/// Line bytes within which each mistake must show.
const BYTES: u64 = 2_000_000;

/// A wheel that panics says so, which is no news here.
fn quietly<T>(work: impl FnOnce() -> T) -> T {
    let hook = std::panic::take_hook();
    std::panic::set_hook(Box::new(|_| ()));
    let done = work();
    std::panic::set_hook(hook);
    done
}

#[test]
fn each_mistake_is_caught() {
    let (mut caught, mut missed) = (0, Vec::new());
    for (name, wheel) in &mistakes::all()[1..] {
        let mut tally = Tally::default();
        match quietly(|| sessions(&Second, *wheel, 1, BYTES, &mut tally)) {
            Ok(()) => missed.push(*name),
            Err(difference) => {
                caught += 1;
                let what = difference.what.lines().next().unwrap_or_default();
                println!("{:>8} bytes  {name}  ({:.60})", tally.bytes, what);
            }
        }
    }
    println!("{caught} mistakes caught");
    assert!(missed.is_empty(), "not caught: {missed:#?}");
    assert!(caught >= 20);
}

/// Mistakes in what is asked without a unit, where the command is right, and the other way round.
const AT_ODDS: [&str; 10] = [
    "An empty list is judged fit",
    "A list that ends inside a structure is judged fit",
    "A list that ends one byte before the end of file 0 is judged fit",
    "A list with a read-only file in it is judged unfit",
    "The first files of an unfit list are stored",
    "Storing an unfit list says that it is stored",
    "Storing without a unit can write read-only bytes",
    "Storing without a unit leaves the mode",
    "WRITE FILE goes by 260, whatever the limit",
    "The limit of every unit is 1,028",
];

/// A wheel that has one is caught even where it is held against itself (02, T-11).
#[test]
fn a_wheel_at_odds_with_itself_is_caught() {
    let all = mistakes::all();
    for due in AT_ODDS {
        let named = all.iter().find(|(name, _)| *name == due);
        let (_, wheel) = named.expect("a mistake of this name");
        let caught = sessions(*wheel, *wheel, 1, BYTES, &mut Tally::default());
        assert!(caught.is_err(), "{due}");
    }
}

/// Mistakes in calls with many bytes, where single bytes are right.
const MANY: [&str; 8] = [
    "Of many bytes the one that stops them is not counted",
    "Many bytes do not stop at a message for another",
    "An empty run stops many bytes",
    "Many bytes forget the FESC at their end",
    "A refused call takes none of many bytes",
    "A call with no bytes is refused",
    "For many bytes no port is sending",
    "Many bytes all come on port 0",
];

/// A wheel that has one is caught by its own single bytes.
#[test]
fn many_bytes_at_odds_with_single_ones_are_caught() {
    let all = mistakes::all();
    for due in MANY {
        let named = all.iter().find(|(name, _)| *name == due);
        let (_, wheel) = named.expect("a mistake of this name");
        let caught = sessions(*wheel, *wheel, 1, BYTES, &mut Tally::default());
        let what = caught.expect_err(due).what;
        assert!(what.contains("one by one"), "{due}: {what}");
    }
}

#[test]
fn a_copy_without_a_mistake_agrees() {
    let (name, wheel) = mistakes::all()[0];
    assert_eq!(name, "No mistake");
    let mut tally = Tally::default();
    sessions(&Second, wheel, 1, 2_000_000, &mut tally).unwrap();
}
