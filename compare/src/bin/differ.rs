//! `differ MEGABYTES [SEED]` or `differ forever`: holds the proved unit and the second program against each other over seeded
//! streams of line bytes.
//! Sessions have the seeds SEED, SEED + 1 and so on, so `differ 1 SEED` with a printed seed has a difference again at once.
//! A run of 10 megabytes or more also fails where a read-only row, a file, a limit, an edge of the two FRAMs, their lock, a range
//! of CRC, one of the two ports or a call with many bytes was not met in every way that there is, or the highest cost of CRC was not
//! reached in each FRAM. The bytes of calls with many, a quarter as many again, are not among the megabytes.

use compare::differ::{session, Tally};
use compare::wheel::{Second, Wheel};
use std::process::ExitCode;
use std::time::{Instant, SystemTime, UNIX_EPOCH};

const USAGE: &str = "differ MEGABYTES [SEED], or differ forever";
const MEGABYTE: u64 = 1_000_000;

/// A run of so many bytes has time for all that a tally asks for; a shorter one looks at a seed again.
const LONG: u64 = 10 * MEGABYTE;

fn first() -> (&'static str, &'static dyn Wheel) {
    ("the proved unit", &compare::proved::Proved)
}

/// How many bytes to feed, and the first seed.
fn asked(words: &[String]) -> Option<(u64, u64)> {
    let now = SystemTime::now().duration_since(UNIX_EPOCH).ok()?;
    match words {
        [word] if word == "forever" => Some((u64::MAX, now.as_secs() << 20)),
        [megabytes] => Some((megabytes.parse::<u64>().ok()?.checked_mul(MEGABYTE)?, 1)),
        [megabytes, seed] => Some((
            megabytes.parse::<u64>().ok()?.checked_mul(MEGABYTE)?,
            seed.parse().ok()?,
        )),
        _ => None,
    }
}

fn main() -> ExitCode {
    let words: Vec<String> = std::env::args().skip(1).collect();
    let Some((bytes, seed)) = asked(&words) else {
        eprintln!("{USAGE}");
        return ExitCode::from(2);
    };
    let (name, wheel) = first();
    println!("{name} against the second program, from seed {seed}");
    compared(wheel, bytes, seed)
}

fn compared(wheel: &dyn Wheel, bytes: u64, seed: u64) -> ExitCode {
    let (start, mut tally, mut next) = (Instant::now(), Tally::default(), seed);
    let every = if bytes == u64::MAX {
        50 * MEGABYTE
    } else {
        bytes.div_ceil(10)
    };
    let mut shown = every;
    while tally.bytes < bytes {
        if let Err(difference) = session(wheel, &Second, next, &mut tally) {
            println!(
                "DIFFERENT at seed {}, byte {}",
                difference.seed, difference.offset
            );
            println!("{}", difference.what);
            println!("again: differ 1 {}", difference.seed);
            return ExitCode::FAILURE;
        }
        next = next.wrapping_add(1);
        if tally.bytes >= shown {
            let megabytes = tally.bytes as f64 / 1e6;
            let speed = megabytes / start.elapsed().as_secs_f64();
            println!("{megabytes:.1} MB agree, {speed:.1} MB/s, next seed {next}");
            shown += every;
        }
    }
    println!("{tally}");
    let missed = tally.missed();
    if bytes >= LONG && !missed.is_empty() {
        println!("NOT REACHED:\n{}", missed.join("\n"));
        return ExitCode::FAILURE;
    }
    ExitCode::SUCCESS
}
