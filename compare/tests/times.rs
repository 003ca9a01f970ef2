//! The program of tools/times, for one turn and without Debian's crate: that it builds, and that its sums agree.
use std::process::Command;

#[test]
fn it_times_every_length() {
    let times = Command::new(env!("CARGO_BIN_EXE_times")).arg("1").output();
    let times = times.expect("it runs");
    let words = String::from_utf8(times.stderr).expect("words");
    assert!(times.status.success(), "{words}");
    let lines = String::from_utf8(times.stdout).expect("lines");
    let begin = |what| lines.lines().filter(|line| line.starts_with(what)).count();
    assert_eq!(begin("the CRC of "), 7, "{lines}");
    assert_eq!(begin("set-up, or the sums of the blocks of "), 4, "{lines}");
}
