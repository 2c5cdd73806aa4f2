//! What the library takes: under 64 KiB of stack in each call on the longest reach, and no data that is written.

mod cc;

use std::process::Command;

/// tests/footprint.c fails where a call takes 64 KiB or more.
#[test]
fn calls_take_little_stack() {
    let text = cc::printed("footprint");
    assert_eq!(text.matches("bytes of stack").count(), 6, "{text}");
    assert_eq!(text.matches("with 32 outlets").count(), 6, "{text}");
}

/// No symbol of a section that a program may write, by `nm`'s letters.
#[test]
fn nothing_is_written_in_place() {
    let names = Command::new("nm").arg(cc::library()).output().expect("nm");
    let text = String::from_utf8(names.stdout).unwrap();
    assert!(text.contains(" T jemmyfern_step"), "{text}");
    let written = |line: &&str| {
        let mut words = line.split_whitespace();
        words.any(|word| ["D", "d", "B", "b", "C"].contains(&word))
    };
    assert_eq!(text.lines().find(written), None);
}
