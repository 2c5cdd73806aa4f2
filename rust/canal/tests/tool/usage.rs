//! Arguments, exit statuses, files that are not there, readers that are gone.

use crate::tools::*;
use canal::record::Record;
use std::process::Stdio;

#[test]
fn without_arguments_it_tells_its_usage_and_fails() {
    let answer = call(&[]);
    assert_eq!(answer.status, 2);
    assert!(answer.bytes.is_empty());
    assert!(answer.errors.contains("canal make TABLE SHEET"));
}

#[test]
fn help_is_no_failure() {
    for arguments in [&["help"][..], &["--help"], &["-h"], &["run", "--help"]] {
        let answer = call(arguments);
        assert_eq!(answer.status, 0);
        assert!(answer.errors.is_empty());
        assert!(answer.text().contains("canal run SHEET --for TIME"));
        assert!(answer.text().contains("among equals the highest place"));
        assert!(answer.text().contains("--friction F "));
        assert!(answer.text().lines().all(|l| l.len() <= 90));
    }
    assert!(call(&["--version"]).text().starts_with("canal "));
}

#[test]
fn wrong_arguments() {
    let cases: [(&[&str], &str); 24] = [
        (&["swim"], "there is no command 'swim'"),
        (&["make", "a"], "make wants TABLE SHEET"),
        (&["show"], "show wants SHEET"),
        (&["show", "a", "b"], "show wants SHEET"),
        (
            &["inspect", "--deep", "a"],
            "inspect does not know the option --deep",
        ),
        (&["plot", "a"], "plot wants SHEET OUT.svg"),
        (&["run", "a"], "run wants --for"),
        (&["run", "--for", "1h"], "run wants SHEET"),
        (&["run", "a", "--for"], "--for wants a value"),
        (&["run", "a", "--for", "soon"], "'soon' is not a duration"),
        (&["run", "a", "--for=-5s"], "'-5s' is not a duration"),
        (
            &["run", "a", "--for", "1h", "--for", "2h"],
            "--for is given twice",
        ),
        (
            &["run", "a", "--for", "1h", "--step", "0"],
            "'0' is not a whole number of ms",
        ),
        (&["run", "a", "--for", "1h", "--step", "1001"], "in 1..1000"),
        (
            &["run", "a", "--for", "1h", "--friction"],
            "--friction wants a value",
        ),
        (
            &["run", "a", "--for", "1h", "--friction", "rough"],
            "--friction: 'rough' is not a whole number, 0 or 10 to 90",
        ),
        (
            &["run", "a", "--for", "1h", "--friction=-30"],
            "'-30' is not a whole number",
        ),
        (
            &["run", "a", "--for", "1h", "--friction=32.5"],
            "'32.5' is not a whole number",
        ),
        (
            &["run", "a", "--friction=30", "--for=1h", "--friction=30"],
            "--friction is given twice",
        ),
        (
            &["run", "a", "--for", "1h", "--fast"],
            "run does not know the option --fast",
        ),
        (
            &["run", "a", "--for", "1h", "--outlets"],
            "--outlets wants a value",
        ),
        (
            &["run", "a", "--outlets", "b", "--for", "1h", "--outlets=b"],
            "--outlets is given twice",
        ),
        (
            &["run", "-", "--for", "1h", "--outlets", "-"],
            "SHEET and --outlets are both standard input",
        ),
        (&["--version", "now"], "--version wants nothing"),
    ];
    for (arguments, words) in cases {
        let answer = call(arguments);
        assert_eq!(answer.status, 2, "{arguments:?}");
        assert!(answer.bytes.is_empty());
        let first = answer.errors.lines().next().unwrap_or("");
        assert!(first.contains(words), "{arguments:?}: {first}");
        let lines: Vec<&str> = answer.errors.lines().collect();
        assert_eq!(lines.last(), Some(&"`canal help` tells more"));
        assert_eq!(&lines[1..lines.len() - 1], usage_line(arguments[0]));
    }
}

/// The line that a wrong call of a command is told, if it is one.
fn usage_line(command: &str) -> &'static [&'static str] {
    match command {
        "make" => &["usage: canal make TABLE SHEET"],
        "show" => &["usage: canal show SHEET"],
        "inspect" => &["usage: canal inspect SHEET"],
        "run" => &["usage: canal run SHEET --for TIME [--outlets LIST] [--out SHEET] [--step MS] [--friction F] [--quiet]"],
        "plot" => &["usage: canal plot SHEET OUT.svg"],
        _ => &[],
    }
}

#[test]
fn a_file_that_cannot_be_read_is_named() {
    let gone = file("there_is_no_such.sheet");
    let gone = text(&gone);
    let calls: [&[&str]; 5] = [
        &["make", gone, "-"],
        &["show", gone],
        &["inspect", gone],
        &["run", gone, "--for", "1s"],
        &["plot", gone, "-"],
    ];
    for arguments in calls {
        let answer = call(arguments);
        assert_eq!(answer.status, 3, "{arguments:?}");
        assert!(answer.errors.contains(gone), "{}", answer.errors);
    }
}

#[test]
fn a_file_that_cannot_be_written_is_named() {
    let nowhere = file("no_such_folder").join("out");
    let nowhere = text(&nowhere);
    let sheet = Dice(5).record(9).draft_sheet();
    let table = b"cell_length 1000\nleft wall\nright wall\ncells\n0 0 0 0\n";
    let calls: [(&[&str], &[u8]); 3] = [
        (&["make", "-", nowhere], table),
        (&["run", "-", "--for", "0", "--out", nowhere], &sheet),
        (&["plot", "-", nowhere], &sheet),
    ];
    for (arguments, input) in calls {
        let answer = fed(arguments, input);
        assert_eq!(answer.status, 3, "{arguments:?}");
        assert!(answer.errors.contains(nowhere), "{}", answer.errors);
    }
}

#[test]
fn input_without_end_is_not_read_to_its_end() {
    let answer = fed(&["inspect", "-"], &vec![1; (1 << 20) + 1]);
    assert_eq!(answer.status, 1);
    assert!(answer.errors.contains("too long"), "{}", answer.errors);
}

/// A call whose output nobody reads: the reading end is closed before the tool starts.
fn unheard(arguments: &[&str]) -> Answer {
    let (reader, writer) = std::io::pipe().expect("a pipe");
    drop(reader);
    let mut tool = canal();
    tool.args(arguments).stdin(Stdio::null());
    let output = tool.stdout(writer).stderr(Stdio::piped()).output();
    Answer::from(output.expect("the tool runs"))
}

#[test]
fn a_closed_pipe_is_no_failure() {
    let sheet = file("closed_pipe.sheet");
    std::fs::write(&sheet, Record::new(9).draft_sheet()).expect("written");
    let sheet = text(&sheet);
    let calls: [&[&str]; 5] = [
        &["show", sheet],
        &["inspect", sheet],
        &["run", sheet, "--for", "1s"],
        &["plot", sheet, "-"],
        &["help"],
    ];
    for arguments in calls {
        let answer = unheard(arguments);
        assert_eq!((answer.status, &*answer.errors), (0, ""), "{arguments:?}");
    }
}

#[test]
fn a_refusal_stays_one_when_nobody_reads_it() {
    let answer = unheard(&["inspect", "-"]);
    assert_eq!((answer.status, &*answer.errors), (1, ""));
}

#[test]
fn closed_standard_error_is_no_failure() {
    let (reader, writer) = std::io::pipe().expect("a pipe");
    drop(reader);
    let status = canal().stdin(Stdio::null()).stderr(writer).status();
    assert_eq!(status.expect("the tool runs").code(), Some(2));
}

#[cfg(target_os = "linux")]
#[test]
fn a_full_disk_is_told() {
    let full = std::fs::File::create("/dev/full").expect("it is there");
    let output = canal()
        .arg("help")
        .stdout(full)
        .stderr(Stdio::piped())
        .output();
    let answer = Answer::from(output.expect("the tool runs"));
    assert_eq!(answer.status, 3);
    assert!(
        answer.errors.contains("standard output"),
        "{}",
        answer.errors
    );
}
