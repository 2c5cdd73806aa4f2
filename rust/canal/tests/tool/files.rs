//! Files that are written: never the one that was read, and never half of one.

use crate::tools::*;
use canal::record::Record;
use std::fs;
use std::path::{Path, PathBuf};

const TABLE: &str = include_str!("../../examples/two_cells.txt");

/// An empty folder for this test alone.
fn folder(name: &str) -> PathBuf {
    let folder = PathBuf::from(env!("CARGO_TARGET_TMPDIR")).join(name);
    let _ = fs::remove_dir_all(&folder);
    fs::create_dir(&folder).expect("made");
    folder
}

fn names_in(folder: &Path) -> Vec<String> {
    let entries = fs::read_dir(folder).expect("there");
    let name = |entry: fs::DirEntry| entry.file_name().into_string().expect("a plain name");
    let mut names: Vec<String> = entries.map(|e| name(e.expect("an entry"))).collect();
    names.sort();
    names
}

fn sheet() -> Vec<u8> {
    Record::new(9).draft_sheet()
}

#[test]
fn what_was_read_is_not_overwritten() {
    let folder = folder("same");
    let (table, reach) = (folder.join("a.txt"), folder.join("a.sheet"));
    let roundabout = folder.join("..").join("same").join("a.sheet");
    fs::write(&table, TABLE).expect("written");
    fs::write(&reach, sheet()).expect("written");
    let calls = [
        ["make", text(&table), text(&table)],
        ["plot", text(&reach), text(&reach)],
        ["plot", text(&reach), text(&roundabout)],
        ["plot", "not_there.sheet", "not_there.sheet"],
    ];
    for arguments in calls {
        let answer = call(&arguments);
        assert_eq!(answer.status, 2, "{arguments:?}");
        let words = format!(" are the same file, {}\nusage: canal ", arguments[2]);
        assert!(answer.errors.contains(&words), "{}", answer.errors);
    }
    assert_eq!(fs::read(&table).expect("there"), TABLE.as_bytes());
    assert_eq!(fs::read(&reach).expect("there"), sheet());
}

#[test]
fn a_run_may_go_on_in_its_own_sheet() {
    let folder = folder("own");
    let reach = folder.join("a.sheet");
    let mut record = Record::new(2);
    record.depth[0] = 1_000_000;
    fs::write(&reach, record.draft_sheet()).expect("written");
    let name = text(&reach);
    let answer = call(&["run", name, "--for", "1s", "--out", name, "--quiet"]);
    assert_eq!((answer.status, &*answer.errors), (0, ""));
    let after = Record::open(&fs::read(&reach).expect("there")).expect("it opens");
    assert!(after.depth[1] > 0);
    assert_eq!(names_in(&folder), ["a.sheet"]);
}

#[cfg(unix)]
#[test]
fn links_and_permissions_stay() {
    use std::os::unix::fs::{symlink, PermissionsExt};
    let folder = folder("links");
    let (real, link) = (folder.join("real.sheet"), folder.join("link.sheet"));
    fs::write(&real, "old").expect("written");
    fs::set_permissions(&real, fs::Permissions::from_mode(0o640)).expect("set");
    symlink("real.sheet", &link).expect("linked");
    let answer = fed(&["make", "-", text(&link)], TABLE.as_bytes());
    assert_eq!((answer.status, &*answer.errors), (0, ""));
    assert!(link.is_symlink());
    assert!(Record::open(&fs::read(&real).expect("there")).is_ok());
    let mode = fs::metadata(&real).expect("there").permissions().mode();
    assert_eq!(mode & 0o777, 0o640);
    assert_eq!(names_in(&folder), ["link.sheet", "real.sheet"]);
}

#[cfg(unix)]
#[test]
fn a_link_to_nowhere_leads_to_a_new_file() {
    let folder = folder("nowhere");
    let link = folder.join("link.sheet");
    std::os::unix::fs::symlink("new.sheet", &link).expect("linked");
    assert_eq!(fed(&["make", "-", text(&link)], TABLE.as_bytes()).status, 0);
    assert!(link.is_symlink() && folder.join("new.sheet").is_file());
}

/// The shell lets no file grow, which to the tool is a disk that is full.
#[cfg(target_os = "linux")]
#[test]
fn a_full_disk_leaves_the_old_file() {
    let folder = folder("full");
    let (old, input) = (folder.join("old.svg"), file("full_input.sheet"));
    fs::write(&old, "old").expect("written");
    fs::write(&input, sheet()).expect("written");
    let script = "trap '' XFSZ; ulimit -f 0; exec \"$0\" plot \"$1\" \"$2\"";
    let output = std::process::Command::new("sh")
        .args(["-c", script, env!("CARGO_BIN_EXE_canal")])
        .args([&input, &old])
        .output();
    let answer = Answer::from(output.expect("the shell runs"));
    assert_eq!(answer.status, 3, "{}", answer.errors);
    assert!(answer.errors.contains(text(&old)), "{}", answer.errors);
    assert_eq!(fs::read(&old).expect("there"), b"old");
    assert_eq!(names_in(&folder), ["old.svg"]);
}

#[cfg(target_os = "linux")]
#[test]
fn devices_are_written_directly() {
    let full = fed(&["plot", "-", "/dev/full"], &sheet());
    assert_eq!(full.status, 3);
    assert!(full.errors.contains("/dev/full: "), "{}", full.errors);
    let heard = fed(&["plot", "-", "/dev/stdout"], &sheet());
    assert_eq!((heard.status, &*heard.errors), (0, ""));
    assert!(heard.text().starts_with("<svg"));
}

#[test]
fn a_folder_is_not_replaced() {
    let folder = folder("folder");
    let answer = fed(&["make", "-", text(&folder)], TABLE.as_bytes());
    assert_eq!(answer.status, 3);
    assert!(answer.errors.contains(text(&folder)), "{}", answer.errors);
    assert!(folder.is_dir() && names_in(&folder).is_empty());
}
