//! What the tests share.

use canal::record::Record;
use jemmyfern::Boundary;
use std::io::Write;
use std::path::PathBuf;
use std::process::{Command, Output, Stdio};

pub fn canal() -> Command {
    Command::new(env!("CARGO_BIN_EXE_canal"))
}

/// What a call answered: exit status, standard output, standard error.
pub struct Answer {
    pub status: i32,
    pub bytes: Vec<u8>,
    pub errors: String,
}

impl Answer {
    pub fn text(&self) -> &str {
        std::str::from_utf8(&self.bytes).expect("text")
    }
}

impl From<Output> for Answer {
    fn from(output: Output) -> Answer {
        let errors = String::from_utf8(output.stderr).expect("text");
        assert!(!errors.contains("panicked"), "{errors}");
        Answer {
            status: output.status.code().expect("a status"),
            bytes: output.stdout,
            errors,
        }
    }
}

pub fn call(arguments: &[&str]) -> Answer {
    fed(arguments, b"")
}

/// A call with `input` at its standard input.
pub fn fed(arguments: &[&str], input: &[u8]) -> Answer {
    let pipes = canal()
        .args(arguments)
        .stdin(Stdio::piped())
        .stdout(Stdio::piped())
        .stderr(Stdio::piped())
        .spawn();
    let mut child = pipes.expect("the tool starts");
    let mut stdin = child.stdin.take().expect("a pipe");
    // a call that does not read its input may be gone by now
    let _ = stdin.write_all(input);
    drop(stdin);
    child.wait_with_output().expect("it ends").into()
}

/// A file of this name for this test alone, not there yet.
pub fn file(name: &str) -> PathBuf {
    let folder = PathBuf::from(env!("CARGO_TARGET_TMPDIR"));
    let file = folder.join(name);
    let _ = std::fs::remove_file(&file);
    file
}

pub fn text(path: &std::path::Path) -> &str {
    path.to_str().expect("a plain name")
}

/// Whole numbers that look random and are the same each time (xorshift).
pub struct Dice(pub u64);

impl Dice {
    pub fn next(&mut self) -> u64 {
        self.0 ^= self.0 << 13;
        self.0 ^= self.0 >> 7;
        self.0 ^= self.0 << 17;
        self.0
    }

    /// 0..=most
    pub fn to(&mut self, most: u64) -> u64 {
        match most.checked_add(1) {
            Some(count) => self.next() % count,
            None => self.next(),
        }
    }

    pub fn within(&mut self, most: u64) -> i64 {
        self.to(2 * most) as i64 - most as i64
    }

    pub fn boundary(&mut self) -> Boundary {
        match self.to(2) {
            0 => Boundary::WALL,
            1 => Boundary::open(self.to(500_000)),
            _ => {
                let depth = 1 + self.to(3_999_999);
                Boundary::fed(depth, self.within(8_000 * depth), self.to(500_000))
            }
        }
    }

    /// A record that opens.
    pub fn record(&mut self, most_cells: u64) -> Record {
        let cells = 1 + self.to(most_cells - 1) as usize;
        let mut record = Record::new(cells);
        record.cell_length = 100 + self.to(99_900);
        record.boundaries = [self.boundary(), self.boundary()];
        for i in 0..cells {
            let depth = if self.to(4) == 0 {
                0
            } else {
                self.to(4_000_000)
            };
            record.bed[i] = self.within(100_000_000);
            (record.depth[i], record.base[i]) = (depth, depth);
            record.discharge[i] = self.within(8_000 * depth);
            record.mass[i] = self.to(500_000 * depth);
        }
        record
    }
}
