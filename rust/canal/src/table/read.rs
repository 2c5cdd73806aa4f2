//! Text to record.

use super::fields::*;
use super::{said_lines, COLUMNS};
use crate::limits::CELLS_MOST;
use crate::record::Record;
use crate::units::counted;
use jemmyfern::Boundary;
use std::fmt;

/// A record as it was written, judged by nobody yet: `Record::draft_sheet` makes a sheet of it, which the library opens or refuses.
#[derive(Clone, Debug, PartialEq)]
pub struct Table {
    pub record: Record,
    /// the line that each cell comes from, counted from 1
    pub lines: Vec<usize>,
}

/// What a line says wrong.
#[derive(Clone, Debug, PartialEq)]
pub struct TableError {
    /// counted from 1; behind the last line if something is missing
    pub line: usize,
    pub words: String,
}

impl fmt::Display for TableError {
    fn fmt(&self, f: &mut fmt::Formatter<'_>) -> fmt::Result {
        write!(f, "line {}: {}", self.line, self.words)
    }
}

impl std::error::Error for TableError {}

/// What has been read so far.
#[derive(Default)]
struct Reader {
    cell_length: Option<u64>,
    left: Option<Boundary>,
    right: Option<Boundary>,
    /// the columns that rows have, once the header is over
    columns: Option<Vec<usize>>,
    rows: Vec<Row>,
    lines: Vec<usize>,
}

#[derive(Clone, Default)]
struct Row {
    bed: i64,
    depth: u64,
    discharge: i64,
    mass: u64,
}

/// Reads a table. Every number fits its field of the sheet afterwards.
pub fn read(text: &str) -> Result<Table, TableError> {
    let mut reader = Reader::default();
    for (line, words) in said_lines(text) {
        let taken = reader.take(&words, line);
        taken.map_err(|words| TableError { line, words })?;
    }
    reader.finish().map_err(|words| TableError {
        line: text.lines().count() + 1,
        words,
    })
}

impl Reader {
    fn take(&mut self, words: &[&str], line: usize) -> Result<(), String> {
        match &self.columns {
            Some(columns) => {
                let (row, times) = row(words, columns)?;
                self.push(row, times, line)
            }
            None => self.header(words),
        }
    }

    fn header(&mut self, words: &[&str]) -> Result<(), String> {
        match words {
            ["cell_length", rest @ ..] => {
                let length = cell_length(rest)?;
                once("cell_length", &mut self.cell_length, length)
            }
            ["left", rest @ ..] => once("left", &mut self.left, named("left", boundary(rest))?),
            ["right", rest @ ..] => once("right", &mut self.right, named("right", boundary(rest))?),
            ["cells"] => self.begin_rows(&COLUMNS),
            ["cells", names @ ..] => self.begin_rows(names),
            [name, ..] if COLUMNS.contains(name) => self.begin_rows(words),
            [word, ..] => Err(unknown_key(word)),
            [] => Ok(()),
        }
    }

    fn begin_rows(&mut self, names: &[&str]) -> Result<(), String> {
        self.header_is_whole()?;
        let mut columns = Vec::new();
        for name in names {
            let column = COLUMNS.iter().position(|c| c == name);
            let column = column.ok_or_else(|| {
                format!(
                    "'{name}' is not a column; columns are {}",
                    COLUMNS.join(", ")
                )
            })?;
            if columns.contains(&column) {
                return Err(format!("the column {name} is named twice"));
            }
            columns.push(column);
        }
        self.columns = Some(columns);
        Ok(())
    }

    fn header_is_whole(&self) -> Result<(), String> {
        let given = [
            ("cell_length", self.cell_length.is_some()),
            ("left", self.left.is_some()),
            ("right", self.right.is_some()),
        ];
        match given.iter().find(|(_, given)| !given) {
            Some((key, _)) => Err(format!(
                "the header lacks a line '{key} ..' before the cells"
            )),
            None => Ok(()),
        }
    }

    fn push(&mut self, row: Row, times: usize, line: usize) -> Result<(), String> {
        if self.rows.len() + times > CELLS_MOST as usize {
            return Err(format!(
                "this makes {} cells, and {CELLS_MOST} is the most",
                self.rows.len() + times
            ));
        }
        self.rows.extend(std::iter::repeat_n(row, times));
        self.lines.extend(std::iter::repeat_n(line, times));
        Ok(())
    }

    fn finish(self) -> Result<Table, String> {
        let (Some(cell_length), Some(left), Some(right)) =
            (self.cell_length, self.left, self.right)
        else {
            self.header_is_whole()?;
            return Err("the header is not whole".into());
        };
        if self.columns.is_none() {
            return Err("the line 'cells' and the rows of the cells are missing".into());
        }
        let column = |f: fn(&Row) -> u64| self.rows.iter().map(f).collect::<Vec<_>>();
        let signed = |f: fn(&Row) -> i64| self.rows.iter().map(f).collect::<Vec<_>>();
        let record = Record {
            bed: signed(|r| r.bed),
            depth: column(|r| r.depth),
            base: column(|r| r.depth),
            discharge: signed(|r| r.discharge),
            mass: column(|r| r.mass),
            cell_length,
            boundaries: [left, right],
            ..Record::new(self.rows.len())
        };
        Ok(Table {
            record,
            lines: self.lines,
        })
    }
}

fn unknown_key(word: &str) -> String {
    if word.starts_with(|c: char| c.is_ascii_digit() || c == '-') {
        return "a row of numbers before the line 'cells'".to_string();
    }
    format!("'{word}' is not known here; the header has cell_length, left, right, and then cells")
}

/// The row and how many cells it stands for.
fn row(words: &[&str], columns: &[usize]) -> Result<(Row, usize), String> {
    let (words, times) = match words {
        [row @ .., "x", times] => (row, number("x", times, TIMES)? as usize),
        row => (row, 1),
    };
    if words.len() != columns.len() {
        let names: Vec<&str> = columns.iter().map(|&c| COLUMNS[c]).collect();
        let (given, wanted) = (counted(words.len() as u64, "value"), columns.len());
        return Err(format!(
            "{given}, but a row has {wanted}: {}",
            names.join(", ")
        ));
    }
    let mut row = Row::default();
    for (word, &column) in words.iter().zip(columns) {
        let name = COLUMNS[column];
        match name {
            "bed" => row.bed = number(name, word, I32)? as i64,
            "depth" => row.depth = number(name, word, U32)? as u64,
            "discharge" => row.discharge = number(name, word, I64)? as i64,
            _ => row.mass = number(name, word, U64)? as u64,
        }
    }
    Ok((row, times))
}
