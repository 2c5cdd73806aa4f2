//! A call made on both implementations, and the records to make it on: sound, with a full ledger, and broken in each way.

use crate::calls;
use reference::friction::allowed;
use reference::random::{damage_record, strickler, totals_mut, Random, Record};
use reference::record::{Answer, Book, Columns, End, DEEPEST, MOST_TOTAL};
use reference::{GreatestAnswer, OpenAnswer, Outlet, StepAnswer};

/// A call on a record with its free arguments.
#[derive(Clone, Copy, Debug)]
pub enum Call {
    Transport,
    SetBoundaries([End; 2]),
    Greatest,
    /// t and Strickler's coefficient
    Step(u64, u64),
}

/// Every answer in one form; what a call does not answer is zero.
#[derive(Clone, Copy, Debug, PartialEq, Eq, Default)]
pub struct Outcome {
    pub refusal: u32,
    pub boundaries: [End; 2],
    pub ledger: Book,
    /// a transport came before the step
    pub transported: bool,
    /// the greatest step and its place
    pub greatest: (u64, usize),
}

impl From<Answer> for Outcome {
    fn from(a: Answer) -> Outcome {
        Outcome {
            refusal: a.refusal,
            boundaries: a.ends,
            ledger: a.book,
            ..Outcome::default()
        }
    }
}

impl From<GreatestAnswer> for Outcome {
    fn from(a: GreatestAnswer) -> Outcome {
        Outcome {
            refusal: a.refusal,
            boundaries: a.ends,
            ledger: a.book,
            greatest: (a.t, a.place),
            ..Outcome::default()
        }
    }
}

impl From<StepAnswer> for Outcome {
    fn from(a: StepAnswer) -> Outcome {
        Outcome {
            refusal: a.refusal,
            boundaries: a.ends,
            ledger: a.book,
            transported: a.settled,
            ..Outcome::default()
        }
    }
}

impl Call {
    pub fn name(self) -> &'static str {
        match self {
            Call::Transport => "transport",
            Call::SetBoundaries(_) => "setting of boundaries",
            Call::Greatest => "greatest step",
            Call::Step(..) => "step",
        }
    }

    /// The call on the proved library, with the columns lent.
    pub fn ours(self, r: &mut Record) -> Outcome {
        match self {
            Call::Transport => calls::transport(r).into(),
            Call::SetBoundaries(new) => calls::set_boundaries(r, new).into(),
            Call::Greatest => calls::greatest_step(r).into(),
            Call::Step(t, f) => calls::step(r, t, f).into(),
        }
    }

    /// The call on the second implementation.
    pub fn theirs(self, r: &mut Record) -> Outcome {
        let (c, outlets) = (&mut r.columns, &mut r.outlets);
        let (x, ends, book) = (r.x, r.ends, r.book);
        match self {
            Call::Transport => reference::settle(c, outlets, x, ends, book).into(),
            Call::SetBoundaries(new) => reference::set_ends(c, outlets, x, ends, book, new).into(),
            Call::Greatest => reference::greatest_step(c, outlets, x, ends, book).into(),
            Call::Step(t, f) => reference::step(c, outlets, x, ends, book, t, f).into(),
        }
    }
}

/// Makes the call on both implementations: the answers, every column and every outlet are the same, and a refused call leaves the record as
/// it came. The record then holds the boundaries and the ledger handed back.
pub fn same(call: Call, record: &mut Record) -> Outcome {
    let before = record.clone();
    let mut theirs = record.clone();
    let answer = call.ours(record);
    let expected = call.theirs(&mut theirs);
    assert_eq!(answer, expected, "{call:?} on {before:?}");
    assert_eq!(*record, theirs, "{call:?} on {before:?}");
    record.ends = answer.boundaries;
    record.book = answer.ledger;
    if answer.refusal != 0 {
        assert_eq!(*record, before, "a refused {call:?} changed the record");
    }
    answer
}

/// Opens on both implementations without outlets, as `same_opening_with`.
pub fn same_opening(sheet: &[u8], lent: &Columns) -> Result<Record, u32> {
    same_opening_with(sheet, lent, &[])
}

/// Opens on both implementations: the answers, every column and every outlet are the same, and a refused opening gives nothing but its number
/// and leaves columns and outlets as they came. Gives the opened record, or that number.
pub fn same_opening_with(sheet: &[u8], lent: &Columns, list: &[Outlet]) -> Result<Record, u32> {
    let (mut columns, mut theirs) = (lent.clone(), lent.clone());
    let (mut outlets, mut their_outlets) = (list.to_vec(), list.to_vec());
    let answer = calls::open(sheet, &mut columns, &mut outlets);
    let expected = reference::open(sheet, &mut theirs, &mut their_outlets);
    assert_eq!(answer, expected, "of {sheet:?} with {list:?}");
    assert_eq!(columns, theirs, "of {sheet:?} with {list:?}");
    assert_eq!(outlets, their_outlets, "of {sheet:?} with {list:?}");
    let OpenAnswer {
        refusal,
        x,
        ends,
        book,
    } = answer;
    let opened = Record {
        columns,
        outlets,
        x,
        ends,
        book,
    };
    if refusal == 0 {
        return Ok(opened);
    }
    let untouched = Record {
        columns: lent.clone(),
        outlets: list.to_vec(),
        ..Record::default()
    };
    assert_eq!(opened, untouched, "refused on {refusal}: {sheet:?}");
    Err(refusal)
}

/// Writes on both implementations into outputs that came alike: the answers and all bytes are the same, boundaries and ledger are handed
/// back as they came, and a refused write leaves the output as it came. Gives the number and the output.
pub fn same_writing(record: &Record, came: &[u8]) -> (u32, Vec<u8>) {
    let (mut out, mut theirs) = (came.to_vec(), came.to_vec());
    let answer = calls::write(record, &mut out);
    let Record {
        columns,
        outlets,
        x,
        ends,
        book,
    } = record;
    let expected = reference::write(columns, outlets, *x, *ends, *book, &mut theirs);
    assert_eq!(answer, expected, "{record:?}");
    assert_eq!(out, theirs, "{record:?}");
    assert_eq!((answer.ends, answer.book), (*ends, *book), "{record:?}");
    if answer.refusal != 0 {
        assert_eq!(out, came, "a refused write of {record:?}");
    }
    (answer.refusal, out)
}

pub const WALL: End = End {
    kind: 0,
    depth: 0,
    concentration: 0,
    zero: 0,
    discharge: 0,
};

/// A record as an opening makes it, with nothing carried and an empty ledger; a cell is its bed level, depth, discharge and mass.
pub fn fresh(x: u64, boundaries: [End; 2], cells: &[(i64, u64, i64, u64)]) -> Record {
    let mut columns = Columns::of_cells(cells.len());
    for (i, &(z, h, q, m)) in cells.iter().enumerate() {
        columns.bed[i] = z;
        columns.depth[i] = h;
        columns.discharge[i] = q;
        columns.nutrient[i] = m;
        columns.base[i] = h;
    }
    Record {
        columns,
        outlets: vec![],
        x,
        ends: boundaries,
        book: Book::default(),
    }
}

/// Document 01: two cells between walls, flat bed, X 1,000, depths 1,000,000 and 100,000 at rest.
pub fn two_cells() -> Record {
    let cells = [(0, 1_000_000, 0, 3_000_000), (0, 100_000, 0, 0)];
    fresh(1_000, [WALL; 2], &cells)
}

/// Raises most cells to or nearly to the greatest depth, the base depth with it; the carried water stays.
pub fn brim(r: &mut Random, record: &mut Record) {
    let c = &mut record.columns;
    for (depth, base) in c.depth.iter_mut().zip(&mut c.base) {
        let room = DEEPEST - (*depth).max(*base);
        let left = r.pick(&[0, 1, 3_000, room]).min(room);
        *depth += room - left;
        *base += room - left;
    }
}

/// The greatest step of a sound record.
pub fn greatest(record: &Record) -> u64 {
    let Record {
        columns,
        outlets,
        x,
        ends,
        book,
    } = record;
    reference::greatest_step(columns, outlets, *x, *ends, *book).t
}

/// A coefficient that a step takes.
pub fn allowed_strickler(r: &mut Random) -> u64 {
    loop {
        let f = strickler(r);
        if allowed(f) {
            return f;
        }
    }
}

/// Every total of the ledger at its limit: whatever a call adds is ground 13.
pub fn fill_ledger(record: &mut Record) {
    for total in totals_mut(&mut record.book) {
        *total = MOST_TOTAL;
    }
}

/// Grounds of a record in checking order: 16 comes after 7.
pub const GROUNDS: [u32; 7] = [4, 5, 6, 7, 16, 8, 9];

/// A record and the ground that every call on it is refused on.
pub struct Broken {
    pub record: Record,
    pub ground: u32,
    /// it breaks a later ground too
    pub several: bool,
}

/// The record broken in each way of grounds 4 to 9 and 16, and in each way with a later one.
pub fn broken(r: &mut Random, record: &Record) -> Vec<Broken> {
    let mut list = Vec::new();
    for (place, ground) in GROUNDS.into_iter().enumerate() {
        let mut once = record.clone();
        damage_record(r, &mut once, ground);
        list.push(Broken {
            record: once,
            ground,
            several: false,
        });
        // the later ground first: the damage that comes second finds what it reads in range
        let later = r.below(10) as usize;
        let mut twice = record.clone();
        match GROUNDS.get(later) {
            None => fill_ledger(&mut twice),
            Some(&other) if later > place => damage_record(r, &mut twice, other),
            Some(_) => continue,
        }
        damage_record(r, &mut twice, ground);
        list.push(Broken {
            record: twice,
            ground,
            several: true,
        });
    }
    list
}
