//! Sheets with the columns lent for opening them: sound, and damaged in every way of grounds 1 to 7.

use reference::random::{end_of_kind, kinds, record_of, sheet_of, Random, Record};
use reference::record::{
    Book, Columns, End, BED_LIMIT, DEEPEST, FASTEST, FED, LEAST_X, MOST_CELLS, MOST_X, OPEN,
    RICHEST, WALL,
};
use reference::sheet::{field, sheet_length, signed_field, HEADER};

/// Header places.
const EDITION: usize = 0;
const LENGTH: usize = 4;
const CELLS: usize = 8;
const CELL_LENGTH: usize = 12;
const OFFSETS: usize = 16;
const BOUNDARIES: usize = 32;
const PER_BOUNDARY: usize = 24;
/// Bytes of an entry: bed level, depth, discharge, mass.
const SIZES: [usize; 4] = [4, 4, 8, 8];
/// The greatest value of a field of 32 bits.
const MOST_FIELD: u64 = u32::MAX as u64;

/// A sheet and the columns lent for it.
#[derive(Clone, Debug)]
pub struct Opening {
    /// what the sheet says
    pub record: Record,
    pub order: [usize; 4],
    pub sheet: Vec<u8>,
    pub lent: Columns,
}

/// One change to an opening.
#[derive(Clone, Debug)]
pub enum Change {
    /// these bytes from this place of the sheet on
    Put(usize, Vec<u8>),
    /// the sheet cut or lengthened to so many bytes
    Resize(usize),
    /// the lent column of this number, bed level to carried water, in another length
    Lend(usize, usize),
}

/// A sound opening so changed is refused on this ground.
#[derive(Clone, Debug)]
pub struct Damage {
    pub ground: u32,
    pub changes: Vec<Change>,
}

/// What the lent columns hold before: nothing that a sheet could say.
const LENT_SIGNED: i64 = -0x5A5A_5A5A_5A5A_5A5A;
const LENT: u64 = 0x5A5A_5A5A_5A5A_5A5A;
/// The bytes that lengthen a sheet.
const MORE: u8 = 1;

/// Columns for n cells to lend, full of other values.
pub fn lent(n: usize) -> Columns {
    Columns {
        bed: vec![LENT_SIGNED; n],
        depth: vec![LENT; n],
        discharge: vec![LENT_SIGNED; n],
        nutrient: vec![LENT; n],
        base: vec![LENT; n],
        carried: vec![LENT_SIGNED; n + 1],
    }
}

impl Opening {
    /// The sheet of a record with nothing carried, its columns in this order.
    pub fn of(record: Record, order: [usize; 4]) -> Opening {
        Opening {
            sheet: sheet_of(&record, order),
            lent: lent(record.columns.bed.len()),
            record,
            order,
        }
    }

    /// A sound opening of n cells.
    pub fn sound(r: &mut Random, n: usize, order: [usize; 4]) -> Opening {
        let kinds = kinds(r);
        let record = Record {
            book: Book::default(),
            ..record_of(r, n, kinds, false)
        };
        Opening::of(record, order)
    }

    fn cells(&self) -> usize {
        self.record.columns.bed.len()
    }

    /// Bytes of a column.
    fn width(&self, column: usize) -> usize {
        SIZES[column] * self.cells()
    }

    /// Where a column of the sound sheet begins.
    fn offset(&self, column: usize) -> usize {
        let before = self.order.iter().take_while(|&&other| other != column);
        HEADER + before.map(|&other| self.width(other)).sum::<usize>()
    }

    /// Where an entry of the sound sheet is.
    fn place(&self, column: usize, cell: usize) -> usize {
        self.offset(column) + SIZES[column] * cell
    }

    /// The opening with these damages, the one of the smallest ground made last: no other can mend it.
    pub fn damaged(&self, damages: &[&Damage]) -> Opening {
        let mut damages = damages.to_vec();
        damages.sort_by_key(|damage| std::cmp::Reverse(damage.ground));
        self.changed(damages.iter().flat_map(|damage| &damage.changes))
    }

    /// The opening with these changes, made one after the other.
    pub fn changed<'a>(&self, changes: impl IntoIterator<Item = &'a Change>) -> Opening {
        let mut opening = self.clone();
        for change in changes {
            opening.change(change);
        }
        opening
    }

    fn change(&mut self, change: &Change) {
        match change {
            Change::Put(at, bytes) => self.sheet[*at..*at + bytes.len()].copy_from_slice(bytes),
            Change::Resize(bytes) => self.sheet.resize(*bytes, MORE),
            Change::Lend(column, entries) => self.lend(*column, *entries),
        }
    }

    fn lend(&mut self, column: usize, entries: usize) {
        let c = &mut self.lent;
        match column {
            0 => c.bed.resize(entries, LENT_SIGNED),
            1 => c.depth.resize(entries, LENT),
            2 => c.discharge.resize(entries, LENT_SIGNED),
            3 => c.nutrient.resize(entries, LENT),
            4 => c.base.resize(entries, LENT),
            _ => c.carried.resize(entries, LENT_SIGNED),
        }
    }
}

/// Every damage of an opening, most of them one past a limit. Where a list is too long, `r` chooses cells and sound parts.
pub fn damages(r: &mut Random, opening: &Opening) -> Vec<Damage> {
    let grounds = [
        headers(),
        lengths(opening),
        offsets(opening),
        lendings(opening),
        cell_lengths(),
        boundaries(r),
        values(r, opening),
    ];
    let mut list = Vec::new();
    for (ground, ways) in (1..).zip(grounds) {
        list.extend(ways.into_iter().map(|changes| Damage { ground, changes }));
    }
    list
}

/// At most one damage of each ground, each ground one time in three.
pub fn several<'a>(r: &mut Random, damages: &'a [Damage]) -> Vec<&'a Damage> {
    let mut some = Vec::new();
    for of_ground in damages.chunk_by(|a, b| a.ground == b.ground) {
        if r.one_in(3) {
            some.push(&of_ground[r.below(of_ground.len() as u64) as usize]);
        }
    }
    some
}

/// Up to three bits of the sheet turned over, half of them in the header.
pub fn turn_bits(r: &mut Random, sheet: &mut [u8]) {
    for _ in 0..1 + r.below(3) {
        let bytes = r.pick(&[HEADER, sheet.len()]) as u64;
        sheet[r.below(bytes) as usize] ^= 1 << r.below(8);
    }
}

/// Two offsets exchanged; for columns of equal width the sheet has another order, and its values are another column's.
pub fn exchange(opening: &Opening, a: usize, b: usize) -> Vec<Change> {
    vec![offset(a, opening.offset(b)), offset(b, opening.offset(a))]
}

fn words(at: usize, words: &[u32]) -> Change {
    Change::Put(at, words.iter().flat_map(|w| w.to_le_bytes()).collect())
}

fn long(at: usize, value: u64) -> Change {
    Change::Put(at, value.to_le_bytes().to_vec())
}

fn offset(column: usize, place: usize) -> Change {
    words(OFFSETS + 4 * column, &[place as u32])
}

/// Ground 1: under 80 bytes, or another edition.
fn headers() -> Vec<Vec<Change>> {
    let bytes = [0, 1, 3, 4, 8, 12, 16, 32, 79].map(|bytes| vec![Change::Resize(bytes)]);
    let editions = [0, 2, 257, 65_537, 1 << 24, u32::MAX].map(|e| vec![words(EDITION, &[e])]);
    [bytes.to_vec(), editions.to_vec()].concat()
}

/// Ground 2: of n, the length field and the bytes given one is wrong, or two, or they are those of 0 or 513 cells.
fn lengths(opening: &Opening) -> Vec<Vec<Change>> {
    let (n, length) = (opening.cells(), opening.sheet.len());
    let cells = |n: usize| words(CELLS, &[n as u32]);
    let field = |length: usize| words(LENGTH, &[length as u32]);
    let bytes = Change::Resize;
    let mut list = Vec::new();
    // 24 times 2^29 is a multiple of 2^32
    for other in [n + (1 << 29), n << 8, n << 24, u32::MAX as usize] {
        list.push(vec![cells(other)]);
    }
    for other in [0, 79, length + (1 << 16), u32::MAX as usize] {
        list.push(vec![field(other)]);
    }
    for other in [length - 1, length + 1, length + 8] {
        list.extend([vec![bytes(other)], vec![field(other)]]);
        list.push(vec![bytes(other), field(other)]);
    }
    for other in [0, n - 1, n + 1, MOST_CELLS, MOST_CELLS + 1] {
        let long = sheet_length(other);
        if other != n {
            list.extend([vec![cells(other)], vec![field(long)], vec![bytes(long)]]);
            list.push(vec![cells(other), field(long)]);
            list.push(vec![cells(other), bytes(long)]);
            list.push(vec![field(long), bytes(long)]);
        }
    }
    for other in [0, MOST_CELLS + 1] {
        let long = sheet_length(other);
        list.push(vec![cells(other), field(long), bytes(long)]);
    }
    list
}

/// Ground 3. The columns fill the sheet: at any other place one of them overlaps another, is in the header or passes the end.
fn offsets(opening: &Opening) -> Vec<Vec<Change>> {
    let mut list = Vec::new();
    for column in 0..4 {
        let own = opening.offset(column);
        let mut places = places(opening, column);
        places.retain(|&place| place != own);
        list.extend(places.into_iter().map(|place| vec![offset(column, place)]));
    }
    for (narrow, wide) in [(0, 2), (0, 3), (1, 2), (1, 3)] {
        list.push(exchange(opening, narrow, wide));
    }
    let all = |moved: &dyn Fn(usize) -> usize| (0..4).map(|k| offset(k, moved(k))).collect();
    list.push(all(&|_| HEADER));
    list.push(all(&|k| opening.offset(k) + 1));
    list.push(all(&|k| opening.offset(k) - 1));
    list
}

/// Places for one column: in the header, a byte to either side, on another column or one byte into it, past the end, and where
/// the end of the column wraps past 2^32.
fn places(opening: &Opening, column: usize) -> Vec<usize> {
    let (own, width, length) = (
        opening.offset(column),
        opening.width(column),
        opening.sheet.len(),
    );
    let mut places = vec![0, 1, HEADER - 1, own - 1, own + 1];
    places.extend([length - width + 1, length - 1, length, length + 1]);
    places.extend([own + (1 << 8), own + (1 << 16), own + (1 << 24), 1 << 31]);
    for past in [0, 1, 79, 80, 81, width - 1] {
        places.push((1 << 32) - width + past.min(width - 1));
    }
    for other in (0..4).filter(|&other| other != column) {
        let (from, past) = (opening.offset(other), opening.place(other, opening.cells()));
        places.extend([from, (from + 1).saturating_sub(width), past - 1]);
    }
    places
}

/// Ground 4: one lent column too short or too long, or all six for another number of cells.
fn lendings(opening: &Opening) -> Vec<Vec<Change>> {
    let n = opening.cells();
    let fit = |column: usize, n: usize| if column == 5 { n + 1 } else { n };
    let mut list = Vec::new();
    for column in 0..6 {
        let right = fit(column, n);
        for wrong in [0, right - 1, right + 1, 2 * right, right + 256] {
            list.push(vec![Change::Lend(column, wrong)]);
        }
    }
    for other in [0, n - 1, n + 1] {
        let all = (0..6).map(|column| Change::Lend(column, fit(column, other)));
        list.push(all.collect());
    }
    list
}

/// Ground 5: X.
fn cell_lengths() -> Vec<Vec<Change>> {
    [0, LEAST_X - 1, MOST_X + 1, LEAST_X + (1 << 24), MOST_FIELD]
        .map(|x| vec![words(CELL_LENGTH, &[field(x)])])
        .to_vec()
}

/// Ground 6: each bad boundary on either side.
fn boundaries(r: &mut Random) -> Vec<Vec<Change>> {
    let bad: Vec<End> = [WALL, OPEN, FED]
        .map(|kind| bad_boundaries(r, kind))
        .concat();
    let left = bad.iter().map(|boundary| put_boundary(0, boundary));
    let right = bad.iter().map(|boundary| put_boundary(1, boundary));
    left.chain(right).collect()
}

fn put_boundary(side: usize, b: &End) -> Vec<Change> {
    let at = BOUNDARIES + PER_BOUNDARY * side;
    vec![
        words(
            at,
            &[b.kind, field(b.depth), field(b.concentration), b.zero],
        ),
        long(at + 16, b.discharge as u64),
    ]
}

/// Boundaries of a kind with one value past its limit.
fn bad_boundaries(r: &mut Random, kind: u32) -> Vec<End> {
    let sound = end_of_kind(r, kind);
    let mut list = Vec::new();
    list.extend([1, 1 << 31].map(|zero| End { zero, ..sound }));
    list.extend([3, kind + 256, kind + (1 << 16), u32::MAX].map(|kind| End { kind, ..sound }));
    let rich = match kind {
        WALL => [1, RICHEST, 1 << 24],
        _ => [RICHEST + 1, 1 << 31, MOST_FIELD],
    };
    list.extend(rich.map(|concentration| End {
        concentration,
        ..sound
    }));
    list.extend(match kind {
        FED => bad_feeds(sound),
        _ => bad_stills(sound),
    });
    list
}

/// A wall or an open boundary with a depth or a discharge.
fn bad_stills(sound: End) -> Vec<End> {
    let depths = [1, DEEPEST, 1 << 24].map(|depth| End { depth, ..sound });
    let discharges = [1, -1, 1 << 32, i64::MIN].map(|discharge| End { discharge, ..sound });
    [depths.to_vec(), discharges.to_vec()].concat()
}

/// A fed boundary too shallow, too deep or too fast.
fn bad_feeds(sound: End) -> Vec<End> {
    let mut list = Vec::new();
    list.extend([0, DEEPEST + 1, 1 << 31, MOST_FIELD].map(|depth| End {
        depth,
        discharge: 0,
        ..sound
    }));
    for depth in [1, sound.depth, DEEPEST] {
        let over = over_fastest(depth);
        list.extend([over, -over, i64::MAX, i64::MIN].map(|discharge| End {
            depth,
            discharge,
            ..sound
        }));
    }
    list
}

/// One more than the greatest discharge at this depth.
fn over_fastest(depth: u64) -> i64 {
    (FASTEST * depth) as i64 + 1
}

/// Ground 7: each value past each of its limits, in the first cell, the last one and another.
fn values(r: &mut Random, opening: &Opening) -> Vec<Vec<Change>> {
    let n = opening.cells();
    let any = r.below(n as u64) as usize;
    [0, n - 1, any].map(|i| bad_cell(opening, i)).concat()
}

fn bad_cell(opening: &Opening, cell: usize) -> Vec<Vec<Change>> {
    let place = |column: usize| opening.place(column, cell);
    let depth = opening.record.columns.depth[cell];
    let mut list = Vec::new();
    let (high, low) = (signed_field(BED_LIMIT + 1), signed_field(-BED_LIMIT - 1));
    for bed in [high, low, i32::MAX, i32::MIN] {
        list.push(vec![words(place(0), &[bed as u32])]);
    }
    for deep in [DEEPEST + 1, 1 << 31, MOST_FIELD] {
        list.push(vec![words(place(1), &[field(deep)])]);
    }
    let over = over_fastest(depth);
    for discharge in [over, -over, i64::MAX, i64::MIN] {
        list.push(vec![long(place(2), discharge as u64)]);
    }
    for mass in [RICHEST * depth + 1, 1 << 63, u64::MAX] {
        list.push(vec![long(place(3), mass)]);
    }
    list
}
