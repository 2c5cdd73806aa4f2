//! A water step written for speed, as the opponent of the proved one: nothing is allocated, the checks take one pass and the
//! fluxes another, the wave speed of a cell is found once, what friction needs of t and F before the cells, and arithmetic is unchecked in the release
//! profile.

use reference::flux::{reduced_depth, speed, Water};
use reference::friction::allowed;
use reference::record::{
    end_sound, ground, length_sound, outflow, Book, Columns, End, BED_LIMIT, DEEPEST, FASTEST, FED,
    MOST_CELLS, MOST_TOTAL, RICHEST, WALL,
};
use reference::settling::{end_nutrient, shares};
use reference::step::MOST_T;
use reference::StepAnswer;

/// What the pass over the interfaces finds; the record is written only afterwards.
struct Found {
    /// N at interfaces 0..n
    water: [i64; MOST_CELLS + 1],
    /// q' of each cell
    discharge: [i64; MOST_CELLS],
    /// the greatest |u|+a
    reach: u64,
    /// the greatest h'
    deepest: i64,
    keeps: bool,
}

/// A side of an interface at its reduced depth.
#[derive(Clone, Copy)]
struct Facing {
    depth: u64,
    wave: u64,
}

struct Crossing {
    water: i64,
    momentum: i64,
    left: Facing,
    right: Facing,
}

#[inline(never)]
pub fn step(
    c: &mut Columns,
    x: u64,
    boundaries: [End; 2],
    ledger: Book,
    t: u64,
    strickler: u64,
) -> StepAnswer {
    match try_step(c, x, &boundaries, &ledger, t, strickler) {
        Ok((ledger, transported)) => StepAnswer {
            refusal: 0,
            ends: boundaries,
            book: ledger,
            settled: transported,
        },
        Err(refusal) => StepAnswer {
            refusal,
            ends: boundaries,
            book: ledger,
            settled: false,
        },
    }
}

#[inline]
fn try_step(
    c: &mut Columns,
    x: u64,
    boundaries: &[End; 2],
    ledger: &Book,
    t: u64,
    strickler: u64,
) -> Result<(Book, bool), u32> {
    let n = check(c, x, boundaries, ledger)?;
    ground(10, (1..=MOST_T).contains(&t))?;
    ground(17, allowed(strickler))?;
    let found = find(c, n, boundaries, t, x, Bed::new(t, strickler));
    ground(11, t * found.reach <= 1_000 * x)?;
    ground(12, found.deepest <= DEEPEST as i64)?;
    let ledger = gain(c, n, boundaries, ledger, &found)?;
    if !found.keeps {
        transport(c, n, boundaries);
    }
    write(c, n, &found);
    Ok((ledger, !found.keeps))
}

/// Grounds 4 to 9, the cells in one pass. Where a value is out of range what follows may wrap, and is not looked at.
#[inline]
fn check(c: &Columns, x: u64, boundaries: &[End; 2], ledger: &Book) -> Result<usize, u32> {
    let n = c.bed.len();
    ground(4, (1..=MOST_CELLS).contains(&n) && c.fit(n))?;
    ground(5, length_sound(x))?;
    ground(6, boundaries.iter().all(end_sound))?;
    let (bed, depth, discharge) = (&c.bed[..n], &c.depth[..n], &c.discharge[..n]);
    let (mass, base, carried) = (&c.nutrient[..n], &c.base[..n], &c.carried[..n + 1]);
    let (mut ranges, mut sums) = (true, carried[0].unsigned_abs() <= DEEPEST);
    for i in 0..n {
        let (h, b, left, right) = (depth[i], base[i], carried[i], carried[i + 1]);
        ranges &= (bed[i].unsigned_abs() <= BED_LIMIT as u64)
            & (h <= DEEPEST)
            & (b <= DEEPEST)
            & (discharge[i].unsigned_abs() <= FASTEST.wrapping_mul(h))
            & (mass[i] <= RICHEST.wrapping_mul(b));
        let out = right.max(0).wrapping_add(left.wrapping_neg().max(0));
        sums &= (right.unsigned_abs() <= DEEPEST)
            & (h as i64 == (b as i64).wrapping_add(left).wrapping_sub(right))
            & (out <= b as i64);
    }
    ground(7, ranges)?;
    let [left, right] = boundaries;
    sums &= (left.kind != WALL || carried[0] == 0) && (right.kind != WALL || carried[n] == 0);
    ground(8, sums)?;
    ground(9, full(ledger) <= MOST_TOTAL)?;
    Ok(n)
}

/// The greatest total.
#[inline]
fn full(ledger: &Book) -> u64 {
    [ledger.left, ledger.right]
        .map(|k| (k.water_in.max(k.water_out)).max(k.nutrient_in.max(k.nutrient_out)))
        .into_iter()
        .fold(0, u64::max)
}

/// The water beyond a boundary.
#[inline]
fn beyond(boundary: &End, cell: Water) -> Water {
    match boundary.kind {
        WALL => Water {
            speed: -cell.speed,
            ..cell
        },
        FED => water(cell.bed, boundary.depth, boundary.discharge),
        _ => cell,
    }
}

/// Roots of 1,000 k^4 for k of 0..400.
static ROOTS: [u32; 401] = roots();

const fn roots() -> [u32; 401] {
    let mut list = [0; 401];
    let mut k = 1;
    while k < list.len() {
        let most = 1_000 * (k as u64).pow(4);
        // no root is below the last
        let mut root = list[k - 1];
        while (root as u64 + 1).pow(3) <= most {
            root += 1;
        }
        list[k] = root;
        k += 1;
    }
    list
}

/// The bed's friction in a step.
#[derive(Clone, Copy)]
struct Bed {
    /// F²
    square: u64,
    /// 45,518 t
    drag: u64,
}

impl Bed {
    #[inline]
    fn new(t: u64, strickler: u64) -> Bed {
        Bed {
            square: strickler * strickler,
            drag: 45_518 * t,
        }
    }

    /// What friction leaves of a discharge: less q·E/(D+E) rounded up, where q·E has 64 bits and q·D has not. A depth below 0 or past the list is
    /// refused afterwards.
    #[inline]
    fn slow(self, discharge: i64, depth: i64, speed: i64) -> i64 {
        if self.square == 0 {
            return discharge;
        }
        let d = self.square * u64::from(ROOTS[(depth as usize / 10_000).min(400)]);
        if d == 0 {
            return 0;
        }
        let e = self.drag * speed.unsigned_abs() / 1_000_000;
        let lost = (discharge.unsigned_abs() * e).div_ceil(d + e) as i64;
        discharge - lost * discharge.signum()
    }
}

/// One pass over the interfaces, left to right.
#[inline]
fn find(c: &Columns, n: usize, boundaries: &[End; 2], t: u64, x: u64, rough: Bed) -> Found {
    let (bed, depth, discharge) = (&c.bed[..n], &c.depth[..n], &c.discharge[..n]);
    let (base, carried) = (&c.base[..n], &c.carried[..n + 1]);
    let water = |i: usize| water(bed[i], depth[i], discharge[i]);
    let mut found = Found {
        water: [0; MOST_CELLS + 1],
        discharge: [0; MOST_CELLS],
        reach: 0,
        deepest: 0,
        keeps: true,
    };
    let mut cell = water(0);
    let before = beyond(&boundaries[0], cell);
    let mut left = crossing(t, x, &before, &cell);
    let mut left_sum = carried[0] + left.water;
    found.reach = before.reach().max(cell.reach());
    found.water[0] = left.water;
    for i in 0..n {
        let next = if i + 1 < n {
            water(i + 1)
        } else {
            beyond(&boundaries[1], cell)
        };
        let right = crossing(t, x, &cell, &next);
        let new_depth = depth[i] as i64 + left.water - right.water;
        let unclamped = discharge[i] + left.momentum - right.momentum
            + bed_thrust(t, x, right.left, left.right);
        let slowed = rough.slow(unclamped, new_depth, cell.speed);
        let most = FASTEST as i64 * new_depth;
        found.discharge[i] = slowed.min(most).max(-most);
        found.water[i + 1] = right.water;
        found.reach = found.reach.max(next.reach());
        found.deepest = found.deepest.max(new_depth);
        let right_sum = carried[i + 1] + right.water;
        found.keeps &= outflow(left_sum, right_sum) <= base[i];
        (cell, left, left_sum) = (next, right, right_sum);
    }
    found
}

/// N and P of an interface.
#[inline]
fn crossing(t: u64, x: u64, l: &Water, r: &Water) -> Crossing {
    let (left, right) = (facing(l, r.bed), facing(r, l.bed));
    let (from_left, momentum_left) = fluxes(t, x, left, l.speed);
    let (from_right, momentum_right) = fluxes(t, x, right, -r.speed);
    Crossing {
        water: from_left as i64 - from_right as i64,
        momentum: (momentum_left + momentum_right) as i64,
        left,
        right,
    }
}

/// a(h): the least whole number with a square of at least x is one more than the root of what is just below x.
#[inline]
pub fn wave_speed(h: u64) -> u64 {
    if h == 0 {
        return 0;
    }
    ((14_709_975 * h - 1) / 1_000_000).isqrt() + 1
}

#[inline]
fn water(bed: i64, depth: u64, discharge: i64) -> Water {
    Water {
        bed,
        depth,
        speed: speed(depth, discharge),
        wave: wave_speed(depth),
    }
}

#[inline]
fn facing(w: &Water, other: i64) -> Facing {
    let depth = reduced_depth(w.depth, w.bed, other);
    let wave = if depth == w.depth {
        w.wave
    } else {
        wave_speed(depth)
    };
    Facing { depth, wave }
}

/// W and Q of one side.
#[inline]
fn fluxes(t: u64, x: u64, side: Facing, u: i64) -> (u64, u64) {
    if side.depth == 0 {
        return (0, 0);
    }
    let a = side.wave;
    let fore = (u + a as i64).max(0) as u64;
    let rear = (u - a as i64).max(0) as u64;
    let (fore2, rear2) = (fore * fore, rear * rear);
    let ht = side.depth * t;
    let kinetic = (fore2 * fore - rear2 * rear) / (6 * a);
    (
        ht * (fore2 - rear2) / (4_000 * a * x),
        ht * kinetic / (1_000 * x),
    )
}

/// S at the right less S at the left: nothing where the bed reduces neither depth or both alike.
#[inline]
fn bed_thrust(t: u64, x: u64, right: Facing, left: Facing) -> i64 {
    let still =
        |side: Facing| 2 * (side.depth * t * (side.wave * side.wave / 6) / (1_000 * x)) as i64;
    if right.depth == left.depth {
        0
    } else {
        still(right) - still(left)
    }
}

/// The ledger after the step; ground 13.
#[inline]
fn gain(
    c: &Columns,
    n: usize,
    boundaries: &[End; 2],
    ledger: &Book,
    found: &Found,
) -> Result<Book, u32> {
    let mut gains = Book::default();
    if !found.keeps {
        gains = end_nutrient(c, boundaries);
    }
    let (left, right) = (found.water[0], found.water[n]);
    gains.left.water_in = left.max(0) as u64;
    gains.left.water_out = (-left).max(0) as u64;
    gains.right.water_in = (-right).max(0) as u64;
    gains.right.water_out = right.max(0) as u64;
    ledger.gain(&gains)
}

/// Moves the shares under the old sums; b becomes h, c becomes 0.
#[inline]
fn transport(c: &mut Columns, n: usize, boundaries: &[End; 2]) {
    let (mass, base) = (&mut c.nutrient[..n], &mut c.base[..n]);
    let (depth, carried) = (&c.depth[..n], &mut c.carried[..n + 1]);
    let mut from_left = carried[0].max(0) as u64 * boundaries[0].concentration;
    let mut stays = 0;
    for i in 0..n {
        let leaving = shares(mass[i], base[i], carried[i], carried[i + 1]);
        // the cell to the left is complete with this cell's left share
        if i > 0 {
            mass[i - 1] = stays + leaving.left;
        }
        stays = mass[i] - leaving.right - leaving.left + from_left;
        from_left = leaving.right;
        base[i] = depth[i];
    }
    mass[n - 1] = stays + (-carried[n]).max(0) as u64 * boundaries[1].concentration;
    carried.fill(0);
}

/// Writes h', q' and the carried water.
#[inline]
fn write(c: &mut Columns, n: usize, found: &Found) {
    for (depth, water) in c.depth.iter_mut().zip(found.water.windows(2)) {
        *depth = (*depth as i64 + water[0] - water[1]) as u64;
    }
    c.discharge.copy_from_slice(&found.discharge[..n]);
    for (carried, water) in c.carried.iter_mut().zip(&found.water) {
        *carried += water;
    }
}
