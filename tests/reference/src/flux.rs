//! Crossing amounts of a water step ("A water step").
//!
//! Arguments lie within a record's limits: h ≤ 4·10^6 µm, |u| ≤ 8,000 mm/s, t ≤ 1,000 ms,
//! X from 100 to 10^5 mm. Then 64 bits are enough:
//! a ≤ 7,671 and A ≤ 15,671, so A³ < 4·10^12;
//! h·t·(A²−B²) ≤ 4·10^6 · 10^3 · 15,671² < 10^18;
//! K ≤ u² + a²/3 where u ≥ a, and K ≤ 4a²/3 elsewhere, so K < 10^8 and h·t·K < 4·10^17.

/// One body of water beside an interface.
#[derive(Clone, Copy, Debug, PartialEq, Eq, Default)]
pub struct Water {
    /// bed level z, µm
    pub bed: i64,
    /// unreduced depth h, µm
    pub depth: u64,
    /// speed u, mm/s, positive rightwards
    pub speed: i64,
    /// wave speed a of the unreduced depth, mm/s
    pub wave: u64,
}

impl Water {
    pub fn new(bed: i64, depth: u64, discharge: i64) -> Water {
        Water {
            bed,
            depth,
            speed: speed(depth, discharge),
            wave: wave_speed(depth),
        }
    }

    /// |u| + a, mm/s: what CFL bounds.
    pub fn reach(&self) -> u64 {
        self.speed.unsigned_abs() + self.wave
    }
}

/// Crossing amounts of one side of an interface, towards the other side.
#[derive(Clone, Copy, Debug, PartialEq, Eq, Default)]
pub struct Side {
    /// W, µm of depth
    pub water: u64,
    /// Q, µm·mm/s
    pub momentum: u64,
    /// S, µm·mm/s
    pub still: u64,
}

/// What crosses an interface, and S of either side's own reduced depth.
#[derive(Clone, Copy, Debug, PartialEq, Eq, Default)]
pub struct Crossing {
    /// N, µm, positive rightwards
    pub water: i64,
    /// W of the left side and of the right side, each towards the other, µm
    pub from_left: u64,
    pub from_right: u64,
    /// P, µm·mm/s
    pub push: i64,
    pub still_left: i64,
    pub still_right: i64,
}

/// Point 3: "the least whole a with 1,000,000·a² at least 14,709,975·h"
#[inline]
pub fn wave_speed(h: u64) -> u64 {
    let least = 14_709_975 * h;
    // the greatest a with 1,000,000·a² at most this; the least with as much is it or the next
    let a = (least / 1_000_000).isqrt();
    if 1_000_000 * a * a == least {
        a
    } else {
        a + 1
    }
}

/// "Speed u = q/h cut towards zero; 0 if h = 0."
#[inline]
pub fn speed(h: u64, q: i64) -> i64 {
    if h == 0 {
        0
    } else {
        q / h as i64
    }
}

/// "A = max(u+a,0), B = max(u−a,0)"
#[inline]
fn fronts(u: i64, a: u64) -> (u64, u64) {
    let a = a as i64;
    ((u + a).max(0) as u64, (u - a).max(0) as u64)
}

/// "W(h,u) = floor(h·t·(A²−B²) / (4,000·a·X))", with a = a(h) known and h > 0
#[inline]
fn water_at(t: u64, x: u64, h: u64, u: i64, a: u64) -> u64 {
    let (fore, rear) = fronts(u, a);
    h * t * (fore * fore - rear * rear) / (4_000 * a * x)
}

/// "K = floor((A³−B³)/(6a))", with a > 0
#[inline]
fn kinetic(u: i64, a: u64) -> u64 {
    let (fore, rear) = fronts(u, a);
    (fore * fore * fore - rear * rear * rear) / (6 * a)
}

/// "Q(h,u) = floor(h·t·K / (1,000·X))", with a = a(h) known and h > 0
#[inline]
fn momentum_at(t: u64, x: u64, h: u64, u: i64, a: u64) -> u64 {
    h * t * kinetic(u, a) / (1_000 * x)
}

/// "S(h) = 2·Q(h,0)"; there A = a and B = 0, so K = floor(a³/(6a)) = floor(a²/6)
#[inline]
fn still_at(t: u64, x: u64, h: u64, a: u64) -> u64 {
    2 * (h * t * (a * a / 6) / (1_000 * x))
}

/// W(h,u), µm: "all are 0 when h = 0".
pub fn water(t: u64, x: u64, h: u64, u: i64) -> u64 {
    side(t, x, h, u).water
}

/// Q(h,u), µm·mm/s.
pub fn momentum(t: u64, x: u64, h: u64, u: i64) -> u64 {
    side(t, x, h, u).momentum
}

/// S(h), µm·mm/s.
pub fn still(t: u64, x: u64, h: u64) -> u64 {
    side(t, x, h, 0).still
}

/// W, Q and S of one side; `u` is positive towards the other side.
pub fn side(t: u64, x: u64, h: u64, u: i64) -> Side {
    side_at(t, x, h, u, wave_speed(h))
}

/// As `side`, with the wave speed a(h) already found.
#[inline]
pub fn side_at(t: u64, x: u64, h: u64, u: i64, a: u64) -> Side {
    if h == 0 {
        return Side::default();
    }
    Side {
        water: water_at(t, x, h, u, a),
        momentum: momentum_at(t, x, h, u, a),
        still: still_at(t, x, h, a),
    }
}

/// "z* = max(zl,zr), hl* = max(0, hl+zl−z*), likewise hr*"
#[inline]
pub fn reduced_depth(h: u64, z: i64, other: i64) -> u64 {
    (h as i64 + z - z.max(other)).max(0) as u64
}

/// The side of `w` that faces a bed level `other`; `u` is positive towards the other side.
#[inline]
fn facing(t: u64, x: u64, w: Water, other: i64, u: i64) -> Side {
    let h = reduced_depth(w.depth, w.bed, other);
    // at least one side keeps its depth, and with it the wave speed known already
    let a = if h == w.depth { w.wave } else { wave_speed(h) };
    side_at(t, x, h, u, a)
}

/// "Water N = W(hl*,ul) − W(hr*,−ur). Push P = Q(hl*,ul) + Q(hr*,−ur)."
#[inline]
pub fn interface(t: u64, x: u64, l: Water, r: Water) -> Crossing {
    let left = facing(t, x, l, r.bed, l.speed);
    let right = facing(t, x, r, l.bed, -r.speed);
    Crossing {
        water: left.water as i64 - right.water as i64,
        from_left: left.water,
        from_right: right.water,
        push: (left.momentum + right.momentum) as i64,
        still_left: left.still as i64,
        still_right: right.still as i64,
    }
}
