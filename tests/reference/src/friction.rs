//! Friction of the bed (point 4 of the change requests): the list of roots, ground 17, and the
//! discharge after friction.

/// "whole centimetres k = 0..400"
pub const MOST_K: usize = 400;

/// "A fixed list [...] holds the greatest whole r with r³ ≤ 1,000·k⁴"
pub static ROOTS: [u64; MOST_K + 1] = roots();

const fn roots() -> [u64; MOST_K + 1] {
    let mut list = [0; MOST_K + 1];
    let mut r = 0u64;
    let mut k = 0;
    while k <= MOST_K {
        let most = 1_000 * (k as u64).pow(4);
        // no root is below the one before it, so the search goes on from there
        while (r + 1).pow(3) <= most {
            r += 1;
        }
        list[k] = r;
        k += 1;
    }
    list
}

/// "coefficient F of 10..90 (0 means no friction)"; 17: "another value"
pub fn allowed(strickler: u64) -> bool {
    strickler == 0 || (10..=90).contains(&strickler)
}

/// What friction leaves of a discharge in a step of t: k comes from the new depth, E from the old
/// speed. The depth is at most 4,000,000, so that the list has its k.
pub fn slowed(discharge: i64, new_depth: u64, old_speed: i64, t: u64, strickler: u64) -> i64 {
    // "0 means no friction", at any depth
    if strickler == 0 {
        return discharge;
    }
    // "k = floor(new depth / 10,000)", "D = F²·r"
    let k = new_depth / 10_000;
    let d = strickler * strickler * ROOTS[k as usize];
    // "0 where D is 0 and F is not"
    if d == 0 {
        return 0;
    }
    // "E = floor(45,518·t·|u| / 1,000,000) with the old speed"
    let e = 45_518 * t * old_speed.unsigned_abs() / 1_000_000;
    // "q·D/(D+E) cut towards zero": q·D passes 64 bits, the quotient is no larger than q
    (i128::from(discharge) * i128::from(d) / i128::from(d + e)) as i64
}
