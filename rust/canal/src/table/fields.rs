//! The words of a line to values.

use crate::limits::CELLS_MOST;
use jemmyfern::Boundary;

/// The least and the greatest number of a field of the sheet.
pub type Field = (i128, i128);
pub const U32: Field = (0, u32::MAX as i128);
pub const U64: Field = (0, u64::MAX as i128);
pub const I32: Field = (i32::MIN as i128, i32::MAX as i128);
pub const I64: Field = (i64::MIN as i128, i64::MAX as i128);
pub const TIMES: Field = (1, CELLS_MOST as i128);

/// A whole number of a field; `1_000_000` is the same as `1000000`.
pub fn number(name: &str, word: &str, (least, most): Field) -> Result<i128, String> {
    let plain = word.replace('_', "");
    let digits = plain.strip_prefix(['-', '+']).unwrap_or(&plain);
    if digits.is_empty() || !digits.bytes().all(|b| b.is_ascii_digit()) {
        return Err(format!("{name}: '{word}' is not a whole number"));
    }
    let value = plain.parse().ok();
    let value = value.filter(|v| (least..=most).contains(v));
    value.ok_or_else(|| format!("{name}: {word} does not fit its field, {least}..{most}"))
}

pub fn once<T>(key: &str, place: &mut Option<T>, value: T) -> Result<(), String> {
    match place.replace(value) {
        None => Ok(()),
        Some(_) => Err(format!("{key} is given twice")),
    }
}

pub fn named<T>(name: &str, result: Result<T, String>) -> Result<T, String> {
    result.map_err(|words| format!("{name}: {words}"))
}

pub fn cell_length(words: &[&str]) -> Result<u64, String> {
    match words {
        [word] => number("cell_length", word, U32).map(|n| n as u64),
        _ => Err("cell_length: one number is wanted, in mm".into()),
    }
}

pub fn boundary(words: &[&str]) -> Result<Boundary, String> {
    match words {
        ["wall"] => Ok(Boundary::WALL),
        ["wall", ..] => Err("nothing stands behind 'wall'".into()),
        ["open", rest @ ..] => {
            let [concentration] = settings(rest, [("concentration", U32)])?;
            Ok(Boundary::open(concentration as u64))
        }
        ["fed", rest @ ..] => {
            let fields = [("depth", U32), ("discharge", I64), ("concentration", U32)];
            let [depth, discharge, concentration] = settings(rest, fields)?;
            Ok(Boundary::fed(
                depth as u64,
                discharge as i64,
                concentration as u64,
            ))
        }
        [word, ..] => Err(format!(
            "'{word}' is not a boundary; boundaries are wall, open, fed"
        )),
        [] => Err("wall, open or fed is wanted".into()),
    }
}

/// Pairs of a name and a number, in any order, each exactly once.
fn settings<const N: usize>(
    words: &[&str],
    fields: [(&str, Field); N],
) -> Result<[i128; N], String> {
    let mut values = [None; N];
    for pair in words.chunks(2) {
        let name = pair[0];
        let place = fields.iter().position(|f| f.0 == name);
        let place = place.ok_or_else(|| {
            let names = fields.map(|f| f.0).join(", ");
            format!("'{name}' is not known here; wanted: {names}")
        })?;
        let word = pair
            .get(1)
            .ok_or_else(|| format!("{name}: a number is wanted"))?;
        let value = number(name, word, fields[place].1)?;
        once(name, &mut values[place], value)?;
    }
    let mut given = [0; N];
    for ((given, value), (name, _)) in given.iter_mut().zip(values).zip(fields) {
        *given = value.ok_or_else(|| format!("{name} is missing"))?;
    }
    Ok(given)
}
