//! A linear axis with ticks at round numbers.

#[derive(Clone, Debug)]
pub struct Axis {
    low: f64,
    high: f64,
    /// 1, 2 or 5 times a power of ten
    step: f64,
    /// labels are given in this power of ten
    exponent: i32,
}

/// The least and the greatest finite of some numbers; 0 and 1 if there are none.
pub fn extent(values: impl Iterator<Item = f64>) -> (f64, f64) {
    let start = (f64::INFINITY, f64::NEG_INFINITY);
    let finite = values.filter(|v| v.is_finite());
    let (low, high) = finite.fold(start, |(low, high), v| (low.min(v), high.max(v)));
    if low <= high {
        (low, high)
    } else {
        (0.0, 1.0)
    }
}

/// A range that can be drawn: one without width gets zero in, so that a level line stands at its height.
pub fn widened((low, high): (f64, f64)) -> (f64, f64) {
    let size = low.abs().max(high.abs());
    if high - low > 1e-9 * size {
        (low, high)
    } else if size == 0.0 {
        (0.0, 1.0)
    } else {
        (low.min(0.0), high.max(0.0))
    }
}

/// Some room around the lines, and zero where they come near it.
pub fn padded((low, high): (f64, f64), share: f64) -> (f64, f64) {
    let near = 0.25 * high.abs().max(low.abs());
    let low = if (0.0..near).contains(&low) { 0.0 } else { low };
    let high = if (-near..0.0).contains(&high) {
        0.0
    } else {
        high
    };
    let room = (high - low) * share;
    (low - room, high + room)
}

impl Axis {
    /// An axis over a range, with about `wanted` ticks or fewer.
    pub fn over((low, high): (f64, f64), wanted: usize) -> Axis {
        let step = round_up((high - low) / wanted as f64);
        let exponent = label_exponent(low.abs().max(high.abs()));
        Axis {
            low,
            high,
            step,
            exponent,
        }
    }

    pub fn ticks(&self) -> Vec<f64> {
        // a hair's breadth, so that a tick at the very end is kept
        let first = (self.low / self.step - 1e-6).ceil() as i64;
        let last = (self.high / self.step + 1e-6).floor() as i64;
        (first..=last).map(|k| k as f64 * self.step).collect()
    }

    pub fn label(&self, tick: f64) -> String {
        let unit = 10f64.powi(self.exponent);
        let decimals = (-(self.step / unit).log10() - 1e-9).ceil().max(0.0) as usize;
        let text = format!("{:.decimals$}", tick.abs() / unit);
        if tick < 0.0 {
            format!("\u{2212}{text}")
        } else {
            text
        }
    }

    /// The power of ten that the labels count, if they are not plain.
    pub fn power(&self) -> Option<String> {
        (self.exponent != 0).then(|| format!("10{}", superscript(self.exponent)))
    }

    /// The place of a value between two pixels.
    pub fn place(&self, value: f64, from: f64, to: f64) -> f64 {
        from + (to - from) * (value - self.low) / (self.high - self.low)
    }
}

/// The least of 1, 2 and 5 times a power of ten that is not much below `step`.
fn round_up(step: f64) -> f64 {
    let step = 0.9 * step;
    let power = 10f64.powf(step.log10().floor());
    let factors = [1.0, 2.0, 5.0].into_iter();
    let factor = factors.map(|f| f * power).find(|s| *s >= step);
    factor.unwrap_or(10.0 * power)
}

/// Plain labels from hundredths to tens of thousands, else a power of a thousand.
fn label_exponent(size: f64) -> i32 {
    if (1e-2..1e5).contains(&size) {
        0
    } else {
        3 * (size.log10() / 3.0).floor() as i32
    }
}

fn superscript(number: i32) -> String {
    let raise = |c| match c {
        '-' => '\u{207b}',
        '1' => '\u{b9}',
        '2' => '\u{b2}',
        '3' => '\u{b3}',
        '0' | '4'..='9' => char::from_u32(0x2070 + c as u32 - '0' as u32).unwrap_or(c),
        other => other,
    };
    number.to_string().chars().map(raise).collect()
}

#[cfg(test)]
mod tests {
    use super::*;

    fn labels(low: f64, high: f64, wanted: usize) -> Vec<String> {
        let axis = Axis::over((low, high), wanted);
        axis.ticks().into_iter().map(|t| axis.label(t)).collect()
    }

    #[test]
    fn ticks_are_round() {
        assert_eq!(
            labels(0.0, 1.0, 5),
            ["0.0", "0.2", "0.4", "0.6", "0.8", "1.0"]
        );
        assert_eq!(labels(-3.0, 7.0, 5), ["\u{2212}2", "0", "2", "4", "6"]);
        assert_eq!(labels(0.11, 0.14, 4), ["0.11", "0.12", "0.13", "0.14"]);
    }

    #[test]
    fn great_and_small_numbers_count_a_power_of_ten() {
        let great = Axis::over((0.0, 4e6), 4);
        assert_eq!(great.power().as_deref(), Some("10\u{2076}"));
        assert_eq!(great.label(3e6), "3");
        let small = Axis::over((0.0, 4e-6), 4);
        assert_eq!(small.power().as_deref(), Some("10\u{207b}\u{2076}"));
        assert_eq!(Axis::over((0.0, 50.0), 4).power(), None);
    }

    #[test]
    fn a_range_without_width_is_widened() {
        assert_eq!(widened((0.0, 0.0)), (0.0, 1.0));
        assert_eq!(widened((3.0, 3.0)), (0.0, 3.0));
        assert_eq!(widened((-3.0, -3.0)), (-3.0, 0.0));
        assert_eq!(extent(std::iter::empty()), (0.0, 1.0));
    }
}
