//! Scores and costs.

use crate::limits::NOT_HEARD;
use std::cmp::Ordering;

/// HTK takes a logarithm below this for that of 0, which it writes as -1e10.
pub(super) const LEAST_LOGARITHM: f64 = -0.5e10;

/// The digits behind the point of a 64-bit float, written as it is in science.
const MOST_DIGITS: usize = 16;

/// The cost of a likelihood whose natural logarithm this is: minus that, times the scale, rounded. What has a likelihood of
/// 0 was not heard. A cost that no word can have which was heard is below 0 or above 65,534.
pub(super) fn scaled(logarithm: f64, scale: f64) -> Result<u32, Ordering> {
    if logarithm < LEAST_LOGARITHM {
        return Ok(NOT_HEARD);
    }
    let cost = (-scale * logarithm).round();
    if cost >= f64::from(NOT_HEARD) {
        Err(Ordering::Greater)
    } else if cost >= 0.0 {
        Ok(cost as u32)
    } else {
        Err(Ordering::Less)
    }
}

/// The number with as few digits as will do, if any do.
pub(super) fn shortest(number: f64, will_do: impl Fn(f64) -> bool) -> Option<f64> {
    let rounded = |digits: usize| format!("{number:.digits$e}").parse().unwrap_or(number);
    (0..=MOST_DIGITS).map(rounded).find(|rounded| will_do(*rounded))
}

#[cfg(test)]
mod tests {
    use super::*;

    #[test]
    fn costs_are_rounded_and_bounded() {
        assert_eq!(
            [0.0, -0.004, -0.006, -655.344].map(|score| scaled(score, 100.0)),
            [Ok(0), Ok(0), Ok(1), Ok(65_534)]
        );
        assert_eq!(scaled(-655.346, 100.0), Err(Ordering::Greater));
        assert_eq!([0.004, 0.006].map(|score| scaled(score, 100.0)), [Ok(0), Err(Ordering::Less)]);
        assert_eq!([f64::NEG_INFINITY, -1e10].map(|score| scaled(score, 1e-9)), [Ok(NOT_HEARD); 2]);
    }

    #[test]
    fn few_digits() {
        assert_eq!(shortest(-0.040_3, |score| scaled(score, 100.0) == Ok(4)), Some(-0.04));
        assert_eq!(shortest(0.123_456, |number| number > 0.123_4), Some(0.123_5));
        assert_eq!(shortest(1.0, |_| false), None);
    }
}
