//! In how many rows the library is behind the plain version beside it.

use std::fmt;
use std::time::Duration;

/// Rows in which the library stands beside a plain version, the free one or the second implementation.
#[derive(Debug, Default)]
pub struct Standing {
    rows: usize,
    /// Those in which it takes longer.
    behind: Vec<String>,
    /// Those in which it does only since it clears the table that it is lent, which the plain version does without.
    by_clearing: Vec<String>,
}

impl Standing {
    /// Takes a row.
    pub fn take(&mut self, row: &str, ours: Duration, plain: Duration) {
        self.take_clearing(row, [ours, ours], plain);
    }

    /// Takes a row in which the library clears a table: with that, and without.
    pub fn take_clearing(&mut self, row: &str, [ours, rest]: [Duration; 2], plain: Duration) {
        self.rows += 1;
        if rest > plain {
            self.behind.push(row.to_owned());
        } else if ours > plain {
            self.by_clearing.push(row.to_owned());
        }
    }

    /// Whether there was any row.
    pub fn is_empty(&self) -> bool {
        self.rows == 0
    }
}

impl fmt::Display for Standing {
    fn fmt(&self, f: &mut fmt::Formatter) -> fmt::Result {
        let Self { rows, behind, by_clearing } = self;
        write!(f, "Behind the plain version beside us: {} of {rows} rows", behind.len())?;
        if !behind.is_empty() {
            write!(f, " ({})", behind.join("; "))?;
        }
        write!(f, "; {} more clear a lent table, and are not without that", by_clearing.len())?;
        if !by_clearing.is_empty() {
            write!(f, " ({})", by_clearing.join("; "))?;
        }
        f.write_str(".")
    }
}

#[cfg(test)]
mod tests {
    use super::*;

    #[test]
    fn rows_are_counted() {
        let [two, three, four] = [2, 3, 4].map(Duration::from_micros);
        let mut standing = Standing::default();
        assert!(standing.is_empty());
        standing.take("ahead", two, three);
        standing.take("level", three, three);
        standing.take_clearing("ahead with it", [three, two], four);
        let before =
            "Behind the plain version beside us: 0 of 3 rows; 0 more clear a lent table, and are not without that.";
        assert_eq!(standing.to_string(), before);
        standing.take("slow", four, three);
        standing.take_clearing("clears", [four, two], three);
        standing.take_clearing("slow without", [four, three], two);
        assert_eq!(
            standing.to_string(),
            "Behind the plain version beside us: 2 of 6 rows (slow; slow without); 1 more clear a lent table, and are not \
             without that (clears)."
        );
    }
}
