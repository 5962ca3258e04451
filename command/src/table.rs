//! Columns of text under headings, and quotients with a fixed number of decimals.

/// A table: words to the left, numbers to the right.
#[derive(Default)]
pub struct Table {
    headings: Vec<&'static str>,
    right: Vec<bool>,
    rows: Vec<Vec<String>>,
}

impl Table {
    /// Headings; those that begin with `>` stand over numbers.
    pub fn new(headings: &[&'static str]) -> Table {
        Table {
            right: headings.iter().map(|h| h.starts_with('>')).collect(),
            headings: headings.iter().map(|h| h.trim_start_matches('>')).collect(),
            rows: Vec::new(),
        }
    }

    pub fn row(&mut self, cells: Vec<String>) {
        self.rows.push(cells);
    }

    pub fn is_empty(&self) -> bool {
        self.rows.is_empty()
    }

    /// The lines of the table.
    pub fn lines(&self) -> Vec<String> {
        let headings: Vec<String> = self.headings.iter().map(|h| h.to_string()).collect();
        let width = |column: usize| {
            let cells = self.rows.iter().map(|row| &row[column]);
            let cells = cells.chain([&headings[column]]);
            cells.map(|cell| cell.chars().count()).max().unwrap_or(0)
        };
        let widths: Vec<usize> = (0..headings.len()).map(width).collect();
        let line = |cells: &Vec<String>| {
            let mut line = String::new();
            for (i, cell) in cells.iter().enumerate() {
                let room = " ".repeat(widths[i] - cell.chars().count());
                if i > 0 {
                    line.push_str("  ");
                }
                if self.right[i] {
                    line.push_str(&room);
                    line.push_str(cell);
                } else {
                    line.push_str(cell);
                    line.push_str(&room);
                }
            }
            line.trim_end().to_string()
        };
        std::iter::once(&headings)
            .chain(&self.rows)
            .map(line)
            .collect()
    }
}

/// A quotient in hundredths or the like, rounded, halves up; none if nothing divides.
pub fn scaled(n: u64, d: u64, scale: u64) -> Option<u128> {
    let (n, d) = (u128::from(n), u128::from(d));
    (d > 0).then(|| (2 * n * u128::from(scale) + d) / (2 * d))
}

/// A quotient with two decimals, or a dash.
pub fn mean(n: u64, d: u64) -> String {
    match scaled(n, d, 100) {
        Some(q) => format!("{}.{:02}", q / 100, q % 100),
        None => "-".to_string(),
    }
}

/// A share in percent with one decimal, or a dash.
pub fn percent(n: u64, d: u64) -> String {
    match scaled(n, d, 1000) {
        Some(q) => format!("{}.{}%", q / 10, q % 10),
        None => "-".to_string(),
    }
}

#[cfg(test)]
mod tests {
    use super::{mean, percent};

    #[test]
    fn quotients_are_rounded() {
        assert_eq!(mean(1, 3), "0.33");
        assert_eq!(mean(2, 3), "0.67");
        assert_eq!(mean(1, 200), "0.01");
        assert_eq!(mean(7, 0), "-");
        assert_eq!(mean(u64::MAX, 1), format!("{}.00", u64::MAX));
        assert_eq!(percent(1, 3), "33.3%");
        assert_eq!(percent(5, 4), "125.0%");
        assert_eq!(percent(0, 0), "-");
    }
}
