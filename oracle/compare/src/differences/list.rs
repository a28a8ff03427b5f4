//! docs/DIFFERENCES.md: which differences are listed.
use super::{all, Difference};

pub struct Listed {
    /// Each row of a table whose first cell is `D` and a number: that cell, and the row.
    rows: Vec<(String, String)>,
}

impl Listed {
    pub fn parse(text: &str) -> Result<Listed, String> {
        let mut rows: Vec<(String, String)> = Vec::new();
        for line in text.lines() {
            let first = line.strip_prefix('|').and_then(|rest| rest.split('|').next()).unwrap_or_default().trim();
            if first.strip_prefix('D').map_or(false, |number| number.parse::<u16>().is_ok()) {
                if rows.iter().any(|(id, _)| id == first) {
                    return Err(format!("{first} is listed twice"));
                }
                rows.push((first.into(), line.into()));
            }
        }
        Ok(Listed { rows })
    }

    pub fn has(&self, id: &str) -> bool {
        self.rows.iter().any(|(listed, _)| listed == id)
    }

    /// Listed ids that this program has no difference for.
    pub fn unknown(&self) -> Vec<&str> {
        self.rows.iter().map(|(id, _)| id.as_str()).filter(|id| all().all(|known| known.id != *id)).collect()
    }

    /// The lines of a difference's smallest input that its row does not show.
    pub fn not_shown<'a>(&self, difference: &'a Difference) -> Vec<&'a str> {
        let row = self.rows.iter().find(|(id, _)| id == difference.id).map_or("", |(_, row)| row);
        difference.smallest.lines().filter(|line| line.len() <= SHOWN && !row.contains(&format!("`{line}`"))).collect()
    }
}

/// Longer lines are described in the row, and not shown.
const SHOWN: usize = 80;
