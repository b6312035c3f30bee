//! The clock that the core is handed, and the guard before it. The table takes a time ahead for good: nothing expires until it is reached. So a
//! time that is more than a day beyond the table's own clock is not handed on.

use std::time::{Duration, SystemTime, UNIX_EPOCH};

const DAY: u64 = 86_400;
/// How often house is kept: what is dead is freed, and the table's clock moves where nobody calls, so that a quiet week does not look like a jump.
pub const KEEPING: Duration = Duration::from_secs(60);

/// Seconds from 1970, UTC.
pub fn now() -> u64 {
    SystemTime::now().duration_since(UNIX_EPOCH).map_or(0, |since| since.as_secs())
}

/// The clock of a table, from its first block.
pub fn of_table(table: &[u8]) -> u64 {
    table.get(8..16).and_then(|bytes| bytes.try_into().ok()).map_or(0, u64::from_le_bytes)
}

/// What is wrong with a time ahead of the table's, or nothing.
pub fn jump(now: u64, table: u64) -> Option<String> {
    (now > table.saturating_add(DAY)).then(|| {
        format!(
            "this machine's clock is {} beyond the table's, where the last call left it. If the clock is right, say so by \
             `pyhtirso clock-is-right` and start again; if not, set it: a time ahead would stop all expiry until it is reached",
            span(now - table)
        )
    })
}

/// What is wrong with a table that is ahead of the time, or nothing.
pub fn lag(now: u64, table: u64) -> Option<String> {
    (table > now.saturating_add(DAY)).then(|| {
        format!(
            "the table's clock is {} beyond this machine's, and nothing in it expires until then. If the machine's clock is wrong, set it; \
             if it is right, move the database away: a new table is made and everybody signs in again",
            span(table - now)
        )
    })
}

fn span(seconds: u64) -> String {
    match seconds / DAY {
        0 | 1 => format!("{} hours", seconds / 3_600),
        days => format!("{days} days"),
    }
}

#[cfg(test)]
mod tests {
    use super::*;

    #[test]
    fn a_day_is_let_through_and_a_second_more_is_not() {
        assert_eq!(jump(1_000 + DAY, 1_000), None);
        assert!(jump(1_001 + DAY, 1_000).unwrap().contains("24 hours"));
        assert_eq!(lag(1_000, 1_000 + DAY), None);
        assert!(lag(1_000, 1_000 + 366 * DAY).unwrap().contains("366 days"));
        assert_eq!(jump(5, u64::MAX), None);
    }
}
