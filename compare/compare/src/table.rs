//! The table at the end of a run.

use crate::differ::Tally;
use std::time::Duration;

pub struct Row {
    pub group: &'static str,
    pub tally: Tally,
    pub took: Duration,
}

pub fn print(rows: &[Row]) {
    println!(
        "{:<12}{:>12}{:>12}{:>14}{:>10}",
        "group", "cases", "by Rust", "by document", "seconds"
    );
    for Row { group, tally, took } in rows {
        println!(
            "{group:<12}{:>12}{:>12}{:>14}{:>10.1}",
            tally.cases,
            tally.by_original,
            tally.by_document,
            took.as_secs_f64()
        );
    }
    let sum = |count: fn(&Tally) -> u64| rows.iter().map(|row| count(&row.tally)).sum::<u64>();
    println!(
        "compare: {} groups, {} cases, {} differences",
        rows.len(),
        sum(|tally| tally.cases),
        sum(|tally| tally.differences)
    );
}

/// The first difference of a group.
pub fn print_difference(group: &str, tally: &Tally) {
    let Some(first) = &tally.first else { return };
    println!("{group}: {} differences, the first at line {}", tally.differences, first.line);
    println!("  case: {}", first.case);
    println!("  {} says: {}", first.by, first.right);
    println!("  the port says: {}", first.port);
}
