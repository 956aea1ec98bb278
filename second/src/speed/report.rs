//! The table, and in words which rows are over the limits.

use super::Cost;

/// The most that ours may take for one of plain Rust's, in instructions.
const INSTRUCTIONS: f64 = 1.1;
/// And in time, where either takes so many nanoseconds: below, a clock says little.
const TIME: f64 = 1.25;
const WORTH_TIMING: f64 = 10.0;

pub struct Row {
    pub name: String,
    pub promised: bool,
    pub count: Cost,
    pub time: Cost,
}

impl Row {
    fn is_over(&self) -> bool {
        self.promised && self.count.ratio() > INSTRUCTIONS
    }

    fn is_late(&self) -> bool {
        let longer = self.time.ours.max(self.time.plain);
        self.promised && longer > WORTH_TIMING && self.time.ratio() > TIME
    }
}

/// Prints all, as a table of Markdown; whether the instructions are within their limit.
pub fn print(rows: &[Row]) -> bool {
    println!("| Operation | Instructions, ours | plain Rust | ratio | Nanoseconds, ours | plain Rust | ratio |");
    println!("|---|---|---|---|---|---|---|");
    for row in rows {
        let (name, count, time) = (&row.name, columns(row.count), columns(row.time));
        println!("| {name:<39} | {count} | {time} |");
    }
    println!();
    let waiting = names(rows.iter().filter(|row| !row.promised));
    println!("Printed and not promised: {waiting}.");
    let late = names(rows.iter().filter(|row| row.is_late()));
    println!("In time over {TIME} times plain Rust, of the promised rows that take over {WORTH_TIMING} ns: {late}.");
    let over = names(rows.iter().filter(|row| row.is_over()));
    println!("In instructions over {INSTRUCTIONS} times plain Rust, of the promised rows: {over}.");
    !rows.iter().any(Row::is_over)
}

/// What is below 1 is told so, and has no ratio: no instruction count is, and of a time that is
/// an empty call's noise.
fn columns(cost: Cost) -> String {
    let told = |cost: f64| match cost {
        1.0.. => format!("{cost:.1}"),
        _ => "< 1".to_string(),
    };
    let ratio = match cost.ours.min(cost.plain) {
        1.0.. => format!("{:.2}", cost.ratio()),
        _ => "-".to_string(),
    };
    format!(
        "{:>5} | {:>5} | {ratio:>4}",
        told(cost.ours),
        told(cost.plain)
    )
}

fn names<'a>(rows: impl Iterator<Item = &'a Row>) -> String {
    let names: Vec<&str> = rows.map(|row| row.name.as_str()).collect();
    if names.is_empty() {
        "none".to_string()
    } else {
        names.join("; ")
    }
}
