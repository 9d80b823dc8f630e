//! The table of times, and that of instructions.

use std::time::Duration;

/// One line: a call on a book, and the times that there are.
pub struct Line<'a> {
    pub book: &'a str,
    pub call: String,
    pub engine: Option<Duration>,
    pub second: Option<Duration>,
    /// A plain loop over the same bytes.
    pub plain: Option<Duration>,
}

/// Prints the head of the table of times.
pub fn head() {
    let cells = [
        "book",
        "call",
        "engine",
        "second",
        "second/engine",
        "sums only",
        "engine/sums",
    ];
    print(cells.map(str::to_string));
}

/// Prints a line.
pub fn row(line: &Line) {
    print([
        line.book.to_string(),
        line.call.clone(),
        time(line.engine),
        time(line.second),
        ratio(line.second, line.engine),
        time(line.plain),
        ratio(line.engine.filter(|_| line.plain.is_some()), line.plain),
    ]);
}

fn print([book, call, engine, second, ratio, plain, plain_ratio]: [String; 7]) {
    let timed = format!("{engine:>10} {second:>10} {ratio:>14}");
    println!("{book:<29} {call:<23} {timed} {plain:>10} {plain_ratio:>12}");
}

fn time(time: Option<Duration>) -> String {
    match time {
        None => "-".to_string(),
        Some(time) => format!("{time:.1?}"),
    }
}

fn ratio(of: Option<Duration>, to: Option<Duration>) -> String {
    match (of, to) {
        (Some(of), Some(to)) if !to.is_zero() => {
            format!("{:.1}", of.as_secs_f64() / to.as_secs_f64())
        }
        _ => "-".to_string(),
    }
}

/// Prints the head of the table of instructions.
pub fn count_head() {
    count_print(["book", "call", "instructions", "to sums"].map(str::to_string));
}

/// Prints the instructions of a call, and their ratio to those of the sums.
pub fn count_row(book: &str, call: &str, number: Option<u64>, sums: Option<u64>) {
    let ratio = match (number, sums) {
        (Some(number), Some(sums)) if sums > 0 => format!("{:.1}", number as f64 / sums as f64),
        _ => "-".to_string(),
    };
    let number = number.map_or("-".to_string(), |number| number.to_string());
    count_print([book.to_string(), call.to_string(), number, ratio]);
}

fn count_print([book, call, number, ratio]: [String; 4]) {
    println!("{book:<30} {call:<17} {number:>14} {ratio:>8}");
}
