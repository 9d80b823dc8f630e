//! The smallest stack on which each call runs. A call that has too little stops its process, so each
//! try is a process of its own.

use crate::{count, Input};
use std::process::{Command, Stdio};

/// What needs stack: the largest tables, and the longest recursion, up a chain of categories. For each of
/// the two there is a book with a blocked rule, where Culprits does more than Blocked.
const BOOKS: [&str; 4] = ["largest", "32 together", "one chain", "blocked chain"];

/// Prints the smallest stack of each call on each book, and on all.
pub fn print() {
    print_line("KiB", BOOKS.map(str::to_string), "all".to_string());
    let once = |name: &str| !["sums", "idle, all rules"].contains(&name);
    for call in count::CALLS.iter().filter(|call| once(call.name)) {
        let each = BOOKS.map(|book| smallest(call.name, book));
        let all = each.into_iter().max().unwrap_or(0);
        print_line(call.name, each.map(|kib| kib.to_string()), all.to_string());
    }
}

fn print_line(name: &str, each: [String; 4], all: String) {
    let each = each.map(|cell| format!(" {cell:>13}")).concat();
    println!("{name:<15}{each} {all:>13}");
}

/// The smallest stack of a call, to the next KiB, of those that a thread can have.
fn smallest(call: &str, book: &str) -> usize {
    let (mut low, mut high) = (16, 1024);
    while low < high {
        let middle = (low + high) / 2;
        match runs(middle, call, book) {
            true => high = middle,
            false => low = middle + 1,
        }
    }
    low
}

fn runs(kib: usize, call: &str, book: &str) -> bool {
    let Ok(this) = std::env::current_exe() else {
        return false;
    };
    let mut try_it = Command::new(this);
    try_it.args(["on", &kib.to_string(), call, book]);
    try_it.stderr(Stdio::null());
    try_it.status().is_ok_and(|status| status.success())
}

/// Makes one call on a thread with a stack of so many KiB.
pub fn run(kib: &str, call: &str, input: &Input) {
    let kib: usize = kib.parse().expect("a number of KiB");
    let call = count::ready(call, input);
    let thread = std::thread::Builder::new().stack_size(1024 * kib);
    std::thread::scope(|scope| {
        thread
            .spawn_scoped(scope, call)
            .expect("a thread")
            .join()
            .expect("it returns");
    });
}
