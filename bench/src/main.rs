//! Compares the proved crates with plain Rust: first every answer, then the time.
mod abi;
#[allow(dead_code)]
mod cab;
mod heap;
mod library;
#[allow(dead_code)]
mod pasts;
mod plain;
#[allow(dead_code)]
mod plan;
mod queue;
mod random;
mod reference;
mod roads;

fn main() {
    let given: Vec<String> = std::env::args().skip(1).collect();
    let (numbers, wanted): (Vec<&String>, Vec<&String>) = given.iter().partition(|g| g.bytes().all(|b| b.is_ascii_digit()));
    let number = |at: usize, otherwise: u64| numbers.get(at).map_or(otherwise, |text| text.parse().expect("a number"));
    let runs = |part: &str| wanted.is_empty() || wanted.iter().any(|w| *w == part);
    if runs("queue") {
        queue::compare();
        queue::time();
    }
    if runs("roads") {
        roads::compare();
        roads::time();
    }
    if runs("plan") {
        library::compare(number(1, 1), number(0, 2_000), pasts::past);
    }
    if runs("plan_large") {
        library::compare(number(1, 1), number(0, 4), pasts::large_past);
    }
    if runs("plan_time") {
        library::time();
    }
}
