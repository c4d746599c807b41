//! What needs no proved library: the reference planner on the cases of a folder, on random pasts, and beside the plain planner.
mod cab;
mod pasts;
mod plain;
mod plan;
mod random;
mod reference;

fn number(given: &[String], at: usize, otherwise: u64) -> u64 {
    given.get(at).map_or(otherwise, |text| text.parse().expect("a number"))
}

fn main() {
    let given: Vec<String> = std::env::args().skip(1).collect();
    match given.first().map(String::as_str) {
        Some("reference") if given.len() == 2 => match cab::cases(&given[1]) {
            Ok(count) => println!("reference: all {count} cases of {} as written", given[1]),
            Err(told) => {
                eprintln!("{told}");
                std::process::exit(1);
            }
        },
        Some("pasts") => pasts::promise(number(&given, 2, 1), number(&given, 1, 20_000), pasts::past),
        Some("plain") => plan::plain_beside_reference(number(&given, 2, 1), number(&given, 1, 20_000), pasts::past),
        Some("large") => {
            pasts::promise(number(&given, 2, 1), number(&given, 1, 40), pasts::large_past);
            plan::plain_beside_reference(number(&given, 2, 1), number(&given, 1, 40), pasts::large_past);
        }
        Some("time") => plan::time_plain(),
        _ => {
            eprintln!("usage: reference FOLDER | pasts [COUNT [FIRST SEED]] | plain [COUNT [FIRST SEED]] | large [COUNT [FIRST SEED]] | time");
            std::process::exit(2);
        }
    }
}
