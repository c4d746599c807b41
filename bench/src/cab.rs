//! The cab program once more: a sheet, an empty line and call lines in, a line of text for each call out.
use crate::reference::{Answer, Ask, Call, Ground, Plan, Tables};

const MOST_BYTES: usize = 32_768;
const MOST_PLACES: u64 = 256;
const MOST_ARCS: usize = 1_024;
const MOST_LISTED: usize = 256;

/// One to ten digits, and no more than 32 bits hold.
fn number(field: &str) -> Option<u32> {
    let digits = (1..=10).contains(&field.len()) && field.bytes().all(|b| b.is_ascii_digit());
    if digits { field.parse::<u64>().ok()?.try_into().ok() } else { None }
}

/// The lines of a text; a last byte 10 opens no further one.
fn lines(text: &str) -> Vec<&str> {
    let mut lines: Vec<&str> = text.split('\n').collect();
    if lines.last() == Some(&"") {
        lines.pop();
    }
    lines
}

/// The arcs that the lines of a sheet say, or the number of the refusal.
fn sheet(lines: &[&str]) -> Result<Vec<(u32, u32, u32)>, u32> {
    if lines.len() > MOST_ARCS + 1 {
        return Err(5);
    }
    let names: Vec<&str> = lines.first().ok_or(11u32)?.split(' ').collect();
    let mut sorted = names.clone();
    sorted.sort_unstable();
    if sorted != ["from", "least", "to"] {
        return Err(11);
    }
    let column = |name: &str| names.iter().position(|n| *n == name).unwrap();
    let (from, to, least) = (column("from"), column("to"), column("least"));
    let mut arcs = Vec::new();
    for line in &lines[1..] {
        let fields: Vec<&str> = line.split(' ').collect();
        if fields.len() != 3 {
            return Err(11);
        }
        let values: Vec<u32> = fields.iter().map(|f| number(f).ok_or(11u32)).collect::<Result<_, _>>()?;
        arcs.push((values[from], values[to], values[least]));
    }
    Ok(arcs)
}

/// The least sums of least costs from a place, by going over all arcs until nothing changes; none where some place is not reached.
pub fn survey(from: u32, n: u32, arcs: &[(u32, u32, u32)]) -> Option<Vec<u32>> {
    let mut sums: Vec<Option<u32>> = vec![None; n as usize];
    sums[from as usize] = Some(0);
    let mut changed = true;
    while changed {
        changed = false;
        for &(tail, head, least) in arcs {
            if let Some(sum) = sums[tail as usize] {
                if sums[head as usize].is_none_or(|s| s > sum + least) {
                    sums[head as usize] = Some(sum + least);
                    changed = true;
                }
            }
        }
    }
    sums.into_iter().collect()
}

/// A call line taken apart, or none if it has none of the forms.
fn ask(line: &str) -> Option<Ask> {
    let mut fields = line.split(' ');
    let letter = fields.next()?;
    let numbers: Vec<u32> = fields.map(number).collect::<Option<_>>()?;
    match (letter, &numbers[..]) {
        ("b", [here, landing, slack]) => Some(Ask::Begin { here: *here, landing: *landing, slack: *slack }),
        ("c", [arc, cost]) => Some(Ask::Set { arc: *arc, cost: *cost }),
        ("h", [place]) => Some(Ask::Move { place: *place }),
        ("s", [slack]) => Some(Ask::Stretch { slack: *slack }),
        ("r", [turns]) => Some(Ask::Search { turns: u16::try_from(*turns).ok()? }),
        ("p", []) => Some(Ask::Route { list: MOST_ARCS }),
        ("t", arcs) if (1..=MOST_LISTED).contains(&arcs.len()) => Some(Ask::Sum { arcs: arcs.to_vec() }),
        _ => None,
    }
}

fn told(answer: &Answer) -> String {
    match answer {
        Answer::Done => "done".into(),
        Answer::Settled { turns, count } => format!("settled {turns} {count}"),
        Answer::Cut { turns, count } => format!("cut {turns} {count}"),
        Answer::Route { arcs, sum } => arcs.iter().fold(format!("route {sum}"), |text, j| format!("{text} {j}")),
        Answer::Sum(sum) => format!("sum {sum}"),
        Answer::Refused(number) => format!("refused {number}"),
    }
}

/// All that the program prints for its input.
pub fn haul(input: &[u8]) -> String {
    let read = &input[..input.len().min(MOST_BYTES)];
    // one character a byte, so that any input can be cut up as text
    let text: String = read.iter().map(|&b| b as char).collect();
    let lines = lines(&text);
    let end = lines.iter().position(|l| l.is_empty()).unwrap_or(lines.len());
    let refused = |number: u32| format!("refused {number}\n");
    let arcs = match sheet(&lines[..end]) {
        Ok(arcs) => arcs,
        Err(number) => return refused(number),
    };
    let n = arcs.iter().map(|a| a.0.max(a.1) as u64 + 1).max().unwrap_or(0);
    if n > MOST_PLACES {
        return refused(5);
    }
    let n = n as u32;
    if arcs.iter().any(|a| !(1..=10_000).contains(&a.2)) {
        return refused(12);
    }
    let mut ground = Ground::roads(n, &arcs, &vec![0; n as usize]);
    let mut plan = Plan::default();
    let mut out = String::new();
    let tables = Tables { places: MOST_PLACES as usize, costs: MOST_ARCS, queue: MOST_PLACES as usize };
    for line in lines.iter().skip(end + 1) {
        let answer = match ask(line) {
            None => Answer::Refused(17),
            Some(ask) => {
                if let Ask::Begin { here, landing, slack } = ask {
                    if here < n && landing < n && (16..=160).contains(&slack) {
                        let heights = survey(here, n, &arcs).unwrap_or(vec![0; n as usize]);
                        ground = Ground::roads(n, &arcs, &heights);
                    }
                }
                plan.call(std::slice::from_ref(&ground), &Call { ground: 0, tables, ask })
            }
        };
        out += &told(&answer);
        out.push('\n');
    }
    out
}

/// Runs every case of a folder, `NAME.in` with `NAME.out`, and tells how many came out equal.
pub fn cases(folder: &str) -> Result<usize, String> {
    let mut inputs: Vec<_> = std::fs::read_dir(folder)
        .map_err(|e| format!("{folder}: {e}"))?
        .map(|entry| entry.unwrap().path())
        .filter(|path| path.extension().is_some_and(|e| e == "in"))
        .collect();
    inputs.sort();
    let mut wrong = Vec::new();
    for path in &inputs {
        let input = std::fs::read(path).unwrap();
        let wanted = std::fs::read(path.with_extension("out")).map_err(|e| format!("{}: {e}", path.display()))?;
        let printed = haul(&input);
        if printed.as_bytes() != &wanted[..] {
            wrong.push(format!("{}:\n{printed}--- wanted\n{}", path.display(), String::from_utf8_lossy(&wanted)));
        }
    }
    if wrong.is_empty() { Ok(inputs.len()) } else { Err(format!("{} of {} cases differ\n{}", wrong.len(), inputs.len(), wrong.join("\n"))) }
}
