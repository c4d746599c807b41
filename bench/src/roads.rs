//! Load and Survey beside plain Rust that does the same.
use crate::abi::{self, Strip};
use crate::random::Random;
use std::cmp::Reverse;
use std::collections::BinaryHeap;
use std::time::{Duration, Instant};

/// Why tables are declined before anything is measured or loaded: 5, 12, 13.
fn unlawful(places: u32, strips: &[Strip], heights: usize) -> Option<(u64, u64)> {
    if heights < places as usize {
        return Some((5, 0));
    }
    let bad = |s: &Strip| s.tail >= places || s.head >= places || !(1..=10_000).contains(&s.least);
    strips.iter().position(bad).map(|j| (12, j as u64))
}

/// Load, from its rules.
fn load(places: u32, strips: &[Strip], heights: &[u32]) -> (u64, u64) {
    if let Some(told) = unlawful(places, strips, heights.len()) {
        return told;
    }
    let high = heights[..places as usize].iter().any(|h| *h > 163_830_000);
    if places > 16_384 || strips.len() > 131_072 || high {
        return (13, 0);
    }
    let height = |p: u32| heights[p as usize] as u64;
    match strips.iter().position(|s| height(s.head) > height(s.tail) + s.least as u64) {
        Some(j) => (14, j as u64),
        None => (0, 0),
    }
}

/// Dijkstra with Rust's own heap.
fn sums(from: u32, places: u32, strips: &[Strip]) -> Vec<Option<u32>> {
    let mut leaving = vec![Vec::new(); places as usize];
    for s in strips {
        leaving[s.tail as usize].push((s.head, s.least));
    }
    let mut sums = vec![None; places as usize];
    let mut heap = BinaryHeap::from([(Reverse(0), from)]);
    while let Some((Reverse(sum), p)) = heap.pop() {
        if sums[p as usize].is_some() {
            continue;
        }
        sums[p as usize] = Some(sum);
        for (head, least) in &leaving[p as usize] {
            if sums[*head as usize].is_none() {
                heap.push((Reverse(sum + least), *head));
            }
        }
    }
    sums
}

/// Survey, from its rules.
fn survey(from: u32, places: u32, strips: &[Strip], heights: &mut [u32]) -> (u64, u64) {
    if from >= places {
        return (3, 0);
    }
    if let Some(told) = unlawful(places, strips, heights.len()) {
        return told;
    }
    if places > 16_384 || strips.len() > 131_072 {
        return (13, 0);
    }
    let sums = sums(from, places, strips);
    if let Some(p) = sums.iter().position(|s| s.is_none()) {
        return (15, p as u64);
    }
    for (h, s) in heights.iter_mut().zip(sums) {
        *h = s.unwrap();
    }
    (0, 0)
}

/// The arcs at each place by one end, one place after the other.
fn arcs_by(places: u32, strips: &[Strip], end: fn(&Strip) -> u32) -> Vec<u32> {
    let mut order: Vec<u32> = (0..strips.len() as u32).collect();
    order.retain(|j| end(&strips[*j as usize]) < places);
    order.sort_by_key(|j| (end(&strips[*j as usize]), *j));
    order
}

/// A net that is mostly lawful and mostly all reached.
fn net(random: &mut Random, places: u32, arcs: usize) -> Vec<Strip> {
    let any = |random: &mut Random| random.below(places.max(1) as u64) as u32;
    (0..arcs)
        .map(|j| {
            let tail = if j + 1 < places as usize { random.below(j as u64 + 1) as u32 } else { any(random) };
            let head = if j + 1 < places as usize { j as u32 + 1 } else { any(random) };
            let most = if random.below(4) == 0 { 10_000 } else { 20 };
            Strip { tail, head, least: 1 + random.below(most) as u32 }
        })
        .collect()
}

fn damage(random: &mut Random, places: u32, strips: &mut [Strip]) {
    if strips.is_empty() || random.below(3) > 0 {
        return;
    }
    let j = random.below(strips.len() as u64) as usize;
    match random.below(4) {
        0 => strips[j].tail = places + random.below(3) as u32,
        1 => strips[j].head = places,
        2 => strips[j].least = 0,
        _ => strips[j].least = 10_001,
    }
}

/// Many made tables, some damaged: every answer, every height and the arcs at every place.
pub fn compare() {
    let mut random = Random::new(5);
    let rounds = 3_000;
    let mut told = std::collections::BTreeMap::new();
    for round in 0..rounds {
        let places = random.below(24) as u32;
        let arcs = random.below(60) as usize;
        let mut strips = net(&mut random, places, arcs);
        damage(&mut random, places, &mut strips);
        let entries = if random.below(10) == 0 { random.below(places as u64 + 1) as usize } else { places as usize + 2 };
        let from = random.below(places as u64 + 1) as u32;
        let mut heights: Vec<u32> = (0..entries).map(|_| random.below(40) as u32).collect();
        let mut plain = heights.clone();
        let answer = abi::roads_survey(from, places, &strips, &mut heights);
        assert_eq!(answer, survey(from, places, &strips, &mut plain), "survey, round {round}");
        assert_eq!(heights, plain, "heights, round {round}");
        *told.entry(("survey", answer.0)).or_insert(0) += 1;
        if random.below(8) == 0 && !heights.is_empty() {
            let p = random.below(heights.len() as u64) as usize;
            heights[p] = if random.below(2) == 0 { 163_830_001 } else { heights[p] + 30_000 };
        }
        let (answer, left, entered) = abi::roads_load(places, &strips, &heights);
        assert_eq!(answer, load(places, &strips, &heights), "load, round {round}");
        *told.entry(("load", answer.0)).or_insert(0) += 1;
        if answer.0 == 0 {
            assert_eq!(left, arcs_by(places, &strips, |s| s.tail), "leaving, round {round}");
            assert_eq!(entered, arcs_by(places, &strips, |s| s.head), "entering, round {round}");
        }
    }
    println!("roads: {rounds} tables surveyed and loaded as by plain Rust; answers by refusal: {told:?}");
}

fn best(rounds: usize, run: &mut dyn FnMut()) -> Duration {
    (0..rounds)
        .map(|_| {
            let start = Instant::now();
            run();
            start.elapsed()
        })
        .min()
        .unwrap()
}

/// A survey and a load of the largest net, beside plain Rust.
pub fn time() {
    let places = 16_384;
    let strips = net(&mut Random::new(9), places, 131_072);
    let mut heights = vec![0; places as usize];
    let mut plain = vec![0; places as usize];
    let proved = best(9, &mut || assert_eq!(abi::roads_survey(0, places, &strips, &mut heights), (0, 0)));
    let rust = best(9, &mut || assert_eq!(survey(0, places, &strips, &mut plain), (0, 0)));
    assert_eq!(heights, plain);
    report("survey", proved, rust);
    let proved = best(9, &mut || assert_eq!(abi::roads_load(places, &strips, &heights).0, (0, 0)));
    let rust = best(9, &mut || {
        assert_eq!(load(places, &strips, &heights), (0, 0));
        assert_eq!(arcs_by(places, &strips, |s| s.tail).len(), strips.len());
        assert_eq!(arcs_by(places, &strips, |s| s.head).len(), strips.len());
    });
    report("load and every arc at every place", proved, rust);
}

fn report(what: &str, proved: Duration, rust: Duration) {
    let ratio = proved.as_secs_f64() / rust.as_secs_f64();
    println!(
        "roads, 16384 places and 131072 arcs, {what}: {:.1} ms, plain Rust {:.1} ms, ratio {ratio:.2}",
        proved.as_secs_f64() * 1e3,
        rust.as_secs_f64() * 1e3
    );
}
