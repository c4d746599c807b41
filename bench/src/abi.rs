//! The functions of the crate `bench_abi`, as safe Rust. Nothing checks these declarations against its source.

#[repr(C)]
#[derive(Clone, Copy, Debug, Default, PartialEq, Eq)]
pub struct Step {
    pub kind: u32,
    pub number: u32,
    pub first: u64,
    pub second: u32,
}

#[repr(C)]
#[derive(Clone, Copy, Debug, Default, PartialEq, Eq)]
pub struct Answer {
    pub code: u32,
    pub number: u32,
    pub first: u64,
    pub second: u32,
}

#[repr(C)]
#[derive(Clone, Copy, Debug, Default, PartialEq, Eq)]
pub struct Strip {
    pub tail: u32,
    pub head: u32,
    pub least: u32,
}

/// Some calls of a past in a row on one ground.
#[repr(C)]
#[derive(Clone, Copy, Debug, Default, PartialEq, Eq)]
pub struct Stretch {
    pub kind: u32,
    pub first: u32,
    pub second: u32,
    pub third: u32,
    pub strips_from: u32,
    pub strips_to: u32,
    pub heights_from: u32,
    pub heights_to: u32,
    pub layers: u32,
    pub lower: u32,
    pub upper: u32,
    pub asks_from: u32,
    pub asks_to: u32,
}

#[repr(C)]
#[derive(Clone, Copy, Debug, Default, PartialEq, Eq)]
pub struct Ask {
    pub kind: u32,
    pub first: u32,
    pub second: u32,
    pub third: u32,
    pub costs: u32,
    pub places: u32,
    pub queue: u32,
    pub list: u32,
}

#[repr(C)]
#[derive(Clone, Copy, Debug, Default, PartialEq, Eq)]
pub struct Told {
    pub kind: u32,
    pub first: u32,
    pub second: u32,
}

pub const PUT: u32 = 0;
pub const WITHDRAW: u32 = 1;
pub const LOOK: u32 = 2;
pub const TAKE: u32 = 3;

/// The most entries that a run can have.
pub const MOST: usize = 16_384;

mod raw {
    use super::{Answer, Ask, Step, Stretch, Strip, Told};

    unsafe extern "C" {
        pub fn queue_run(size: usize, steps: *const Step, steps_len: usize, answers: *mut Answer, answers_len: usize);
        pub fn queue_sum(size: usize, steps: *const Step, steps_len: usize) -> u64;
        pub fn roads_survey(from: u32, places: u32, strips: *const Strip, strips_len: usize, heights: *mut u32, heights_len: usize) -> u64;
        pub fn roads_load(
            places: u32,
            strips: *const Strip,
            strips_len: usize,
            heights: *const u32,
            heights_len: usize,
            left: *mut u32,
            left_len: usize,
            entered: *mut u32,
            entered_len: usize,
        ) -> u64;
        pub fn plan_run(
            anything: u32,
            stretches: *const Stretch,
            stretches_len: usize,
            strips: *const Strip,
            strips_len: usize,
            heights: *const u32,
            heights_len: usize,
            asks: *const Ask,
            asks_len: usize,
            listed: *const u32,
            listed_len: usize,
            costs: *mut u32,
            costs_len: usize,
            list: *mut u32,
            list_len: usize,
            answers: *mut Told,
            answers_len: usize,
        );
    }
}

/// What each step answers on an empty queue of so many entries.
pub fn queue_run(size: usize, steps: &[Step]) -> Vec<Answer> {
    assert!(size <= MOST);
    let mut answers = vec![Answer::default(); steps.len()];
    unsafe { raw::queue_run(size, steps.as_ptr(), steps.len(), answers.as_mut_ptr(), answers.len()) };
    answers
}

/// A sum over those answers.
pub fn queue_sum(size: usize, steps: &[Step]) -> u64 {
    assert!(size <= MOST);
    unsafe { raw::queue_sum(size, steps.as_ptr(), steps.len()) }
}

/// The most arcs that a run can have: one more than a ground may.
pub const STRIPS: usize = 131_073;

/// A refusal's number and what it carries, from the one number that the boundary passes.
fn parted(code: u64) -> (u64, u64) {
    (code & 0xffff_ffff, code >> 32)
}

/// Surveys from a place into the heights.
pub fn roads_survey(from: u32, places: u32, strips: &[Strip], heights: &mut [u32]) -> (u64, u64) {
    assert!(strips.len() <= STRIPS);
    parted(unsafe { raw::roads_survey(from, places, strips.as_ptr(), strips.len(), heights.as_mut_ptr(), heights.len()) })
}

/// Loads roads, and tells the arcs that leave and enter each place.
pub fn roads_load(places: u32, strips: &[Strip], heights: &[u32]) -> ((u64, u64), Vec<u32>, Vec<u32>) {
    assert!(strips.len() <= STRIPS);
    let mut left = vec![u32::MAX; strips.len()];
    let mut entered = vec![u32::MAX; strips.len()];
    let code = unsafe {
        raw::roads_load(
            places,
            strips.as_ptr(),
            strips.len(),
            heights.as_ptr(),
            heights.len(),
            left.as_mut_ptr(),
            left.len(),
            entered.as_mut_ptr(),
            entered.len(),
        )
    };
    (parted(code), left, entered)
}

/// A past as the boundary passes it.
#[derive(Debug, Default)]
pub struct Script {
    pub stretches: Vec<Stretch>,
    pub strips: Vec<Strip>,
    pub heights: Vec<u32>,
    pub asks: Vec<Ask>,
    pub listed: Vec<u32>,
}

/// The most entries that a table of places or a queue can have.
pub const PLACES: usize = 16_400;

/// What each call of the script answers, with the routes one after the other in the list.
pub fn plan_run(anything: u32, script: &Script, costs: &mut [u32], list: &mut [u32]) -> Vec<Told> {
    assert!(script.strips.len() <= STRIPS);
    assert!(script.asks.iter().all(|a| a.places.max(a.queue) as usize <= PLACES && a.costs as usize <= costs.len()));
    let mut answers = vec![Told { kind: u32::MAX, first: 0, second: 0 }; script.asks.len()];
    unsafe {
        raw::plan_run(
            anything,
            script.stretches.as_ptr(),
            script.stretches.len(),
            script.strips.as_ptr(),
            script.strips.len(),
            script.heights.as_ptr(),
            script.heights.len(),
            script.asks.as_ptr(),
            script.asks.len(),
            script.listed.as_ptr(),
            script.listed.len(),
            costs.as_mut_ptr(),
            costs.len(),
            list.as_mut_ptr(),
            list.len(),
            answers.as_mut_ptr(),
            answers.len(),
        )
    };
    answers
}
