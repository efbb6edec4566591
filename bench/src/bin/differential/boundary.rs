//! The answers as they cross the boundary, down to the places that are not used: both as text, where
//! they differ. What is given has any bytes in such places.

use super::shown;
use bench::answers::{Checked, Device, NotPlaced, Placed, Refusal, MOST_AXES, MOST_RANK};
use bench::library::{
    raw, RawChecked, RawOpened, RawPlaced, RawPlacedAll, RawPlanned, RawRan, RawSharding, RawWritten,
};
use bench::random::Random;
use bench::records::{
    MeshAndTable, Opened, Records, ShardingRecord, StepRecord, RECORD_BYTES, RECORD_LISTS,
};

pub struct Boundary;

/// Puts any byte into each place of lists that is not used. A list has six.
fn fill(random: &mut Random, counts: &mut [u8], axes: &mut [u8], is_used: impl Fn(usize) -> bool) {
    let lists = counts.iter_mut().zip(axes.chunks_mut(MOST_AXES));
    for (list, (count, places)) in lists.enumerate() {
        let used = if is_used(list) { *count } else { 0 };
        if !is_used(list) {
            *count = random.byte();
        }
        let others = places.iter_mut().skip(used.into());
        others.for_each(|place| *place = random.byte());
    }
}

/// A sharding of a table of this rank with any bytes in the places that are not used.
fn sharding(random: &mut Random, given: &ShardingRecord, rank: usize) -> RawSharding {
    let mut raw = RawSharding::of(given, rank);
    let is_used = |list| list < rank || list >= MOST_RANK;
    fill(
        random,
        &mut raw.counts,
        raw.axes.as_flattened_mut(),
        is_used,
    );
    raw
}

/// The same of a step record.
fn record(random: &mut Random, step: &StepRecord, rank: usize) -> [u8; RECORD_BYTES] {
    let mut bytes = step.to_bytes();
    let (head, lists) = bytes.split_at_mut(3);
    let (counts, axes) = lists.split_at_mut(RECORD_LISTS);
    let kind = head[0];
    let is_used = |list| match kind {
        1 | 2 | 5 => list < rank.min(MOST_RANK),
        3 | 4 => list == MOST_RANK,
        _ => false,
    };
    fill(random, counts, axes, is_used);
    if kind != 4 && kind != 9 {
        (head[1], head[2]) = (random.byte(), random.byte());
    }
    bytes
}

impl Boundary {
    pub fn check(self, file: &[u8], answer: Result<Checked, Refusal>) -> Option<String> {
        shown(&RawChecked::from(answer), &raw::check(file))
    }

    pub fn run(
        self,
        file: &[u8],
        work: &[u32],
        spare: &[u32],
        answer: Result<u64, Refusal>,
    ) -> Option<String> {
        let (mut work, mut spare) = (work.to_vec(), spare.to_vec());
        shown(
            &RawRan::from(answer),
            &raw::run(file, &mut work, &mut spare),
        )
    }

    pub fn place(
        self,
        file: &[u8],
        state: u16,
        device: Device,
        answer: Result<Placed, Refusal>,
    ) -> Option<String> {
        shown(&RawPlaced::from(answer), &raw::place(file, state, device))
    }

    pub fn place_all(
        self,
        (file, state, devices): (&[u8], u16, &[Device]),
        before: &[u16],
        (answer, after): (Result<(), NotPlaced>, &[u16]),
    ) -> Option<String> {
        let mut first = before.to_vec();
        let placed = raw::place_all(file, state, devices, &mut first);
        shown(&(RawPlacedAll::from(answer), after), &(placed, &first))
    }

    /// With any bytes in the places that are not used, and some after the last record.
    pub fn write(
        self,
        random: &mut Random,
        records: &Records,
        before: &[u8],
        (answer, after): (Result<usize, Refusal>, &[u8]),
    ) -> Option<String> {
        let rank = records.on.table.len();
        let start = sharding(random, &records.start, rank);
        let filled = |step: &StepRecord| record(random, step, rank);
        let mut steps: Vec<u8> = records.steps.iter().flat_map(filled).collect();
        let more = random.below(RECORD_BYTES);
        steps.extend((0..more).map(|_| random.byte()));
        let mut out = before.to_vec();
        let written = raw::write(&records.on, start, &steps, &mut out);
        shown(&(RawWritten::from(answer), after), &(written, &out))
    }

    pub fn read(
        self,
        file: &[u8],
        order: &[Device],
        steps: &[u8],
        answer: Result<Opened, Refusal>,
    ) -> Option<String> {
        let (mut order, mut steps) = (order.to_vec(), steps.to_vec());
        shown(
            &RawOpened::from(answer),
            &raw::read(file, &mut order, &mut steps),
        )
    }

    /// With any bytes in the places that are not used.
    pub fn plan(
        self,
        random: &mut Random,
        on: &MeshAndTable,
        start: &ShardingRecord,
        goal: &ShardingRecord,
        answer: Result<Vec<StepRecord>, Refusal>,
    ) -> Option<String> {
        let rank = on.table.len();
        let (start, goal) = (sharding(random, start, rank), sharding(random, goal, rank));
        shown(&RawPlanned::from(answer), &raw::plan(on, start, goal))
    }
}
