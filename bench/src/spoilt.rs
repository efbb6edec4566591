//! Plans as records that are refused, most of them.

use crate::answers::{Axis, Device, Dim, MOST_AXES, MOST_BYTES, MOST_RANK, MOST_STEPS};
use crate::blocks;
use crate::plans::{self, axes, Draft, Step};
use crate::random::Random;
use crate::records::{Records, StepRecord};

/// Records with something changed in the plan that they are of, or among the records themselves.
pub fn records(random: &mut Random) -> Records {
    let mut draft = plans::small(random);
    match random.below(16) {
        0 => return past_a_limit(random, draft),
        1 => return too_long(random),
        2..10 => {
            for _ in 0..random.between(1, 3) {
                spoil(random, &mut draft);
            }
        }
        _ => {}
    }
    let mut records = Records::from(&draft);
    match random.below(4) {
        // Often inside a block.
        0 => records
            .steps
            .truncate(random.below(records.steps.len() + 1)),
        1 => drop(spoil_record(random, &mut records.steps)),
        2 if random.once_in(4) => order(random, &mut records.on.order),
        _ => {}
    }
    records
}

/// Changes an order of devices; it may still pass.
pub fn order(random: &mut Random, order: &mut Vec<Device>) {
    match random.below(6) {
        0 => order.sort(),
        1 => drop(order.pop()),
        2 => order.push(Device(random.draw() as u16)),
        3 => order.clear(),
        _ if order.is_empty() => {}
        _ => {
            let at = random.below(order.len());
            order[at] = Device(random.between(0, order.len()) as u16);
        }
    }
}

/// Too many or too few axes, dimensions or steps.
fn past_a_limit(random: &mut Random, draft: Draft) -> Records {
    let mut records = Records::from(&draft);
    match random.below(3) {
        0 => records.on.mesh = vec![1; random.pick(&[0, MOST_AXES + 1, 300])],
        1 => {
            let rank = random.pick(&[0, MOST_RANK + 1, 300]);
            records.on.table = vec![1; rank];
            records.start.dims = vec![Vec::new(); rank];
            records.steps.clear();
        }
        _ => {
            let steps = random.pick(&[0, 1]);
            let step = StepRecord::Repeat { count: 1, steps };
            let last = StepRecord::Unknown(random.byte() | 16);
            records.steps = [vec![step; 2 * MOST_STEPS], vec![last; MOST_STEPS]].concat();
        }
    }
    records
}

/// A file of one byte too many, with sound steps or not; now and then more records than step numbers.
fn too_long(random: &mut Random) -> Records {
    let mut records = Records::from(&blocks::longest(random, plans::small, MOST_BYTES + 1));
    match random.below(8) {
        0 => drop(spoil_record(random, &mut records.steps)),
        1 => records = past_numbers(random),
        _ => {}
    }
    records
}

/// More records than step numbers, with something changed in them, often where the numbers end.
fn past_numbers(random: &mut Random) -> Records {
    let mut records = more_than_numbers();
    let end = usize::from(u16::MAX);
    let near = random.between(end - 4, end + 4);
    match random.below(6) {
        0 => {}
        1 => records.steps.truncate(near),
        2 => drop(spoil_record(random, &mut records.steps)),
        _ => records.steps[near] = StepRecord::Unknown(random.byte() | 16),
    }
    records
}

/// One repeat of more records than 16 bits count. Each of its blocks is accepted, and together they
/// run too many plain steps: 43 in step 1.
pub fn more_than_numbers() -> Records {
    let repeat = |steps: usize| {
        let steps = steps as u8;
        vec![StepRecord::Repeat { count: 1, steps }]
    };
    let there = StepRecord::Slice(vec![axes(&[0])]);
    let back = StepRecord::Gather(vec![axes(&[0])]);
    let plain = vec![[there, back]; 127].concat();
    let inner = [repeat(254), plain].concat();
    let block = [repeat(16), vec![inner; 16].concat()].concat();
    let mut records = Records::default();
    records.on.mesh = vec![2];
    records.on.table = vec![2];
    records.start.dims = vec![Vec::new()];
    records.steps = [repeat(17), vec![block; 17].concat()].concat();
    records
}

/// Changes a record, and not those that belong to it.
fn spoil_record(random: &mut Random, steps: &mut [StepRecord]) -> Option<()> {
    let at = random.below(steps.len().max(1));
    let step = steps.get_mut(at)?;
    match step {
        StepRecord::Repeat { count, steps } => match random.once_in(2) {
            true => *count = random.pick(&[0, 1, 255]),
            false => *steps = steps.wrapping_add(random.pick(&[1, 255])),
        },
        _ if random.once_in(2) => *step = StepRecord::Unknown(random.pick(&[0, 6, 7, 8, 10, 255])),
        StepRecord::Slice(lists) | StepRecord::Gather(lists) | StepRecord::Scatter(lists) => {
            let list = random.below(lists.len());
            lists[list].resize(random.pick(&[0, MOST_AXES, MOST_AXES + 1, 255]), Axis(1));
        }
        StepRecord::Reduce(axes) if random.once_in(2) => axes.extend(axes.first().copied()),
        StepRecord::Reduce(axes) | StepRecord::AllToAll(_, _, axes) => {
            axes.resize(random.pick(&[0, MOST_AXES, MOST_AXES + 1, 255]), Axis(1));
        }
        StepRecord::Unknown(_) => {}
    }
    Some(())
}

/// Some list of axes: of the start, or of a step in a block or outside.
fn random_list<'a>(random: &mut Random, draft: &'a mut Draft) -> Option<&'a mut Vec<Axis>> {
    fn gathered<'a>(step: &'a mut Step, all: &mut Vec<&'a mut Vec<Axis>>) {
        match step {
            Step::Slice(lists) | Step::Gather(lists) | Step::Scatter(lists) => all.extend(lists),
            Step::Reduce(axes) | Step::AllToAll(_, _, axes) => all.push(axes),
            Step::Repeat(_, block) => block.iter_mut().for_each(|step| gathered(step, all)),
            Step::Bytes(_) => {}
        }
    }
    let mut all: Vec<&mut Vec<Axis>> = draft.start.iter_mut().collect();
    all.push(&mut draft.unreduced);
    all.push(&mut draft.replicated);
    for step in &mut draft.steps {
        gathered(step, &mut all);
    }
    let at = random.below(all.len());
    all.into_iter().nth(at)
}

/// Changes something of a plan; it may still pass.
pub fn spoil(random: &mut Random, draft: &mut Draft) -> Option<()> {
    match random.below(10) {
        0 => {
            *draft.mesh.last_mut()? = random.pick(&[0, 1, 3, 1025]);
            draft.order.clear();
        }
        1 => *draft.table.last_mut()? = random.pick(&[0, 1, 3, 65535]),
        2 => *random_list(random, draft)?.last_mut()? = Axis(random.below(8) as u8),
        3 => random_list(random, draft)?.push(Axis(random.below(8) as u8)),
        4 => *random_list(random, draft)? = axes(&[0; 7]),
        5 => random_list(random, draft)?.reverse(),
        6 => random_list(random, draft)?.clear(),
        7 => draft.order.sort_unstable(),
        8 => {
            let at = random.below(draft.steps.len() + 1);
            let block = draft.steps.clone();
            let step = match random.below(4) {
                0 => Step::Bytes(vec![random.pick(&[0, 6, 8, 10, 255])]),
                1 => Step::AllToAll(Dim(random.byte() % 5), Dim(1), axes(&[0])),
                _ => Step::Repeat(random.pick(&[0, 1, 2, 255]), block),
            };
            draft.steps.insert(at, step);
        }
        _ => {
            let first = random.below(draft.steps.len() + 1);
            draft.steps.drain(..first);
        }
    }
    Some(())
}
