//! The writer, the way back and the planner, on random records, files and shardings.

use super::{refused, same, same_at_boundary, Difference, Met, Outcome};
use bench::answers::{Axis, Device, Refusal, MOST_BYTES, MOST_DEVICES};
use bench::plans::{self, Draft, Scale, FILE_REFUSALS};
use bench::random::Random;
use bench::records::{
    MeshAndTable, Opened, Records, ShardingRecord, StepRecord, LEAST_STEP_BYTES, RECORD_BYTES,
};
use bench::spreads::{product, Layout};
use bench::{implementations, spoilt, Implementation, Reference};
use std::fmt;

/// The refusals that the writer gives.
const WRITE_REFUSALS: [u8; 27] = [
    2, 5, 7, 8, 10, 11, 12, 13, 14, 15, 16, 17, 19, 20, 21, 22, 23, 24, 25, 26, 27, 28, 35, 41, 42,
    43, 44,
];

/// The refusals that the planner gives.
const PLAN_REFUSALS: [u8; 12] = [5, 8, 10, 11, 12, 13, 14, 15, 16, 17, 19, 40];

/// What was tried.
#[derive(Default)]
pub struct Tally {
    writes: usize,
    written: usize,
    reads: usize,
    read: usize,
    plans: usize,
    /// Plans by their number of steps.
    of_length: [usize; 4],
    carried: usize,
    pub refused_writes: Met,
    pub refused_reads: Met,
    pub refused_plans: Met,
}

impl Tally {
    /// The numbers that these calls give and that were not met.
    pub fn missing(&self) -> Vec<String> {
        let reads: Vec<u8> = FILE_REFUSALS.into_iter().chain([33]).collect();
        let calls = [
            ("write", &WRITE_REFUSALS[..], &self.refused_writes),
            ("read", &reads, &self.refused_reads),
            ("plan", &PLAN_REFUSALS, &self.refused_plans),
        ];
        calls
            .into_iter()
            .flat_map(|(call, numbers, met): (&str, &[u8], &Met)| met.missing(call, numbers))
            .collect()
    }
}

impl fmt::Display for Tally {
    fn fmt(&self, f: &mut fmt::Formatter) -> fmt::Result {
        writeln!(f, "{} writes, {} files written", self.writes, self.written)?;
        writeln!(f, "    refused: {}", self.refused_writes)?;
        let read = self.read;
        writeln!(f, "{} reads, {read} written again as they were", self.reads)?;
        writeln!(f, "    refused: {}", self.refused_reads)?;
        let [none, one, two, three] = self.of_length;
        writeln!(
            f,
            "{} plans between shardings, {none} of no step, {one} of one, {two} of two, {three} of three",
            self.plans
        )?;
        writeln!(f, "    {} spreads carried to the goal", self.carried)?;
        write!(f, "    refused: {}", self.refused_plans)
    }
}

/// A length for something that needs so many entries: just enough, some more, or too few.
fn random_length(random: &mut Random, needed: usize) -> usize {
    match random.below(8) {
        0 => random.below(needed + 1),
        1 | 2 => needed.saturating_sub(1),
        3..6 => needed,
        _ => needed + random.between(1, 100),
    }
}

// ---- the writer

/// Writes random records, sound or not, into a buffer of any length.
pub fn compare_write(
    random: &mut Random,
    library: &dyn Implementation,
    tally: &mut Tally,
) -> Outcome {
    let records = match random.once_in(4) {
        true => Records::from(&super::random_draft(random)),
        false => spoilt::records(random),
    };
    let needed = Reference.write(&records, &mut vec![0; MOST_BYTES]);
    let length = random_length(random, needed.unwrap_or(40));
    let before = vec![random.byte(); length];
    let (mut ours, mut theirs) = (before.clone(), before.clone());
    let answer = Reference.write(&records, &mut ours);
    tally.writes += 1;
    tally.refused_writes.see(&answer);
    let call = format!("write into {length} bytes of {}", told(&records));
    let written = answer.unwrap_or(0);
    same(&call, &ours, &before[written..], &ours[written..])?;
    let other = library.write(&records, &mut theirs);
    same(&call, &ours, &(answer, &ours), &(other, &theirs))?;
    let call = format!("{call}, any bytes in the places not used");
    same_at_boundary(&ours, &call, |raw| {
        raw.write(random, &records, &before, (answer, &ours))
    })?;
    if answer.is_ok() {
        tally.written += 1;
        compare_again(library, &ours[..written])?;
    }
    Ok(())
}

/// Records as text, the first steps of them.
fn told(records: &Records) -> String {
    let Records { on, start, steps } = records;
    let (count, first) = (steps.len(), &steps[..steps.len().min(80)]);
    format!("{on:?}\n{start:?}\n{count} steps {first:?}")
}

// ---- the way back

/// What a read answers and leaves.
type ReadBack = (Result<Opened, Refusal>, Vec<Device>, Vec<u8>);

fn read(one: &dyn Implementation, file: &[u8], order: &[Device], steps: &[u8]) -> ReadBack {
    let (mut order, mut steps) = (order.to_vec(), steps.to_vec());
    let answer = one.read(file, &mut order, &mut steps);
    (answer, order, steps)
}

/// Reads into lists that are long enough for every plan.
fn read_whole(one: &dyn Implementation, file: &[u8]) -> ReadBack {
    let order = [Device::default(); MOST_DEVICES];
    let steps = vec![0; file.len() / LEAST_STEP_BYTES * RECORD_BYTES];
    read(one, file, &order, &steps)
}

/// Reads a file, an accepted one or not, into lists of any length. An accepted one is also read
/// whole and written again.
pub fn compare_read(
    random: &mut Random,
    library: &dyn Implementation,
    file: &[u8],
    tally: &mut Tally,
) -> Outcome {
    let (answer, ..) = read_whole(&Reference, file);
    let needed = |opened: &Opened| (opened.order, opened.steps);
    let (order, steps) = answer.as_ref().map_or((4, 2 * RECORD_BYTES), needed);
    let (order, steps) = match random.below(4) {
        // A whole record too few, or a device.
        0 => (order, steps.saturating_sub(RECORD_BYTES)),
        1 => (order.saturating_sub(1), steps),
        _ => (random_length(random, order), random_length(random, steps)),
    };
    let order = vec![Device(random.draw() as u16); order];
    let steps = vec![random.byte(); steps];
    let ours = read(&Reference, file, &order, &steps);
    let theirs = read(library, file, &order, &steps);
    tally.reads += 1;
    tally.refused_reads.see(&ours.0);
    let call = format!(
        "read into {} devices and {} bytes",
        order.len(),
        steps.len()
    );
    same(&call, file, &ours, &theirs)?;
    same_at_boundary(file, &call, |raw| raw.read(file, &order, &steps, ours.0))?;
    if answer.is_ok() {
        tally.read += 1;
        compare_again(library, file)?;
    }
    Ok(())
}

/// An accepted file, read and written again, comes out byte for byte.
fn compare_again(library: &dyn Implementation, file: &[u8]) -> Outcome {
    for one in [&Reference, library] {
        let call = format!("read and written again, {}", one.name());
        let (answer, order, steps) = read_whole(one, file);
        let opened = answer.map_err(|refusal| refused(&call, file, refusal))?;
        let records = Records::opened(&opened, &order, &steps);
        let mut again = vec![0; file.len()];
        let answer = records.map(|records| one.write(&records, &mut again));
        same(
            &call,
            file,
            &(Some(Ok(file.len())), file),
            &(answer, &again),
        )?;
    }
    Ok(())
}

// ---- the planner

/// The shardings that a plan is asked for between.
struct Route {
    on: MeshAndTable,
    start: ShardingRecord,
    goal: ShardingRecord,
}

/// Plans between random shardings. A plan is written, checked and run on a spread of a table.
pub fn compare_plan(
    random: &mut Random,
    library: Option<&dyn Implementation>,
    tally: &mut Tally,
) -> Outcome {
    let route = random_route(random);
    let Route { on, start, goal } = &route;
    let answer = Reference.plan(on, start, goal);
    tally.plans += 1;
    tally.refused_plans.see(&answer);
    if let Some(library) = library {
        let call = format!("plan on {on:?}\nfrom {start:?}\nto {goal:?}");
        same(&call, &[], &answer, &library.plan(on, start, goal))?;
        same_at_boundary(&[], &call, |raw| {
            raw.plan(random, on, start, goal, answer.clone())
        })?;
    }
    let Ok(steps) = answer else {
        return Ok(());
    };
    tally.of_length[steps.len()] += 1;
    tally.carried += 1;
    let table = random.words(product(&on.table));
    let seed = random.draw();
    for one in implementations() {
        carry(&mut Random::new(seed), one, &route, &steps, &table)?;
    }
    Ok(())
}

/// A mesh, a table and two shardings of it: the same one, others that a plan leads to, and others
/// that none does.
fn random_route(random: &mut Random) -> Route {
    let scale = Scale {
        devices: random.pick(&[4, 16, 64]),
        words: random.pick(&[8, 64, 512]),
        steps: 0,
        run: 0,
    };
    let mut draft = plans::accepted(random, scale);
    if random.once_in(4) {
        spoilt::spoil(random, &mut draft);
    }
    let Records { on, start, .. } = Records::from(&draft);
    let goal = match random.once_in(10) {
        true => start.clone(),
        false => random_goal(random, &draft, &start),
    };
    let mut route = Route { on, start, goal };
    match random.below(24) {
        0 => past_a_limit(random, &mut route),
        1 | 2 => spoil_goal(random, &mut route.goal),
        3 => spoilt::order(random, &mut route.on.order),
        _ => {}
    }
    route
}

/// Too many or too few axes or dimensions.
fn past_a_limit(random: &mut Random, route: &mut Route) {
    if random.once_in(2) {
        route.on.mesh = vec![1; random.pick(&[0, 7])];
        return;
    }
    route.on.table = vec![1; random.pick(&[0, 5])];
    for sharding in [&mut route.start, &mut route.goal] {
        sharding.dims.resize(route.on.table.len(), Vec::new());
    }
}

/// Another sharding, most often one that the table has and that a plan leads to: it has beginnings
/// in common with the start.
fn random_goal(random: &mut Random, draft: &Draft, start: &ShardingRecord) -> ShardingRecord {
    let mut goal = start.clone();
    goal.unreduced.retain(|_| random.once_in(2));
    for list in &mut goal.dims {
        list.truncate(random.between(0, list.len()));
    }
    let named = [
        goal.dims.concat(),
        goal.unreduced.clone(),
        goal.replicated.clone(),
    ]
    .concat();
    let mut axes: Vec<Axis> = (0..draft.mesh.len() as u8).map(Axis).collect();
    axes.retain(|axis| !named.contains(axis));
    random.shuffle(&mut axes);
    for axis in axes {
        let dim = random.below(goal.dims.len());
        let fits = divides(draft, &goal.dims[dim], axis, draft.table[dim]);
        match random.below(64) {
            0..32 if fits => goal.dims[dim].push(axis),
            32 => goal.dims[dim].push(axis),
            33 => goal.unreduced.push(axis),
            34 => goal.replicated.push(axis),
            _ => {}
        }
    }
    goal.unreduced.sort();
    goal.replicated.sort();
    goal
}

/// Whether a dimension of this size can be split along a list with one axis more.
fn divides(draft: &Draft, list: &[Axis], more: Axis, size: u16) -> bool {
    let sizes = list
        .iter()
        .chain([&more])
        .map(|axis| draft.mesh.get(axis.index()));
    let pieces: usize = sizes
        .map(|size| size.map_or(1, |&size| usize::from(size)))
        .product();
    pieces > 0 && usize::from(size).is_multiple_of(pieces)
}

/// Breaks a sharding, so that it is refused as the start of a plan would be.
fn spoil_goal(random: &mut Random, goal: &mut ShardingRecord) {
    let list = match random.below(3) {
        0 => &mut goal.dims[0],
        1 => &mut goal.unreduced,
        _ => &mut goal.replicated,
    };
    match random.below(4) {
        0 => list.resize(random.pick(&[7, 255]), Axis(0)),
        1 => list.push(Axis(random.between(5, 255) as u8)),
        2 => list.reverse(),
        _ => list.extend(list.first().copied()),
    }
}

/// The plan of one implementation: its file ends at the goal, and its run makes a faithful spread of
/// a table under the start one of the same table under the goal.
fn carry(
    random: &mut Random,
    one: &dyn Implementation,
    route: &Route,
    steps: &[StepRecord],
    table: &[u32],
) -> Outcome {
    let call = format!("a plan to the goal {:?}, {}", route.goal, one.name());
    let records = Records {
        on: route.on.clone(),
        start: route.start.clone(),
        steps: steps.to_vec(),
    };
    let mut file = vec![0; MOST_BYTES];
    let length = one.write(&records, &mut file);
    file.truncate(length.map_err(|refusal| refused(&call, &[], refusal))?);
    let checked = one.check(&file);
    let checked = checked.map_err(|refusal| refused(&call, &file, refusal))?;
    let ends = ShardingRecord::from(&checked.sharding);
    same(&call, &file, &route.goal, &ends)?;
    let start = one.place(&file, 0, Device(0));
    let start = start.map_err(|refusal| refused(&call, &file, refusal))?;
    let layout = |sharding| Layout {
        mesh: &route.on.mesh,
        order: &route.on.order,
        table: &route.on.table,
        sharding,
    };
    let mut work = layout(&start.sharding).spread(table, random);
    work.resize(checked.room as usize, random.word());
    let mut spare = random.words(work.len());
    let ran = one.run(&file, &mut work, &mut spare);
    ran.map_err(|refusal| refused(&call, &file, refusal))?;
    let arrived = layout(&checked.sharding).try_spread(table, &work);
    arrived.map_err(|told| Difference { call, file, told })
}
