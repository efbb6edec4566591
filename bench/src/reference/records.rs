//! Document 02, Asks 2 and 10: the writer, the way back, and the planner.

use super::{
    product_within, within_limits, Item, Judge, Mesh, Order, Plan, Source, State, Step, MOST_BYTES,
    MOST_DEVICES, MOST_WORDS, REPEAT,
};
use crate::answers::{Axis, AxisList, Device, DimLists, Refusal, Sharding, Sizes};
use crate::records::{MeshAndTable, Opened, Records, ShardingRecord, StepRecord};
use std::slice;

/// Writes the file of a plan, and answers how many bytes it has.
pub fn write(records: &Records, out: &mut [u8]) -> Result<usize, Refusal> {
    let steps = outermost(&records.steps);
    let ground = Ground::judge(&records.on, steps)?;
    let start = ground.state(&records.start)?;
    let walk = Walk {
        left: records.steps.iter(),
        at: None,
    };
    Judge::new(&ground.mesh, walk, start).outermost(steps)?;
    let file = encode(records, steps);
    if file.len() > MOST_BYTES {
        return Err(Refusal::whole(2));
    }
    let part = out.get_mut(..file.len()).ok_or(Refusal::whole(35))?;
    part.copy_from_slice(&file);
    Ok(file.len())
}

/// Reads the file of a plan: the order and the step records into the lent lists, the rest as the
/// answer. What stands behind them in the lists stays.
pub fn read(file: &[u8], order: &mut [Device], steps: &mut [u8]) -> Result<Opened, Refusal> {
    let plan = Plan::judge(file)?;
    let mut records = Vec::new();
    plan.steps
        .iter()
        .for_each(|item| add_records(item, &mut records));
    let bytes: Vec<u8> = records.iter().flat_map(StepRecord::to_bytes).collect();
    let devices = &plan.order.0;
    let short = Refusal::whole(33);
    let order = order.get_mut(..devices.len()).ok_or(short)?;
    let steps = steps.get_mut(..bytes.len()).ok_or(short)?;
    order.copy_from_slice(devices);
    steps.copy_from_slice(&bytes);
    Ok(Opened {
        mesh: plan.mesh.sizes.to_vec(),
        table: plan.table,
        start: plan.states[0].sharding,
        order: order.len(),
        steps: steps.len(),
    })
}

/// Adds the records of a step, those of a block behind its repeat.
fn add_records(item: &Item, records: &mut Vec<StepRecord>) {
    let vecs = |lists: &DimLists| lists.iter().map(|list| list.to_vec()).collect();
    match item {
        Item::Plain(taken) => records.push(match &taken.step {
            Step::Slice(lists) => StepRecord::Slice(vecs(lists)),
            Step::Gather(lists) => StepRecord::Gather(vecs(lists)),
            Step::Reduce(axes) => StepRecord::Reduce(axes.to_vec()),
            Step::AllToAll {
                source,
                target,
                axes,
            } => StepRecord::AllToAll(*source, *target, axes.to_vec()),
            Step::Scatter(lists) => StepRecord::Scatter(vecs(lists)),
        }),
        Item::Repeat(count, block) => {
            records.push(StepRecord::Repeat {
                count: *count as u8,
                steps: block.len() as u8,
            });
            block.iter().for_each(|inner| add_records(inner, records));
        }
    }
}

/// Makes the plan from one sharding to another.
pub fn plan(
    on: &MeshAndTable,
    start: &ShardingRecord,
    goal: &ShardingRecord,
) -> Result<Vec<StepRecord>, Refusal> {
    let ground = Ground::judge(on, 0)?;
    let start = ground.state(start)?.sharding;
    let goal = ground.state(goal)?.sharding;
    let all_there = goal
        .unreduced
        .iter()
        .all(|axis| start.unreduced.contains(axis));
    if !all_there || start.replicated != goal.replicated {
        return Err(Refusal::whole(40));
    }
    let kept = |axis: &Axis| goal.unreduced.contains(axis);
    let reduced = start.unreduced.iter().copied().filter(|axis| !kept(axis));
    let (mut gathered, mut sliced) = (Vec::new(), Vec::new());
    for (from, to) in start.dims.iter().zip(&goal.dims) {
        let same = from.iter().zip(to).take_while(|(one, other)| one == other);
        let common = same.count();
        gathered.push(from[common..].to_vec());
        sliced.push(to[common..].to_vec());
    }
    let steps = [
        StepRecord::Reduce(reduced.collect()),
        StepRecord::Gather(gathered),
        StepRecord::Slice(sliced),
    ];
    let named = |step: &StepRecord| !step.axes().is_empty();
    Ok(steps.into_iter().filter(named).collect())
}

/// How many records stand in no block. The records may end inside one.
fn outermost(steps: &[StepRecord]) -> usize {
    let mut count = 0;
    // How many steps are still to come of the blocks that are open.
    let mut inside = 0;
    for step in steps {
        match inside {
            0 => count += 1,
            _ => inside -= 1,
        }
        if let StepRecord::Repeat { steps, .. } = step {
            inside += usize::from(*steps);
        }
    }
    count
}

/// A mesh and a table that passed.
struct Ground {
    mesh: Mesh,
    table: Sizes,
}

impl Ground {
    fn judge(on: &MeshAndTable, steps: usize) -> Result<Ground, Refusal> {
        within_limits(on.mesh.len(), on.table.len(), steps)?;
        let mesh = Mesh::judge(on.mesh.iter().copied().collect(), MOST_DEVICES)?;
        if !on.order.is_empty() {
            Order::judge(on.order.clone(), mesh.devices)?;
        }
        let table: Sizes = on.table.iter().copied().collect();
        product_within(&table, 12, MOST_WORDS, 13)?;
        Ok(Ground { mesh, table })
    }

    /// The state of the table under a sharding; all counts are judged before the first axis.
    fn state(&self, given: &ShardingRecord) -> Result<State, Refusal> {
        let axes = self.mesh.axes();
        let sharding = Sharding {
            dims: lists(&given.dims, axes)?,
            unreduced: list(&given.unreduced, axes)?,
            replicated: list(&given.replicated, axes)?,
        };
        State::start(&self.mesh, &self.table, sharding)
    }
}

fn list(given: &[Axis], axes: usize) -> Result<AxisList, Refusal> {
    if given.len() > axes {
        return Err(Refusal::whole(8));
    }
    Ok(given.iter().copied().collect())
}

fn lists(given: &[Vec<Axis>], axes: usize) -> Result<DimLists, Refusal> {
    given.iter().map(|given| list(given, axes)).collect()
}

/// Goes through records from the first to the last.
struct Walk<'a> {
    left: slice::Iter<'a, StepRecord>,
    at: Option<&'a StepRecord>,
}

impl Source for Walk<'_> {
    fn kind(&mut self) -> Result<u8, Refusal> {
        self.at = self.left.next();
        self.at.map(kind).ok_or(Refusal::whole(7))
    }

    fn repeat(
        &mut self,
        positive: &dyn Fn(u8) -> Result<usize, Refusal>,
    ) -> Result<(usize, usize), Refusal> {
        match self.at {
            Some(StepRecord::Repeat { count, steps }) => Ok((positive(*count)?, positive(*steps)?)),
            _ => Err(Refusal::whole(7)),
        }
    }

    fn step(&mut self, _: u8, axes: usize, _: usize) -> Result<Option<Step>, Refusal> {
        Ok(match self.at {
            Some(StepRecord::Slice(given)) => Some(Step::Slice(lists(given, axes)?)),
            Some(StepRecord::Gather(given)) => Some(Step::Gather(lists(given, axes)?)),
            Some(StepRecord::Reduce(given)) => Some(Step::Reduce(list(given, axes)?)),
            Some(StepRecord::AllToAll(source, target, given)) => Some(Step::AllToAll {
                source: *source,
                target: *target,
                axes: list(given, axes)?,
            }),
            Some(StepRecord::Scatter(given)) => Some(Step::Scatter(lists(given, axes)?)),
            _ => None,
        })
    }
}

fn kind(step: &StepRecord) -> u8 {
    match step {
        StepRecord::Slice(_) => 1,
        StepRecord::Gather(_) => 2,
        StepRecord::Reduce(_) => 3,
        StepRecord::AllToAll(..) => 4,
        StepRecord::Scatter(_) => 5,
        StepRecord::Repeat { .. } => REPEAT,
        StepRecord::Unknown(kind) => *kind,
    }
}

/// The bytes of the file of records that passed.
fn encode(records: &Records, steps: usize) -> Vec<u8> {
    let on = &records.on;
    let edition = match (&*on.order, &*records.start.replicated) {
        ([], []) => 1,
        ([], _) => 2,
        _ => 3,
    };
    let order = on.order.iter().map(|device| device.0);
    let mesh: Vec<u8> = on
        .mesh
        .iter()
        .copied()
        .chain(order)
        .flat_map(u16::to_le_bytes)
        .collect();
    let table: Vec<u8> = on
        .table
        .iter()
        .copied()
        .flat_map(u16::to_le_bytes)
        .collect();
    let mut start = list_bytes(&records.start.dims);
    start.extend(list_bytes(slice::from_ref(&records.start.unreduced)));
    if edition > 1 {
        start.extend(list_bytes(slice::from_ref(&records.start.replicated)));
    }
    let tail: Vec<u8> = records.steps.iter().flat_map(step_bytes).collect();
    let mesh_at = 18;
    let table_at = mesh_at + mesh.len();
    let start_at = table_at + table.len();
    let steps_at = start_at + start.len();
    let (axes, rank) = (on.mesh.len(), on.table.len());
    let length = steps_at + tail.len();
    let header = [
        edition, axes, rank, steps, mesh_at, table_at, start_at, steps_at, length,
    ];
    let header = header
        .iter()
        .flat_map(|&number| (number as u16).to_le_bytes());
    header.chain([mesh, table, start, tail].concat()).collect()
}

fn list_bytes(lists: &[Vec<Axis>]) -> Vec<u8> {
    let bytes = |list: &Vec<Axis>| {
        let count = list.len() as u8;
        std::iter::once(count)
            .chain(list.iter().map(|axis| axis.0))
            .collect::<Vec<u8>>()
    };
    lists.iter().flat_map(bytes).collect()
}

fn step_bytes(step: &StepRecord) -> Vec<u8> {
    let mut bytes = vec![kind(step)];
    match step {
        StepRecord::Slice(lists) | StepRecord::Gather(lists) | StepRecord::Scatter(lists) => {
            bytes.extend(list_bytes(lists))
        }
        StepRecord::Reduce(axes) => bytes.extend(list_bytes(slice::from_ref(axes))),
        StepRecord::AllToAll(source, target, axes) => {
            bytes.extend([source.0, target.0]);
            bytes.extend(list_bytes(slice::from_ref(axes)));
        }
        StepRecord::Repeat { count, steps } => bytes.extend([*count, *steps]),
        StepRecord::Unknown(_) => {}
    }
    bytes
}
