//! Plans as records, which the writer of document 02 takes, the reading call gives back and the
//! planner makes. `Records::new` makes them of nested steps.

use crate::answers::{Axis, Device, Dim, Sharding, Sizes, MOST_AXES, MOST_RANK};
use crate::plans::{Draft, Lists, Step};

/// A mesh, the order of its devices (empty for plain order) and the sizes of a table.
#[derive(Clone, Debug, Default, PartialEq, Eq)]
pub struct MeshAndTable {
    pub mesh: Vec<u16>,
    pub order: Vec<Device>,
    pub table: Vec<u16>,
}

/// A sharding with a list for each dimension of its table. Lists may be longer than any that passes.
#[derive(Clone, Debug, Default, PartialEq, Eq)]
pub struct ShardingRecord {
    pub dims: Lists,
    pub unreduced: Vec<Axis>,
    pub replicated: Vec<Axis>,
}

/// What stands at one kind byte.
#[derive(Clone, Debug, PartialEq, Eq)]
pub enum StepRecord {
    Slice(Lists),
    Gather(Lists),
    Reduce(Vec<Axis>),
    AllToAll(Dim, Dim, Vec<Axis>),
    Scatter(Lists),
    /// A block that is run `count` times; its `steps` steps are the records behind it.
    Repeat {
        count: u8,
        steps: u8,
    },
    /// A kind that no step has.
    Unknown(u8),
}

/// A plan: a record for each kind byte, in file order.
#[derive(Clone, Debug, Default, PartialEq, Eq)]
pub struct Records {
    pub on: MeshAndTable,
    pub start: ShardingRecord,
    pub steps: Vec<StepRecord>,
}

/// What the reading call answers beside the two lists that it fills.
#[derive(Clone, Debug, PartialEq, Eq)]
pub struct Opened {
    pub mesh: Vec<u16>,
    pub table: Sizes,
    pub start: Sharding,
    /// How many device numbers were written; none for plain order.
    pub order: usize,
    /// How many bytes of step records were written.
    pub steps: usize,
}

/// The lists of a step record: those of dimensions 0 to 3, and the one list of a step that has one.
pub const RECORD_LISTS: usize = MOST_RANK + 1;
/// The bytes of a step record: kind, source, target, the counts of its lists, six places for each.
pub const RECORD_BYTES: usize = 3 + RECORD_LISTS + RECORD_LISTS * MOST_AXES;
/// The fewest bytes that a step record has in an accepted file: a step names an axis.
pub const LEAST_STEP_BYTES: usize = 3;

impl StepRecord {
    /// The record as the calls take it; places that are not used are 0. A list with more axes than
    /// places keeps its count, up to 255.
    pub fn to_bytes(&self) -> [u8; RECORD_BYTES] {
        let none: &[Vec<Axis>] = &[];
        let no_list: &[Axis] = &[];
        let (kind, source, target, lists, list) = match self {
            StepRecord::Slice(lists) => (1, 0, 0, &lists[..], no_list),
            StepRecord::Gather(lists) => (2, 0, 0, &lists[..], no_list),
            StepRecord::Reduce(axes) => (3, 0, 0, none, &axes[..]),
            StepRecord::AllToAll(source, target, axes) => (4, source.0, target.0, none, &axes[..]),
            StepRecord::Scatter(lists) => (5, 0, 0, &lists[..], no_list),
            StepRecord::Repeat { count, steps } => (9, *count, *steps, none, no_list),
            StepRecord::Unknown(kind) => (*kind, 0, 0, none, no_list),
        };
        let mut bytes = [0; RECORD_BYTES];
        bytes[..3].copy_from_slice(&[kind, source, target]);
        let by_dim = lists
            .iter()
            .map(|list| &list[..])
            .take(MOST_RANK)
            .enumerate();
        for (at, list) in by_dim.chain([(MOST_RANK, list)]) {
            bytes[3 + at] = list.len().min(255) as u8;
            let places = &mut bytes[3 + RECORD_LISTS + MOST_AXES * at..][..MOST_AXES];
            for (place, axis) in places.iter_mut().zip(list) {
                *place = axis.0;
            }
        }
        bytes
    }

    /// The record of a table of this rank. Nothing where there are not as many bytes, or a list has
    /// more axes than places.
    pub fn from_bytes(bytes: &[u8], rank: usize) -> Option<StepRecord> {
        let (head, rest) = bytes.split_first_chunk::<3>()?;
        let (counts, places) = rest.split_first_chunk::<RECORD_LISTS>()?;
        let list = |at: usize| -> Option<Vec<Axis>> {
            let places = places.get(MOST_AXES * at..)?.get(..MOST_AXES)?;
            let axes = places.get(..counts[at].into())?;
            Some(axes.iter().map(|&axis| Axis(axis)).collect())
        };
        let lists = || (0..rank).map(list).collect::<Option<Lists>>();
        let [kind, source, target] = *head;
        Some(match kind {
            1 => StepRecord::Slice(lists()?),
            2 => StepRecord::Gather(lists()?),
            3 => StepRecord::Reduce(list(MOST_RANK)?),
            4 => StepRecord::AllToAll(Dim(source), Dim(target), list(MOST_RANK)?),
            5 => StepRecord::Scatter(lists()?),
            9 => StepRecord::Repeat {
                count: source,
                steps: target,
            },
            _ => StepRecord::Unknown(kind),
        })
    }

    /// All its axes in file order.
    pub fn axes(&self) -> Vec<Axis> {
        match self {
            StepRecord::Slice(lists) | StepRecord::Gather(lists) | StepRecord::Scatter(lists) => {
                lists.concat()
            }
            StepRecord::Reduce(axes) | StepRecord::AllToAll(_, _, axes) => axes.clone(),
            StepRecord::Repeat { .. } | StepRecord::Unknown(_) => Vec::new(),
        }
    }
}

impl Records {
    /// The records of a plan, made of steps that may have blocks of others. A block has 255 steps at
    /// most: panics where one has more.
    pub fn new(on: MeshAndTable, start: ShardingRecord, steps: &[Step]) -> Records {
        let mut records = Vec::new();
        steps.iter().for_each(|step| flatten(step, &mut records));
        Records {
            on,
            start,
            steps: records,
        }
    }

    /// The records that a reading call answered and left. Nothing where it did not write as many.
    pub fn opened(opened: &Opened, order: &[Device], steps: &[u8]) -> Option<Records> {
        let bytes = steps.get(..opened.steps)?;
        let rank = opened.table.len();
        let record = |bytes| StepRecord::from_bytes(bytes, rank);
        Some(Records {
            on: MeshAndTable {
                mesh: opened.mesh.clone(),
                order: order.get(..opened.order)?.to_vec(),
                table: opened.table.to_vec(),
            },
            start: ShardingRecord::from(&opened.start),
            steps: bytes
                .chunks(RECORD_BYTES)
                .map(record)
                .collect::<Option<_>>()?,
        })
    }

    /// The steps with their blocks inside them. Nothing where the records end inside a block, or one
    /// has a kind that no step has.
    pub fn nested(&self) -> Option<Vec<Step>> {
        let mut left = self.steps.iter();
        let mut steps = Vec::new();
        while !left.as_slice().is_empty() {
            steps.push(next_step(&mut left)?);
        }
        Some(steps)
    }
}

/// The step at the front, with its block.
fn next_step(left: &mut std::slice::Iter<StepRecord>) -> Option<Step> {
    Some(match left.next()? {
        StepRecord::Slice(lists) => Step::Slice(lists.clone()),
        StepRecord::Gather(lists) => Step::Gather(lists.clone()),
        StepRecord::Reduce(axes) => Step::Reduce(axes.clone()),
        StepRecord::AllToAll(source, target, axes) => {
            Step::AllToAll(*source, *target, axes.clone())
        }
        StepRecord::Scatter(lists) => Step::Scatter(lists.clone()),
        StepRecord::Repeat { count, steps } => {
            let block: Option<Vec<Step>> = (0..*steps).map(|_| next_step(left)).collect();
            Step::Repeat(*count, block?)
        }
        StepRecord::Unknown(_) => return None,
    })
}

impl From<&Sharding> for ShardingRecord {
    fn from(sharding: &Sharding) -> ShardingRecord {
        ShardingRecord {
            dims: sharding.dims.iter().map(|list| list.to_vec()).collect(),
            unreduced: sharding.unreduced.to_vec(),
            replicated: sharding.replicated.to_vec(),
        }
    }
}

impl From<&Draft> for Records {
    fn from(draft: &Draft) -> Records {
        let on = MeshAndTable {
            mesh: draft.mesh.clone(),
            order: draft.order.clone(),
            table: draft.table.clone(),
        };
        let start = ShardingRecord {
            dims: draft.start.clone(),
            unreduced: draft.unreduced.clone(),
            replicated: draft.replicated.clone(),
        };
        Records::new(on, start, &draft.steps)
    }
}

/// Adds the records of a step, a block behind its repeat. Bytes that are no step have no record but
/// that of their kind.
fn flatten(step: &Step, records: &mut Vec<StepRecord>) {
    records.push(match step {
        Step::Slice(lists) => StepRecord::Slice(lists.clone()),
        Step::Gather(lists) => StepRecord::Gather(lists.clone()),
        Step::Reduce(axes) => StepRecord::Reduce(axes.clone()),
        Step::AllToAll(source, target, axes) => {
            StepRecord::AllToAll(*source, *target, axes.clone())
        }
        Step::Scatter(lists) => StepRecord::Scatter(lists.clone()),
        Step::Repeat(count, block) => StepRecord::Repeat {
            count: *count,
            steps: u8::try_from(block.len()).expect("a block of at most 255 steps"),
        },
        Step::Bytes(bytes) => StepRecord::Unknown(bytes[0]),
    });
    if let Step::Repeat(_, block) = step {
        block.iter().for_each(|inner| flatten(inner, records));
    }
}
