//! Random repeats: blocks that end in the sharding that they begin with, plans that run as many
//! plain steps or have as many bytes as there may be, and repeats that are refused.

use crate::answers::{Dim, Refusal, MOST_BYTES, MOST_DEPTH, MOST_RUN, MOST_STEPS};
use crate::plans::{Draft, Lists, Step, Tracked};
use crate::random::Random;

/// A byte counts the inner steps of a block, and how often it is run.
const MOST_INNER: usize = 255;
const MOST_TIMES: usize = 255;

impl Step {
    /// How many plain steps it runs.
    pub fn runs(&self) -> usize {
        match self {
            Step::Repeat(count, block) => usize::from(*count) * runs(block),
            _ => 1,
        }
    }

    /// How many kind bytes it has.
    pub fn kinds(&self) -> usize {
        match self {
            Step::Repeat(_, block) => 1 + kinds(block),
            _ => 1,
        }
    }

    /// How deep repeats nest in it; 0 for a plain step.
    pub fn depth(&self) -> usize {
        match self {
            Step::Repeat(_, block) => 1 + depth(block),
            _ => 0,
        }
    }
}

pub fn runs(steps: &[Step]) -> usize {
    steps.iter().map(Step::runs).sum()
}

pub fn kinds(steps: &[Step]) -> usize {
    steps.iter().map(Step::kinds).sum()
}

pub fn depth(steps: &[Step]) -> usize {
    steps.iter().map(Step::depth).max().unwrap_or(0)
}

/// The plain steps in running order.
pub fn unrolled(steps: &[Step]) -> Vec<Step> {
    let each = |step: &Step| match step {
        Step::Repeat(count, block) => {
            let once = unrolled(block);
            std::iter::repeat_n(once, (*count).into())
                .flatten()
                .collect()
        }
        plain => vec![plain.clone()],
    };
    steps.iter().flat_map(each).collect()
}

/// Steps that run the first so many plain steps of these. A block that is left in the middle is run
/// as often as it is run whole, and the steps of its last pass stand behind it.
pub fn first_run(steps: &[Step], runs_wanted: usize) -> Vec<Step> {
    let mut left = runs_wanted;
    let mut first = Vec::new();
    for step in steps {
        match step {
            _ if left == 0 => break,
            Step::Repeat(_, block) if step.runs() > left => {
                let whole = left / runs(block);
                if whole > 0 {
                    first.push(Step::Repeat(whole as u8, block.clone()));
                }
                first.extend(first_run(block, left % runs(block)));
                left = 0;
            }
            _ => {
                left -= step.runs();
                first.push(step.clone());
            }
        }
    }
    first
}

/// A repeat that is accepted here at this depth and runs so many plain steps at most.
pub(crate) fn random_repeat(
    random: &mut Random,
    state: &Tracked,
    depth: usize,
    most: usize,
) -> Option<Step> {
    let block = random_block(random, state, depth, most)?;
    let times = (most / runs(&block)).min(MOST_TIMES);
    let often = random.between(1, times);
    let count = random.pick(&[1, 2, 3, often, times]).min(times);
    Some(Step::Repeat(count as u8, block))
}

/// The inner steps of a repeat at this depth.
fn random_block(
    random: &mut Random,
    state: &Tracked,
    depth: usize,
    most: usize,
) -> Option<Vec<Step>> {
    let mut block = Vec::new();
    for _ in 0..random.pick(&[1, 1, 2, 3]) {
        let left = most - runs(&block);
        let alone = |step: Option<Step>| step.map(|step| vec![step]);
        let part = match random.below(12) {
            0..4 if depth < MOST_DEPTH => alone(random_repeat(random, state, depth + 1, left)),
            4 if left > 0 => alone(state.random_reduce_in_place(random)),
            _ => there_and_back(random, state, depth, left),
        };
        block.extend(part.unwrap_or_default());
    }
    (1..=MOST_INNER).contains(&block.len()).then_some(block)
}

/// Moves that end where they begin: an even number of them or an odd one. Between the first and the
/// last there may be others.
fn there_and_back(
    random: &mut Random,
    state: &Tracked,
    depth: usize,
    most: usize,
) -> Option<Vec<Step>> {
    let first = state.random_move(random)?;
    let mut after = state.clone();
    after.advance(&first);
    let moves = match random.below(4) {
        0 => by_a_detour(random, &after, &first)?,
        1 => back_by_dimension(&first)?,
        _ => {
            let between = match random.once_in(3) {
                true => random_block(random, &after, depth, most.saturating_sub(2)),
                false => None,
            };
            let back = undone(&first)?;
            [vec![first], between.unwrap_or_default(), vec![back]].concat()
        }
    };
    (runs(&moves) <= most).then_some(moves)
}

/// The move that takes this one back.
fn undone(step: &Step) -> Option<Step> {
    match step {
        Step::Slice(lists) => Some(Step::Gather(lists.clone())),
        Step::Gather(lists) => Some(Step::Slice(lists.clone())),
        Step::AllToAll(source, target, list) => {
            Some(Step::AllToAll(*target, *source, list.clone()))
        }
        _ => None,
    }
}

/// A move and another one of its kind, and one that takes both back.
fn by_a_detour(random: &mut Random, after: &Tracked, first: &Step) -> Option<Vec<Step>> {
    let joined = |one: &Lists, two: &Lists| -> Lists {
        let pairs = one.iter().zip(two);
        pairs.map(|(one, two)| [&one[..], two].concat()).collect()
    };
    let (second, back) = match first {
        Step::Slice(one) => match after.random_slice(random)? {
            Step::Slice(two) => (Step::Slice(two.clone()), Step::Gather(joined(one, &two))),
            _ => return None,
        },
        Step::Gather(one) => match after.random_gather(random)? {
            Step::Gather(two) => (Step::Gather(two.clone()), Step::Slice(joined(&two, one))),
            _ => return None,
        },
        Step::AllToAll(source, target, list) => {
            let third = (0..after.rank()).find(|&dim| {
                let other = dim != source.index() && dim != target.index();
                other && after.shard[dim].is_multiple_of(after.pieces(list))
            });
            let third = Dim(third? as u8);
            let to = |from, to| Step::AllToAll(from, to, list.clone());
            (to(*target, third), to(third, *source))
        }
        _ => return None,
    };
    Some(vec![first.clone(), second, back])
}

/// A slice or a gather, and what takes it back, a step for each dimension.
fn back_by_dimension(first: &Step) -> Option<Vec<Step>> {
    let (Step::Slice(lists) | Step::Gather(lists)) = first else {
        return None;
    };
    let alone = |(dim, list): (usize, &Vec<_>)| {
        let mut alone: Lists = vec![Vec::new(); lists.len()];
        alone[dim] = list.clone();
        match first {
            Step::Slice(_) => Step::Gather(alone),
            _ => Step::Slice(alone),
        }
    };
    let named = lists
        .iter()
        .enumerate()
        .filter(|(_, list)| !list.is_empty());
    Some(
        std::iter::once(first.clone())
            .chain(named.map(alone))
            .collect(),
    )
}

/// The same plan with steps that run exactly so many plain ones, in fewer than the most steps.
/// Nothing where none are found.
pub fn running(random: &mut Random, draft: &Draft, total: usize) -> Option<Draft> {
    let mut steps = Vec::new();
    let mut state = Tracked::start(draft);
    let mut left = total;
    while left > 0 {
        if steps.len() + 1 == MOST_STEPS {
            return None;
        }
        let step = match left > 1 && !random.once_in(4) {
            true => long_repeat(random, &state, left),
            false => state.random_step(random),
        };
        let step = step.or_else(|| state.random_step(random))?;
        state.advance(&step);
        left -= step.runs();
        steps.push(step);
    }
    Some(draft.with_steps(steps))
}

/// A plan that runs as many plain steps as there may be.
pub fn running_most(random: &mut Random, draft: impl Fn(&mut Random) -> Draft) -> Draft {
    loop {
        let draft = draft(random);
        if let Some(draft) = running(random, &draft, MOST_RUN) {
            return draft;
        }
    }
}

/// A repeat that runs as many plain steps as it can, or some fewer.
fn long_repeat(random: &mut Random, state: &Tracked, most: usize) -> Option<Step> {
    let block = random_block(random, state, 2, most.min(40))?;
    let times = most / runs(&block);
    if times <= MOST_TIMES {
        return Some(Step::Repeat(times as u8, block));
    }
    let inner = random.between(times / MOST_TIMES + 1, MOST_TIMES);
    let repeat = Step::Repeat(inner as u8, block);
    Some(Step::Repeat((times / inner) as u8, vec![repeat]))
}

/// The same plan with blocks behind its steps that give the file exactly so many bytes. Nothing
/// where they do not fit.
pub fn of_length(random: &mut Random, draft: &Draft, bytes: usize) -> Option<Draft> {
    let mut state = Tracked::start(draft);
    draft.steps.iter().for_each(|step| state.advance(step));
    let pair = there_and_back(random, &state, MOST_DEPTH, 2)?;
    let size =
        draft.with_steps(pair.clone()).encode().len() - draft.with_steps(vec![]).encode().len();
    let left = bytes.checked_sub(draft.encode().len())?;
    let fits = |blocks: &usize| {
        let pairs = left.saturating_sub(3 * blocks) / size;
        pairs * size + 3 * blocks == left && (*blocks..=127 * blocks).contains(&pairs)
    };
    let blocks = (1..=MOST_STEPS - draft.steps.len()).find(fits)?;
    let pairs = (left - 3 * blocks) / size;
    let block = |at: usize| {
        let pairs = pairs / blocks + usize::from(at < pairs % blocks);
        Step::Repeat(1, vec![pair.clone(); pairs].concat())
    };
    let more = (0..blocks).map(block);
    let longer = draft.with_steps(draft.steps.iter().cloned().chain(more).collect());
    (longer.runs() <= MOST_RUN).then_some(longer)
}

/// A plan whose file has exactly so many bytes; where these are no more than a file may have, it is
/// accepted.
pub fn longest(random: &mut Random, draft: impl Fn(&mut Random) -> Draft, bytes: usize) -> Draft {
    loop {
        let draft = draft(random);
        if let Some(longest) = of_length(random, &draft, bytes) {
            return longest;
        }
    }
}

/// Puts a step somewhere among the steps, those of blocks too, as the last one or not. It is made
/// of the state there and of the depth that a repeat there has. Answers its number.
pub(crate) fn put(
    random: &mut Random,
    draft: &mut Draft,
    last: bool,
    make: impl FnOnce(&mut Random, &Tracked, usize) -> Option<Step>,
) -> Option<u16> {
    let mut steps = std::mem::take(&mut draft.steps);
    let mut place = Place {
        state: Tracked::start(draft),
        depth: 1,
        number: 1,
        last,
    };
    let put = place.put(random, &mut steps, MOST_STEPS, make);
    let number = place.number as u16;
    draft.steps = steps;
    put.then_some(number)
}

/// A place among the steps.
struct Place<'a> {
    state: Tracked<'a>,
    /// The depth that a repeat has there.
    depth: usize,
    /// The number that a step has there.
    number: usize,
    /// Whether nothing follows it.
    last: bool,
}

impl Place<'_> {
    fn put(
        &mut self,
        random: &mut Random,
        steps: &mut Vec<Step>,
        most: usize,
        make: impl FnOnce(&mut Random, &Tracked, usize) -> Option<Step>,
    ) -> bool {
        let at = random.between(0, steps.len().min(most - 1));
        for step in &steps[..at] {
            self.state.advance(step);
            self.number += step.kinds();
        }
        let inside = !random.once_in(3);
        if let Some(Step::Repeat(_, block)) = steps.get_mut(at).filter(|_| inside) {
            self.depth += 1;
            self.number += 1;
            let put = self.put(random, block, MOST_INNER, make);
            self.cut(steps, at);
            return put;
        }
        let made = make(random, &self.state, self.depth);
        let put = made.is_some();
        steps.splice(at..at, made);
        steps.truncate(most);
        self.cut(steps, at);
        put
    }

    fn cut(&self, steps: &mut Vec<Step>, at: usize) {
        if self.last {
            steps.truncate(at + 1);
        }
    }
}

/// A file that is refused with this number, one of those that repeats have, and the whole refusal.
pub(crate) fn broken(
    random: &mut Random,
    mut draft: Draft,
    number: u8,
) -> Option<(Vec<u8>, Refusal)> {
    if number == 43 && random.once_in(2) {
        return runs_on(random, &draft);
    }
    let mut inside = 0;
    let make = |random: &mut Random, state: &Tracked, depth: usize| match number {
        41 => ends_elsewhere(random, state, depth),
        42 => {
            let repeat = [positive(random), positive(random)];
            let last = repeat_bytes(random, &repeat);
            Some(too_deep(random, state, depth, last, &mut inside))
        }
        43 => runs_too_often(random, state, depth),
        _ => {
            let last = of_nothing(random);
            match random.once_in(4) {
                true => Some(too_deep(random, state, depth, last, &mut inside)),
                false => Some(last),
            }
        }
    };
    let last = random.once_in(4);
    let step = put(random, &mut draft, last, make)? + inside;
    let file = draft.encode();
    // A plan with one more block may be too long.
    (file.len() <= MOST_BYTES).then_some((file, Refusal { number, step }))
}

/// A repeat whose block does not lead back, sometimes to the same shard sizes, and sometimes run
/// too often as well.
fn ends_elsewhere(random: &mut Random, state: &Tracked, depth: usize) -> Option<Step> {
    if depth > MOST_DEPTH {
        return None;
    }
    let mut after = state.clone();
    let mut block = random_block(random, state, depth, 20).unwrap_or_default();
    block.truncate(MOST_INNER - 4);
    if random.once_in(3) {
        block.extend(in_another_order(random, &mut after).unwrap_or_default());
    } else {
        for _ in 0..random.between(1, 4) {
            let step = after.random_step(random)?;
            after.advance(&step);
            block.push(step);
        }
    }
    let count = random.pick(&[1, 2, 255]);
    (!after.same_sharding(state)).then_some(Step::Repeat(count, block))
}

/// Gathers a dimension whole and slices it by the same axes in another order.
fn in_another_order(random: &mut Random, state: &mut Tracked) -> Option<Vec<Step>> {
    let dim = random.below(state.rank());
    let mut lists = state.no_lists();
    lists[dim] = state.dims[dim].clone();
    let gather = Step::Gather(lists.clone());
    random.shuffle(&mut lists[dim]);
    if lists[dim].is_empty() {
        return None;
    }
    let steps = vec![gather, Step::Slice(lists)];
    steps.iter().for_each(|step| state.advance(step));
    Some(steps)
}

/// Repeats in repeats, with this one where it is too deep: behind so many kind bytes.
fn too_deep(
    random: &mut Random,
    state: &Tracked,
    depth: usize,
    last: Step,
    before: &mut u16,
) -> Step {
    if depth > MOST_DEPTH {
        return last;
    }
    let mut block = match random.once_in(3) {
        true => random_block(random, state, depth, 20).unwrap_or_default(),
        false => Vec::new(),
    };
    block.truncate(MOST_INNER - 1);
    *before += 1 + kinds(&block) as u16;
    block.push(too_deep(random, state, depth + 1, last, before));
    Step::Repeat(positive(random), block)
}

/// A repeat that alone runs more plain steps than a plan may, often by one pass.
fn runs_too_often(random: &mut Random, state: &Tracked, depth: usize) -> Option<Step> {
    if depth > MOST_DEPTH {
        return None;
    }
    let nested = depth < MOST_DEPTH && random.once_in(2);
    let mut block = random_block(random, state, depth + usize::from(nested), MOST_RUN)?;
    if nested {
        let count = (MOST_RUN / runs(&block)).min(random.between(16, MOST_TIMES));
        block = vec![Step::Repeat(count as u8, block)];
    }
    let least = MOST_RUN / runs(&block) + 1;
    let count = random.pick(&[least, least, MOST_TIMES]);
    (least <= MOST_TIMES).then_some(Step::Repeat(count as u8, block))
}

/// A plan that runs too many plain steps, but none of whose repeats does so alone. The last step is
/// a plain one or a repeat; then others may follow.
fn runs_on(random: &mut Random, draft: &Draft) -> Option<(Vec<u8>, Refusal)> {
    let short_of = random.pick(&[0, 0, 0, 1, 2, 20]);
    let mut draft = running(random, draft, MOST_RUN - short_of)?;
    let mut state = Tracked::start(&draft);
    draft.steps.iter().for_each(|step| state.advance(step));
    let last = match random.once_in(2) {
        true => state.random_step(random)?,
        false => random_repeat(random, &state, 1, MOST_RUN)?,
    };
    if last.runs() <= short_of {
        return None;
    }
    let step = kinds(&draft.steps) as u16 + 1;
    draft.steps.push(last);
    if random.once_in(2) && draft.steps.len() < MOST_STEPS {
        draft.steps.push(Step::Bytes(vec![random.byte()]));
    }
    let file = draft.encode();
    let refusal = Refusal { number: 43, step };
    (file.len() <= MOST_BYTES).then_some((file, refusal))
}

fn positive(random: &mut Random) -> u8 {
    random.between(1, 255) as u8
}

/// The kind byte of a repeat and what follows it, and then some other bytes or none.
fn repeat_bytes(random: &mut Random, bytes: &[u8]) -> Step {
    let more = random.below(4);
    let more = (0..more).map(|_| random.byte());
    Step::Bytes(
        std::iter::once(9)
            .chain(bytes.iter().copied())
            .chain(more)
            .collect(),
    )
}

/// A repeat with a count or a number of inner steps of 0; what follows, if anything, is not read.
fn of_nothing(random: &mut Random) -> Step {
    match random.once_in(2) {
        true => repeat_bytes(random, &[0]),
        false => {
            let count = positive(random);
            repeat_bytes(random, &[count, 0])
        }
    }
}

/// A file that ends behind the kind byte of a repeat, behind its count, or before its inner steps;
/// these are not read of one that is too deep.
pub(crate) fn ends_early(random: &mut Random, draft: &Draft) -> Vec<u8> {
    let mut draft = draft.clone();
    let make = |random: &mut Random, state: &Tracked, depth: usize| {
        let deep = depth > MOST_DEPTH || random.once_in(4);
        let kept = random.between(1, if deep { 2 } else { 3 });
        let bytes = [9, positive(random), positive(random)];
        let last = Step::Bytes(bytes[..kept].to_vec());
        match deep {
            true => Some(too_deep(random, state, depth, last, &mut 0)),
            false => Some(last),
        }
    };
    put(random, &mut draft, true, make);
    draft.encode()
}
