//! Random plan files: accepted ones, ones broken in a chosen way, damaged ones.
//!
//! A `Draft` is a plan before it is bytes. The generator keeps its own account of the sharding,
//! so that it knows what each next step may name. `blocks` makes the steps of repeats.

use crate::answers::{
    Axis, Device, Dim, Refusal, MOST_AXES, MOST_BYTES, MOST_DEVICES, MOST_RANK, MOST_RUN,
    MOST_STEPS, MOST_WORDS,
};
use crate::blocks;
use crate::random::Random;
use crate::spreads::product;

/// One axis list for each dimension.
pub type Lists = Vec<Vec<Axis>>;

/// A plan with the parts of a file, sound or not.
#[derive(Clone, Debug, Default)]
pub struct Draft {
    pub mesh: Vec<u16>,
    /// The device at each coordinate tuple in row-major order; empty for plain order.
    pub order: Vec<Device>,
    pub table: Vec<u16>,
    pub start: Lists,
    pub unreduced: Vec<Axis>,
    pub replicated: Vec<Axis>,
    pub steps: Vec<Step>,
}

#[derive(Clone, Debug)]
pub enum Step {
    Slice(Lists),
    Gather(Lists),
    Reduce(Vec<Axis>),
    AllToAll(Dim, Dim, Vec<Axis>),
    Scatter(Lists),
    /// A block that is run so many times.
    Repeat(u8, Vec<Step>),
    /// Bytes that are no step.
    Bytes(Vec<u8>),
}

/// How large an accepted plan may be.
#[derive(Clone, Copy)]
pub struct Scale {
    pub devices: usize,
    pub words: usize,
    /// The most outermost steps, and the most plain steps that are run.
    pub steps: usize,
    pub run: usize,
}

impl Scale {
    /// Every limit.
    pub const MOST: Scale = Scale {
        devices: MOST_DEVICES,
        words: MOST_WORDS,
        steps: MOST_STEPS,
        run: MOST_RUN,
    };
}

/// The refusals that a file alone can meet.
pub const FILE_REFUSALS: [u8; 32] = [
    1, 2, 3, 4, 5, 6, 7, 8, 9, 10, 11, 12, 13, 14, 15, 16, 17, 18, 19, 20, 21, 22, 23, 24, 25, 26,
    27, 28, 41, 42, 43, 44,
];

/// Axes by their numbers.
pub fn axes(numbers: &[u8]) -> Vec<Axis> {
    numbers.iter().map(|&number| Axis(number)).collect()
}

/// Lists of axes by their numbers.
pub fn lists(numbers: &[&[u8]]) -> Lists {
    numbers.iter().map(|list| axes(list)).collect()
}

/// Devices by their numbers.
pub fn devices(numbers: &[u16]) -> Vec<Device> {
    numbers.iter().map(|&number| Device(number)).collect()
}

impl Draft {
    /// The file, with every offset where it belongs.
    pub fn encode(&self) -> Vec<u8> {
        self.encode_as(self.edition())
    }

    /// The edition that the plan's file has.
    pub fn edition(&self) -> usize {
        match (&*self.order, &*self.replicated) {
            ([], []) => 1,
            ([], _) => 2,
            _ => 3,
        }
    }

    /// The same in an edition that may be the wrong one; the first has no replicated list, and
    /// only from the third on there is an order.
    pub fn encode_as(&self, edition: usize) -> Vec<u8> {
        let mut mesh = sizes_section(&self.mesh);
        if edition > 2 {
            mesh.extend(self.order.iter().flat_map(|device| device.0.to_le_bytes()));
        }
        let table = sizes_section(&self.table);
        let mut start = lists_section(&self.start);
        start.extend(list_section(&self.unreduced));
        if edition > 1 {
            start.extend(list_section(&self.replicated));
        }
        let steps: Vec<u8> = self.steps.iter().flat_map(Step::encode).collect();
        let counts = [self.mesh.len(), self.table.len(), self.steps.len()];
        let mut numbers = [&[edition][..], &counts].concat();
        let mut at = 18;
        numbers.push(at);
        for section in [&mesh, &table, &start, &steps] {
            at += section.len();
            numbers.push(at);
        }
        let header = numbers.iter().flat_map(|&n| (n as u16).to_le_bytes());
        header.chain([mesh, table, start, steps].concat()).collect()
    }

    /// The same plan with other steps.
    pub fn with_steps(&self, steps: Vec<Step>) -> Draft {
        let parts = Draft {
            steps: Vec::new(),
            ..self.clone()
        };
        Draft { steps, ..parts }
    }

    /// The same plan up to some outermost step.
    pub fn prefix(&self, steps: usize) -> Draft {
        let mut draft = self.clone();
        draft.steps.truncate(steps);
        draft
    }

    /// How many plain steps are run.
    pub fn runs(&self) -> usize {
        blocks::runs(&self.steps)
    }

    /// What a run multiplies the table by, modulo 2^32: the sizes of all axes that were replicated
    /// just before a step reduced them, each as often as that was so.
    pub fn factor(&self) -> u32 {
        let mut tracked = Tracked::start(self);
        let mut factor = 1u32;
        for step in blocks::unrolled(&self.steps) {
            factor = factor.wrapping_mul(tracked.factor_of(&step));
            tracked.advance(&step);
        }
        factor
    }

    /// The plan that runs the first so many plain steps of this one.
    pub fn cut(&self, runs: usize) -> Draft {
        self.with_steps(blocks::first_run(&self.steps, runs))
    }

    /// The plain steps in running order as plans without repeats, each from where the one before
    /// it ends, of so many steps at most.
    pub fn pieces(&self, steps: usize) -> Vec<Draft> {
        let mut tracked = Tracked::start(self);
        let plain = blocks::unrolled(&self.steps);
        let piece = |steps: &[Step]| {
            let mut piece = self.with_steps(steps.to_vec());
            piece.start = tracked.dims.clone();
            piece.unreduced = tracked.unreduced.clone();
            steps.iter().for_each(|step| tracked.advance(step));
            piece
        };
        plain.chunks(steps).map(piece).collect()
    }

    /// The start's lists in file order.
    fn start_lists(&mut self) -> Vec<&mut Vec<Axis>> {
        let others = [&mut self.unreduced, &mut self.replicated];
        self.start.iter_mut().chain(others).collect()
    }
}

fn sizes_section(sizes: &[u16]) -> Vec<u8> {
    sizes.iter().flat_map(|size| size.to_le_bytes()).collect()
}

fn list_section(list: &[Axis]) -> Vec<u8> {
    let count = list.len() as u8;
    let axes = list.iter().map(|axis| axis.0);
    std::iter::once(count).chain(axes).collect()
}

fn lists_section(lists: &[Vec<Axis>]) -> Vec<u8> {
    lists.iter().flat_map(|list| list_section(list)).collect()
}

impl Step {
    fn encode(&self) -> Vec<u8> {
        match self {
            Step::Slice(lists) => [vec![1], lists_section(lists)].concat(),
            Step::Gather(lists) => [vec![2], lists_section(lists)].concat(),
            Step::Reduce(list) => [vec![3], list_section(list)].concat(),
            Step::AllToAll(source, target, list) => {
                [vec![4, source.0, target.0], list_section(list)].concat()
            }
            Step::Scatter(lists) => [vec![5], lists_section(lists)].concat(),
            Step::Repeat(count, block) => {
                let inner: Vec<u8> = block.iter().flat_map(Step::encode).collect();
                [vec![9, *count, block.len() as u8], inner].concat()
            }
            Step::Bytes(bytes) => bytes.clone(),
        }
    }
}

/// The generator's account of a state.
#[derive(Clone)]
pub(crate) struct Tracked<'a> {
    mesh: &'a [u16],
    pub(crate) dims: Lists,
    pub(crate) unreduced: Vec<Axis>,
    replicated: &'a [Axis],
    pub(crate) shard: Vec<usize>,
}

impl<'a> Tracked<'a> {
    pub(crate) fn start(draft: &'a Draft) -> Self {
        let mut tracked = Tracked {
            mesh: &draft.mesh,
            dims: draft.start.clone(),
            unreduced: draft.unreduced.clone(),
            replicated: &draft.replicated,
            shard: draft.table.iter().map(|&size| size.into()).collect(),
        };
        for (dim, list) in draft.start.iter().enumerate() {
            tracked.shard[dim] /= tracked.pieces(list);
        }
        tracked
    }

    pub(crate) fn rank(&self) -> usize {
        self.dims.len()
    }

    /// No step changes the replicated list.
    pub(crate) fn same_sharding(&self, other: &Tracked) -> bool {
        (&self.dims, &self.unreduced) == (&other.dims, &other.unreduced)
    }

    fn size(&self, axis: Axis) -> usize {
        self.mesh[axis.index()].into()
    }

    pub(crate) fn pieces(&self, list: &[Axis]) -> usize {
        list.iter().map(|&axis| self.size(axis)).product()
    }

    fn axes(&self) -> Vec<Axis> {
        (0..self.mesh.len() as u8).map(Axis).collect()
    }

    /// Whether no list names the axis, so that a slice may.
    fn is_free(&self, axis: Axis) -> bool {
        self.is_replicated(axis) && !self.replicated.contains(&axis)
    }

    /// Whether an all-reduce may name the axis.
    fn may_reduce(&self, axis: Axis) -> bool {
        self.unreduced.contains(&axis) || self.is_free(axis)
    }

    fn free(&self) -> Vec<Axis> {
        let mut axes = self.axes();
        axes.retain(|&axis| self.is_free(axis));
        axes
    }

    /// Whether the devices along the axis hold the same words of a faithful spread.
    fn is_replicated(&self, axis: Axis) -> bool {
        let sharded = self.dims.iter().any(|list| list.contains(&axis));
        !sharded && !self.unreduced.contains(&axis)
    }

    /// The product of the sizes of the replicated axes that a plain step reduces.
    fn factor_of(&self, step: &Step) -> u32 {
        let mut reduced = match step {
            Step::Reduce(list) => list.clone(),
            Step::Scatter(lists) => lists.concat(),
            _ => Vec::new(),
        };
        reduced.retain(|&axis| self.is_replicated(axis));
        self.pieces(&reduced) as u32
    }

    pub(crate) fn no_lists(&self) -> Lists {
        vec![Vec::new(); self.rank()]
    }

    pub(crate) fn advance(&mut self, step: &Step) {
        match step {
            Step::Slice(lists) => self.slice(lists),
            Step::Gather(lists) => self.gather(lists),
            Step::Reduce(list) => self.unreduced.retain(|axis| !list.contains(axis)),
            Step::AllToAll(source, target, list) => {
                let mut off = self.no_lists();
                off[source.index()] = list.clone();
                self.gather(&off);
                let mut onto = self.no_lists();
                onto[target.index()] = list.clone();
                self.slice(&onto);
            }
            Step::Scatter(lists) => {
                let scattered = lists.concat();
                self.unreduced.retain(|axis| !scattered.contains(axis));
                self.slice(lists);
            }
            // A block ends in the sharding that it begins with.
            Step::Repeat(..) | Step::Bytes(_) => {}
        }
    }

    fn slice(&mut self, lists: &Lists) {
        for (dim, list) in lists.iter().enumerate() {
            self.dims[dim].extend(list);
            self.shard[dim] /= self.pieces(list);
        }
    }

    fn gather(&mut self, lists: &Lists) {
        for (dim, list) in lists.iter().enumerate() {
            let kept = self.dims[dim].len() - list.len();
            self.dims[dim].truncate(kept);
            self.shard[dim] *= self.pieces(list);
        }
    }

    /// A plain step that is accepted here, if there is one of some kind.
    pub(crate) fn random_step(&self, random: &mut Random) -> Option<Step> {
        self.step_of(random, &mut [1, 1, 2, 2, 3, 4, 4, 5])
    }

    /// The same of steps that another one undoes.
    pub(crate) fn random_move(&self, random: &mut Random) -> Option<Step> {
        self.step_of(random, &mut [1, 1, 2, 2, 4, 4])
    }

    fn step_of(&self, random: &mut Random, kinds: &mut [u8]) -> Option<Step> {
        random.shuffle(kinds);
        kinds.iter().find_map(|kind| match kind {
            1 => self.random_slice(random),
            2 => self.random_gather(random),
            3 => self.random_reduce(random),
            4 => self.random_all_to_all(random),
            _ => self.random_scatter(random),
        })
    }

    pub(crate) fn random_slice(&self, random: &mut Random) -> Option<Step> {
        self.spread_out(random, self.free()).map(Step::Slice)
    }

    fn random_scatter(&self, random: &mut Random) -> Option<Step> {
        self.spread_out(random, self.unreduced.clone())
            .map(Step::Scatter)
    }

    /// Some of the axes, in any order, on dimensions whose shard sizes they divide.
    fn spread_out(&self, random: &mut Random, mut axes: Vec<Axis>) -> Option<Lists> {
        let mut left = self.shard.clone();
        let mut lists = self.no_lists();
        random.shuffle(&mut axes);
        let wanted = random.between(1, MOST_AXES);
        for axis in axes {
            let dim = random.below(self.rank());
            let named: usize = lists.iter().map(Vec::len).sum();
            if named < wanted && left[dim].is_multiple_of(self.size(axis)) {
                left[dim] /= self.size(axis);
                lists[dim].push(axis);
            }
        }
        let names_some = lists.iter().any(|list| !list.is_empty());
        names_some.then_some(lists)
    }

    pub(crate) fn random_gather(&self, random: &mut Random) -> Option<Step> {
        let lists: Lists = self.dims.iter().map(|list| tail(random, list, 0)).collect();
        let names_some = lists.iter().any(|list| !list.is_empty());
        names_some.then_some(Step::Gather(lists))
    }

    /// Half of the unreduced axes, and fewer of those that no list names: where these are reduced
    /// too often, nothing but zeros is left of the words.
    fn random_reduce(&self, random: &mut Random) -> Option<Step> {
        let mut list = self.axes();
        list.retain(|&axis| match self.unreduced.contains(&axis) {
            true => random.once_in(2),
            false => self.is_free(axis) && random.once_in(6),
        });
        (!list.is_empty()).then_some(Step::Reduce(list))
    }

    /// An all-reduce of axes that no list names, which leaves the sharding as it is.
    pub(crate) fn random_reduce_in_place(&self, random: &mut Random) -> Option<Step> {
        let mut list = self.free();
        list.retain(|_| random.once_in(2));
        (!list.is_empty()).then_some(Step::Reduce(list))
    }

    fn random_all_to_all(&self, random: &mut Random) -> Option<Step> {
        let (source, target) = self.random_dims(random)?;
        let from = &self.dims[source.index()];
        if from.is_empty() {
            return None;
        }
        let list = tail(random, from, 1);
        let divides = self.shard[target.index()].is_multiple_of(self.pieces(&list));
        divides.then_some(Step::AllToAll(source, target, list))
    }

    /// A source and a target that are not the same.
    fn random_dims(&self, random: &mut Random) -> Option<(Dim, Dim)> {
        if self.rank() < 2 {
            return None;
        }
        let mut dims: Vec<u8> = (0..self.rank() as u8).collect();
        random.shuffle(&mut dims);
        Some((Dim(dims[0]), Dim(dims[1])))
    }
}

/// Some of the last axes of a list, at least so many.
fn tail(random: &mut Random, list: &[Axis], least: usize) -> Vec<Axis> {
    list[list.len() - random.between(least, list.len())..].to_vec()
}

/// A plan of few words that is accepted, so that many steps can be run.
pub fn small(random: &mut Random) -> Draft {
    let scale = Scale {
        devices: 16,
        words: 64,
        steps: random.between(1, 16),
        run: 64,
    };
    accepted(random, scale)
}

/// A plan that is accepted.
pub fn accepted(random: &mut Random, scale: Scale) -> Draft {
    let mesh = random_mesh(random, scale.devices);
    let rank = random.between(1, MOST_RANK);
    let mut draft = with_random_start(random, mesh, rank);
    draft.table = random_table(random, &draft, scale.words);
    if random.once_in(3) {
        draft.order = random_order(random, product(&draft.mesh));
    }
    add_steps(random, &mut draft, scale);
    draft
}

/// A scale that is small most of the time, so that many plans can be run.
pub fn random_scale(random: &mut Random) -> Scale {
    const ROOM: usize = 1 << 18;
    const MOVED: usize = 1 << 22;
    let most = random.pick(&[0, 1, 2, 4, 8, 16, MOST_STEPS]);
    let devices = random.pick(&[1, 4, 8, 16, 16, 32, 64, 256, MOST_DEVICES]);
    let words = random.pick(&[8, 64, 64, 256, 256, 1024, 4096, MOST_WORDS]);
    let words = words.min(ROOM / devices);
    let run = random.pick(&[16, 64, 256, MOST_RUN]);
    let steps = random.between(most / 2, most);
    Scale {
        devices,
        words,
        steps,
        run: run.min(MOVED / (devices * words)).max(steps),
    }
}

/// A scale with the most devices or the most words, whose plans can still be run to and fro.
pub fn scale_at_a_limit(random: &mut Random) -> Scale {
    const ROOM: usize = 1 << 20;
    let devices = random.pick(&[MOST_DEVICES, ROOM / MOST_WORDS]);
    Scale {
        devices,
        words: ROOM / devices,
        steps: MOST_STEPS,
        run: 2 * MOST_STEPS,
    }
}

/// A plan with so many devices, words and steps, the first two powers of two, and a state in which
/// every device holds the whole table. At `Scale::MOST` it needs the room of 67,108,864 words.
pub fn filling(random: &mut Random, scale: Scale) -> Draft {
    loop {
        let draft = with_largest_state(random, scale);
        // Where no axis divides a dimension there may be no step to take.
        if draft.steps.len() == scale.steps {
            return draft;
        }
    }
}

fn with_largest_state(random: &mut Random, scale: Scale) -> Draft {
    let axes = random.between(1, MOST_AXES);
    let mesh = powers_of_two(random, axes, scale.devices);
    // One size has 16 bits, so that the largest table has two dimensions or more.
    let least = if u16::try_from(scale.words).is_ok() {
        1
    } else {
        2
    };
    let rank = random.between(least, MOST_RANK);
    let mut draft = Draft {
        table: powers_of_two(random, rank, scale.words),
        start: vec![Vec::new(); rank],
        ..Draft::default()
    };
    // With no axis on a dimension every shard is the whole table.
    for axis in (0..mesh.len() as u8).map(Axis) {
        match random.below(6) {
            0..3 => draft.unreduced.push(axis),
            3 => draft.replicated.push(axis),
            _ => {}
        }
    }
    if random.once_in(2) {
        draft.order = random_order(random, product(&mesh));
    }
    draft.mesh = mesh;
    add_steps(random, &mut draft, scale);
    draft
}

fn powers_of_two(random: &mut Random, count: usize, product: usize) -> Vec<u16> {
    let mut sizes = vec![1u16; count];
    for _ in 0..product.ilog2() {
        let places: Vec<usize> = (0..count)
            .filter(|&at| sizes[at].checked_mul(2).is_some())
            .collect();
        sizes[random.pick(&places)] *= 2;
    }
    sizes
}

fn random_mesh(random: &mut Random, most: usize) -> Vec<u16> {
    let count = random.between(1, MOST_AXES);
    let mut left = most;
    let mut size = || {
        let size = match random.below(8) {
            0 => 1,
            1 => random.between(1, left),
            _ => random.between(2, 4).min(left),
        };
        left /= size;
        size as u16
    };
    let mut mesh: Vec<u16> = (0..count).map(|_| size()).collect();
    random.shuffle(&mut mesh);
    mesh
}

/// An order that an accepted plan may have; none where there is one device. Most are not their own
/// inverse, so that to take one for the other is found.
pub fn random_order(random: &mut Random, count: usize) -> Vec<Device> {
    let plain: Vec<Device> = (0..count as u16).map(Device).collect();
    let mut order = plain.clone();
    match random.below(6) {
        0 => order.reverse(),
        1 => order.rotate_left(random.below(count)),
        // All but two, three or so stand where they would in plain order.
        2 => order.swap(random.below(count), random.below(count)),
        3 => order[random.below(count)..].rotate_left(1),
        _ => random.shuffle(&mut order),
    }
    if order == plain {
        order.reverse();
    }
    order.retain(|_| count > 1);
    order
}

/// Gives each axis a place in the start: on a dimension, unreduced, explicitly replicated or in no
/// list.
fn with_random_start(random: &mut Random, mesh: Vec<u16>, rank: usize) -> Draft {
    let mut start = vec![Vec::new(); rank];
    let (mut unreduced, mut replicated) = (Vec::new(), Vec::new());
    let mut axes: Vec<Axis> = (0..mesh.len() as u8).map(Axis).collect();
    random.shuffle(&mut axes);
    for axis in axes {
        match random.below(6) {
            0 | 1 => start[random.below(rank)].push(axis),
            2 => unreduced.push(axis),
            3 => replicated.push(axis),
            _ => {}
        }
    }
    unreduced.sort();
    replicated.sort();
    Draft {
        mesh,
        start,
        unreduced,
        replicated,
        ..Draft::default()
    }
}

/// Sizes that the start divides. Most further factors are sizes of axes, for slices to come.
fn random_table(random: &mut Random, draft: &Draft, most: usize) -> Vec<u16> {
    let pieces = |list: &Vec<Axis>| list.iter().map(|axis| draft.mesh[axis.index()]).product();
    let mut table: Vec<u16> = draft.start.iter().map(pieces).collect();
    for _ in 0..random.below(16) {
        let factor = match random.below(4) {
            0 => random.between(2, 5) as u16,
            _ => random.pick(&draft.mesh),
        };
        let within = product(&table) * usize::from(factor) <= most;
        let dim = random.below(table.len());
        // One size has 16 bits, also where the table may have more words.
        if let Some(size) = table[dim].checked_mul(factor).filter(|_| within) {
            table[dim] = size;
        }
    }
    table
}

/// Adds up to so many steps; fewer when no step of any kind can be found. Half of the plans have
/// repeats among them.
fn add_steps(random: &mut Random, draft: &mut Draft, scale: Scale) {
    let mut steps = Vec::new();
    let mut tracked = Tracked::start(draft);
    let with_repeats = random.once_in(2);
    let mut more = scale.run - scale.steps;
    for _ in 0..scale.steps {
        // Each step that follows runs one plain step at least.
        let found = match with_repeats && random.once_in(3) {
            true => blocks::random_repeat(random, &tracked, 1, more + 1),
            false => (0..20).find_map(|_| tracked.random_step(random)),
        };
        let Some(step) = found.or_else(|| tracked.random_step(random)) else {
            break;
        };
        tracked.advance(&step);
        more -= step.runs() - 1;
        steps.push(step);
    }
    draft.steps = steps;
}

/// A file that is refused with this number, and the whole refusal.
pub fn broken(random: &mut Random, number: u8) -> (Vec<u8>, Refusal) {
    loop {
        let scale = random_scale(random);
        let mut draft = accepted(random, scale);
        // Sometimes with more kind bytes than a byte counts.
        if random.once_in(8) {
            let bytes = random.between(1000, MOST_BYTES / 2);
            draft = blocks::of_length(random, &draft, bytes).unwrap_or(draft);
        }
        let tried = match number {
            1..=9 => broken_bytes(random, &draft, number),
            10..=18 => broken_start(random, draft, number),
            19 => broken_order(random, draft),
            20..=28 => broken_step(random, draft, number),
            _ => blocks::broken(random, draft, number),
        };
        // Not every plan can be broken in every way.
        if let Some(broken) = tried {
            return broken;
        }
    }
}

/// Breaks the header, the length of a section or a count.
fn broken_bytes(random: &mut Random, draft: &Draft, number: u8) -> Option<(Vec<u8>, Refusal)> {
    let mut file = draft.encode();
    let whole = file.len();
    match number {
        1 => file.truncate(random.below(18)),
        2 => {
            let more = random.pick(&[1, 1, 200]);
            file.resize(MOST_BYTES + random.between(1, more), 0);
        }
        3 => {
            let any = random.between(4, 65535) as u16;
            let edition = random.pick(&[0, 4, 256, 257, 258, 259, any]);
            file[..2].copy_from_slice(&edition.to_le_bytes());
        }
        4 => change_number(random, &mut file, 8),
        5 => return Some((broken_limit(random, draft), Refusal::whole(5))),
        // An offset is wrong for an edition without the list or the order that stands before it.
        6 if draft.edition() > 1 && random.once_in(5) => {
            file[0] = random.between(1, draft.edition() - 1) as u8;
        }
        6 => {
            let section = random.between(4, 7);
            change_number(random, &mut file, section);
        }
        // Inside an order, which is judged only where all of it is there.
        7 if draft.edition() == 3 && random.once_in(3) => {
            let order = 18 + 2 * draft.mesh.len()..18 + 2 * (draft.mesh.len() + draft.order.len());
            file[order.start] ^= random.byte();
            file.truncate(random.between(order.start, order.end - 1));
            mend_length(&mut file);
        }
        // Behind the kind byte or the count of a repeat, or before its inner steps.
        7 if random.once_in(3) => file = blocks::ends_early(random, draft),
        7 => {
            file.truncate(random.between(18, whole - 1));
            mend_length(&mut file);
        }
        8 => {
            let count = random.pick(&count_places(draft));
            file[count] = random.between(draft.mesh.len() + 1, 255) as u8;
        }
        9 => {
            // Sometimes as long as a file may be.
            let most = random.pick(&[1, 40, MOST_BYTES - whole]);
            let least = if most > 40 { most } else { 1 };
            file.extend((0..random.between(least, most)).map(|_| random.byte()));
            mend_length(&mut file);
        }
        _ => return None,
    }
    Some((file, Refusal::whole(number)))
}

/// Writes another number at an entry of the header.
fn change_number(random: &mut Random, file: &mut [u8], entry: usize) {
    let place: &mut [u8] = &mut file[2 * entry..][..2];
    let old = u16::from_le_bytes([place[0], place[1]]);
    let near = [1, 2, u16::MAX, 256];
    let added = match random.once_in(2) {
        true => random.pick(&near),
        false => random.between(1, 65535) as u16,
    };
    place.copy_from_slice(&old.wrapping_add(added).to_le_bytes());
}

/// Makes the header's last entry the number of bytes.
pub fn mend_length(file: &mut [u8]) {
    if file.len() >= 18 {
        let length = file.len() as u16;
        file[16..18].copy_from_slice(&length.to_le_bytes());
    }
}

/// A plan with too many or too few axes, dimensions or steps.
fn broken_limit(random: &mut Random, draft: &Draft) -> Vec<u8> {
    let mut draft = draft.clone();
    match random.below(4) {
        0 => draft.mesh = vec![1; random.pick(&[0, MOST_AXES + 1, MOST_AXES + 2])],
        1 => {
            let rank = random.pick(&[0, MOST_RANK + 1, MOST_RANK + 2]);
            draft.table = vec![1; rank];
            draft.start = vec![Vec::new(); rank];
        }
        2 => {
            let steps = random.between(MOST_STEPS + 1, MOST_STEPS + 9);
            draft.steps = vec![Step::Reduce(axes(&[0])); steps];
        }
        _ => {
            let mut file = draft.encode();
            let entry = 2 * random.between(1, 3);
            file[entry + 1] = random.between(1, 255) as u8;
            return file;
        }
    }
    draft.encode()
}

/// Where the counts of all lists stand in the file.
fn count_places(draft: &Draft) -> Vec<usize> {
    let sizes = draft.mesh.len() + draft.order.len() + draft.table.len();
    let mut places = CountPlaces {
        at: 18 + 2 * sizes,
        found: Vec::new(),
    };
    places.pass(0, &draft.start);
    places.pass(0, std::slice::from_ref(&draft.unreduced));
    if draft.edition() > 1 {
        places.pass(0, std::slice::from_ref(&draft.replicated));
    }
    draft.steps.iter().for_each(|step| places.pass_step(step));
    places.found
}

/// The places found before a byte of the file.
struct CountPlaces {
    at: usize,
    found: Vec<usize>,
}

impl CountPlaces {
    /// Passes so many bytes, and then lists.
    fn pass(&mut self, before: usize, lists: &[Vec<Axis>]) {
        self.at += before;
        for list in lists {
            self.found.push(self.at);
            self.at += 1 + list.len();
        }
    }

    fn pass_step(&mut self, step: &Step) {
        match step {
            Step::Slice(lists) | Step::Gather(lists) | Step::Scatter(lists) => self.pass(1, lists),
            Step::Reduce(list) => self.pass(1, std::slice::from_ref(list)),
            Step::AllToAll(_, _, list) => self.pass(3, std::slice::from_ref(list)),
            Step::Repeat(_, block) => {
                self.pass(3, &[]);
                block.iter().for_each(|step| self.pass_step(step));
            }
            Step::Bytes(bytes) => self.pass(bytes.len(), &[]),
        }
    }
}

/// Breaks the mesh, the table or the starting sharding.
fn broken_start(random: &mut Random, mut draft: Draft, number: u8) -> Option<(Vec<u8>, Refusal)> {
    let axis = random.below(draft.mesh.len());
    let dim = random.below(draft.table.len());
    match number {
        10 => draft.mesh[axis] = 0,
        11 => draft.mesh[axis] = past(random, MOST_DEVICES),
        12 => draft.table[dim] = 0,
        13 => enlarge(random, &mut draft.table, dim)?,
        14 => name_no_axis(random, &mut draft),
        15 => name_again(random, &mut draft)?,
        16 => unsort(random, &mut draft)?,
        17 => {
            let list = &draft.start[dim];
            let pieces: u16 = list.iter().map(|axis| draft.mesh[axis.index()]).product();
            if pieces < 2 {
                return None;
            }
            draft.table[dim] -= random.between(1, usize::from(pieces) - 1) as u16;
        }
        18 => {
            draft.order.clear();
            draft.replicated.clear();
        }
        _ => return None,
    }
    // Steps are judged after the start, and an empty list in edition 2 is the last in it.
    if random.once_in(4) {
        draft.steps = vec![no_kind(random)];
    }
    let empty = number == 18 || (draft.edition() == 1 && random.once_in(4));
    let edition = if empty { 2 } else { draft.edition() };
    Some((draft.encode_as(edition), Refusal::whole(number)))
}

/// Gives the devices an order that is none, or the plain one.
fn broken_order(random: &mut Random, mut draft: Draft) -> Option<(Vec<u8>, Refusal)> {
    let count = product(&draft.mesh);
    draft.order = random_order(random, count);
    let at = random.below(count);
    match random.below(3) {
        _ if count == 1 => draft.order = devices(&[random.pick(&[0, 0, 1, 256])]),
        0 => draft.order.sort(),
        // A number that is there already takes the place of another.
        1 => draft.order[at] = draft.order[(at + random.between(1, count - 1)) % count],
        _ => {
            let last = random.pick(&[count, 65535]);
            draft.order[at] = Device(random.between(count, last) as u16);
        }
    }
    // The table and what follows it are judged after the order.
    if random.once_in(4) {
        let dim = random.below(draft.table.len());
        draft.table[dim] = 0;
    }
    let mut file = draft.encode_as(3);
    if random.once_in(4) {
        change_number(random, &mut file, 5);
    }
    if random.once_in(4) {
        file.truncate(18 + 2 * (draft.mesh.len() + count));
        mend_length(&mut file);
    }
    Some((file, Refusal::whole(19)))
}

/// A size that passes a limit, often by one.
fn past(random: &mut Random, most: usize) -> u16 {
    match random.once_in(3) {
        true => most as u16 + 1,
        false => random.between(most + 1, 65535) as u16,
    }
}

/// Makes a table pass its limit, often by little. One size alone cannot.
fn enlarge(random: &mut Random, table: &mut [u16], dim: usize) -> Option<()> {
    if table.len() == 1 {
        return None;
    }
    let other = (dim + random.between(1, table.len() - 1)) % table.len();
    let any = random.between(2, 65535) as u16;
    table[other] = random.pick(&[2, 256, any]);
    table[dim] = 1;
    table[dim] = past(random, MOST_WORDS / product(table));
    Some(())
}

fn no_axis(random: &mut Random, mesh: &[u16]) -> Axis {
    let first = mesh.len();
    let last = random.pick(&[first, 255]);
    Axis(random.between(first, last) as u8)
}

/// Puts a number that is no axis in one of the start's lists.
fn name_no_axis(random: &mut Random, draft: &mut Draft) {
    let axis = no_axis(random, &draft.mesh);
    let most = draft.mesh.len();
    let mut lists = draft.start_lists();
    let at = random.below(lists.len());
    let list = &mut lists[at];
    if list.len() == most {
        list.pop();
    }
    list.insert(random.below(list.len() + 1), axis);
}

/// Names one of the start's axes twice.
fn name_again(random: &mut Random, draft: &mut Draft) -> Option<()> {
    let most = draft.mesh.len();
    let mut lists = draft.start_lists();
    let at = random.below(lists.len());
    let named: Vec<Axis> = lists[..=at]
        .iter()
        .flat_map(|list| list.iter().copied())
        .collect();
    let list = &mut lists[at];
    if named.is_empty() || list.len() == most {
        return None;
    }
    let axis = random.pick(&named);
    // Where it was named in this list, it comes after that, and no order is broken before it.
    let before = list.iter().position(|&other| other == axis);
    let first = before.map_or(0, |place| place + 1);
    list.insert(random.between(first, list.len()), axis);
    Some(())
}

/// Changes the order of the start's unreduced or replicated axes.
fn unsort(random: &mut Random, draft: &mut Draft) -> Option<()> {
    let list = match random.once_in(2) {
        true => &mut draft.unreduced,
        false => &mut draft.replicated,
    };
    if list.len() < 2 {
        return None;
    }
    let first = random.below(list.len() - 1);
    list.swap(first, first + 1);
    Some(())
}

/// Puts a step that is refused somewhere among the steps, those of blocks too.
fn broken_step(random: &mut Random, mut draft: Draft, number: u8) -> Option<(Vec<u8>, Refusal)> {
    let make = |random: &mut Random, state: &Tracked, _| faulty(random, state, number);
    let last = random.once_in(4);
    let step = blocks::put(random, &mut draft, last, make)?;
    Some((draft.encode(), Refusal { number, step }))
}

fn faulty(random: &mut Random, state: &Tracked, number: u8) -> Option<Step> {
    match number {
        20 => Some(no_kind(random)),
        21 => Some(names_nothing(random, state)),
        22 => Some(names_no_axis(random, state)),
        23 if random.once_in(3) => scatters_again(random, state),
        23 => slices_again(random, state),
        24 => gathers_no_tail(random, state),
        25 => leaves_a_remainder(random, state),
        26 => reduces_unsorted(random, state),
        27 if random.once_in(2) => scatters_other(random, state),
        27 => reduces_other(random, state),
        28 => bad_dims(random, state),
        _ => None,
    }
}

fn no_kind(random: &mut Random) -> Step {
    let kind = match random.below(3) {
        0 => 0,
        // Next to the others.
        1 => random.pick(&[6, 8, 10]),
        _ => random.between(10, 255) as u8,
    };
    let rest = (0..random.below(6)).map(|_| random.byte());
    Step::Bytes(std::iter::once(kind).chain(rest).collect())
}

fn names_nothing(random: &mut Random, state: &Tracked) -> Step {
    match random.below(5) {
        0 => Step::Slice(state.no_lists()),
        1 => Step::Gather(state.no_lists()),
        2 => Step::Reduce(Vec::new()),
        3 => Step::Scatter(state.no_lists()),
        _ => Step::AllToAll(Dim(random.byte() % 6), Dim(random.byte() % 6), Vec::new()),
    }
}

fn names_no_axis(random: &mut Random, state: &Tracked) -> Step {
    let mut list = some_axes(random, state, 0, state.mesh.len() - 1);
    list.insert(random.below(list.len() + 1), no_axis(random, state.mesh));
    let mut lists = state.no_lists();
    for list in &mut lists {
        *list = some_axes(random, state, 0, state.mesh.len());
    }
    lists[random.below(state.rank())] = list.clone();
    match random.below(5) {
        0 => Step::Slice(lists),
        1 => Step::Gather(lists),
        2 => Step::Reduce(list),
        3 => Step::Scatter(lists),
        _ => Step::AllToAll(Dim(random.byte() % 6), Dim(random.byte() % 6), list),
    }
}

/// Any axes of the mesh in any order, perhaps some more than once.
fn some_axes(random: &mut Random, state: &Tracked, least: usize, most: usize) -> Vec<Axis> {
    let count = random.between(least, most);
    let all = state.axes();
    (0..count).map(|_| random.pick(&all)).collect()
}

/// Slices an axis that a list of the sharding names, or the same axis twice.
fn slices_again(random: &mut Random, state: &Tracked) -> Option<Step> {
    let mut lists = state.no_lists();
    for axis in state.free() {
        if random.once_in(2) {
            lists[random.below(state.rank())].push(axis);
        }
    }
    let named: Vec<Axis> = lists.iter().flatten().copied().collect();
    let mut bad = state.axes();
    bad.retain(|&axis| !state.is_free(axis) || named.contains(&axis));
    let list = &mut lists[random.below(state.rank())];
    if bad.is_empty() || list.len() == state.mesh.len() {
        return None;
    }
    list.insert(random.below(list.len() + 1), random.pick(&bad));
    Some(Step::Slice(lists))
}

/// Scatters any axes, one of them twice.
fn scatters_again(random: &mut Random, state: &Tracked) -> Option<Step> {
    let mut lists = state.no_lists();
    for axis in state.axes() {
        if random.once_in(2) {
            lists[random.below(state.rank())].push(axis);
        }
    }
    let named = lists.concat();
    let list = &mut lists[random.below(state.rank())];
    if named.is_empty() || list.len() == state.mesh.len() {
        return None;
    }
    list.insert(random.below(list.len() + 1), random.pick(&named));
    Some(Step::Scatter(lists))
}

/// Scatters any axes, each once, of which one is not unreduced.
fn scatters_other(random: &mut Random, state: &Tracked) -> Option<Step> {
    let mut lists = state.no_lists();
    let mut axes = state.axes();
    random.shuffle(&mut axes);
    for axis in axes {
        if random.once_in(2) {
            lists[random.below(state.rank())].push(axis);
        }
    }
    let all_unreduced = lists
        .iter()
        .flatten()
        .all(|axis| state.unreduced.contains(axis));
    (!all_unreduced).then_some(Step::Scatter(lists))
}

/// Gathers something that is not the tail of its dimension's list.
fn gathers_no_tail(random: &mut Random, state: &Tracked) -> Option<Step> {
    let dim = random.below(state.rank());
    let mut list = some_axes(random, state, 1, state.mesh.len());
    // The right axes in a wrong order, or without the last of them, are the likelier errors.
    if !state.dims[dim].is_empty() && !random.once_in(4) {
        list = tail(random, &state.dims[dim], 1);
        match random.once_in(2) {
            true => random.shuffle(&mut list),
            false => list.truncate(random.between(1, list.len())),
        }
    }
    if state.dims[dim].ends_with(&list) {
        return None;
    }
    if random.once_in(2) {
        let (_, target) = state.random_dims(random)?;
        let source = Dim(dim as u8);
        return (source != target).then_some(Step::AllToAll(source, target, list));
    }
    let mut lists: Lists = state.dims.iter().map(|all| tail(random, all, 0)).collect();
    lists[dim] = list;
    Some(Step::Gather(lists))
}

/// Slices a dimension whose shard size cannot be divided.
fn leaves_a_remainder(random: &mut Random, state: &Tracked) -> Option<Step> {
    if random.once_in(2) {
        let (source, target) = state.random_dims(random)?;
        let from = &state.dims[source.index()];
        let list = tail(random, from, from.len().min(1));
        let divides = state.shard[target.index()].is_multiple_of(state.pieces(&list));
        return (!divides).then_some(Step::AllToAll(source, target, list));
    }
    let dim = random.below(state.rank());
    let scatters = random.once_in(2);
    let mut list = match scatters {
        true => state.unreduced.clone(),
        false => state.free(),
    };
    random.shuffle(&mut list);
    list.truncate(random.between(0, list.len()));
    if state.shard[dim].is_multiple_of(state.pieces(&list)) {
        return None;
    }
    let mut lists = state.no_lists();
    lists[dim] = list;
    Some(match scatters {
        true => Step::Scatter(lists),
        false => Step::Slice(lists),
    })
}

fn reduces_unsorted(random: &mut Random, state: &Tracked) -> Option<Step> {
    let list = some_axes(random, state, 0, state.mesh.len());
    let sorted = list.is_sorted_by(|one, next| one < next);
    (!sorted).then_some(Step::Reduce(list))
}

/// Reduces any axes, of which one splits a dimension or is to stay replicated.
fn reduces_other(random: &mut Random, state: &Tracked) -> Option<Step> {
    let mut list = state.axes();
    list.retain(|_| random.once_in(2));
    let all_may = list.iter().all(|&axis| state.may_reduce(axis));
    (!all_may).then_some(Step::Reduce(list))
}

fn bad_dims(random: &mut Random, state: &Tracked) -> Option<Step> {
    let list = some_axes(random, state, 1, state.mesh.len());
    let rank = state.rank();
    let mut dim = || Dim(random.pick(&[0, 1, 2, 3, 4, 5, 255]));
    let (source, target) = (dim(), dim());
    let sound = source != target && source.index() < rank && target.index() < rank;
    (!sound).then_some(Step::AllToAll(source, target, list))
}

/// A file with some bytes changed, lost or added; often of a length that the header admits to.
pub fn damaged(random: &mut Random, file: &[u8]) -> Vec<u8> {
    let mut file = file.to_vec();
    for _ in 0..random.between(1, 3) {
        damage(random, &mut file);
    }
    if random.once_in(2) {
        mend_length(&mut file);
    }
    file
}

fn damage(random: &mut Random, file: &mut Vec<u8>) {
    if file.is_empty() {
        return file.push(random.byte());
    }
    let at = random.below(file.len());
    match random.below(7) {
        0 => file[at] ^= 1 << random.below(8),
        1 => file[at] = random.byte() % 10,
        2 => file[at] = random.byte(),
        3 => file.truncate(at),
        4 => file.insert(at, random.byte() % 10),
        // Another edition, most often.
        5 => file[0] = random.between(1, 3) as u8,
        _ => drop(file.remove(at)),
    }
}
