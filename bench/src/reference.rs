//! Document 01 with the limits, the editions, the repeats, the reduce-scatters and the all-reduces of
//! document 02 in plain Rust, written from these documents alone. `records` has its writer, the way
//! back and its planner.
//!
//! A file is judged into a `Plan`, which holds the state after every outermost step. The calls read
//! their answers off the plan. A run moves the words between the two lent buffers, step by step; the
//! steps of a block are run as often as it says.
//!
//! A place is the row-major number of coordinates. Groups and steps go by place; the order of the
//! devices tells which one stands there.

use crate::answers::{
    Axis, AxisList, Checked, Device, Dim, DimLists, NotPlaced, Placed, Refusal, Sharding, Sizes,
    LEAST_BYTES, MOST_AXES, MOST_BYTES, MOST_DEPTH, MOST_DEVICES, MOST_RANK, MOST_RUN, MOST_STEPS,
    MOST_WORDS,
};
use crate::short::Short;
use std::collections::{BTreeMap, BTreeSet};
use std::mem;

pub mod records;

/// The answer of the check, and the shard sizes of every state, the start first.
#[derive(Clone, Debug, PartialEq, Eq)]
pub struct Judged {
    pub checked: Checked,
    pub shards: Vec<Sizes>,
}

/// The limits that document 02, Ask 12, raised.
#[derive(Clone, Copy)]
pub struct Limits {
    pub bytes: usize,
    pub devices: usize,
    pub words: usize,
}

impl Limits {
    pub const PRESENT: Limits = Limits {
        bytes: MOST_BYTES,
        devices: MOST_DEVICES,
        words: MOST_WORDS,
    };

    /// Those of document 01.
    pub const ORIGINAL: Limits = Limits {
        bytes: 4096,
        devices: 256,
        words: 4096,
    };
}

/// Judges a plan file.
pub fn check(file: &[u8]) -> Result<Judged, Refusal> {
    check_within(file, Limits::PRESENT)
}

/// Judges a plan file as the reader with these limits does.
pub fn check_within(file: &[u8], limits: Limits) -> Result<Judged, Refusal> {
    let plan = Plan::judge_within(file, limits)?;
    let last = plan.last();
    let checked = Checked {
        room: plan.room() as u32,
        devices: plan.mesh.devices as u16,
        steps: plan.steps.len() as u16,
        sharding: last.sharding,
        shard: last.shard,
        moved: plan.moved(),
    };
    let shards = plan.states.iter().map(|state| state.shard).collect();
    Ok(Judged { checked, shards })
}

/// Tells how a state is sharded, and where in the table a device's shard begins.
pub fn place(file: &[u8], state: u16, device: Device) -> Result<Placed, Refusal> {
    let plan = Plan::judge(file)?;
    let state = plan.state(state)?;
    if !plan.has(device) {
        return Err(Refusal::whole(32));
    }
    Ok(Placed {
        sharding: state.sharding,
        shard: state.shard,
        first: state.first(&plan.mesh, plan.order.place(device)),
    })
}

/// Writes where the shard of each device of a list begins, as many numbers for each as the rank.
pub fn place_all(
    file: &[u8],
    state: u16,
    devices: &[Device],
    first: &mut [u16],
) -> Result<(), NotPlaced> {
    let plan = Plan::judge(file)?;
    let state = plan.state(state)?;
    let rank = state.shard.len();
    if first.len() < devices.len() * rank {
        return Err(Refusal::whole(33).into());
    }
    if let Some(place) = devices.iter().position(|&device| !plan.has(device)) {
        return Err(NotPlaced {
            refusal: Refusal::whole(32),
            place: Some(place),
        });
    }
    let places = plan.order.places(plan.mesh.devices);
    for (entries, device) in first.chunks_exact_mut(rank).zip(devices) {
        entries.copy_from_slice(&state.first(&plan.mesh, places[device.index()]));
    }
    Ok(())
}

/// Lists the devices of a mesh group by group.
pub fn groups(mesh: &[u16], axes: &[Axis], out: &mut [Device]) -> Result<(), Refusal> {
    let mesh = given_mesh(mesh)?;
    list_groups(&mesh, &Order::PLAIN, axes, out)
}

/// The same of devices with an order.
pub fn groups_ordered(
    mesh: &[u16],
    order: &[Device],
    axes: &[Axis],
    out: &mut [Device],
) -> Result<(), Refusal> {
    let mesh = given_mesh(mesh)?;
    let order = Order::judge(order.to_vec(), mesh.devices)?;
    list_groups(&mesh, &order, axes, out)
}

fn given_mesh(sizes: &[u16]) -> Result<Mesh, Refusal> {
    if !(1..=MOST_AXES).contains(&sizes.len()) {
        return Err(Refusal::whole(5));
    }
    Mesh::judge(sizes.iter().copied().collect(), MOST_DEVICES)
}

fn list_groups(
    mesh: &Mesh,
    order: &Order,
    axes: &[Axis],
    out: &mut [Device],
) -> Result<(), Refusal> {
    let mut named = Named::default();
    axes.iter().try_for_each(|&axis| named.name(mesh, axis))?;
    if out.len() < mesh.devices {
        return Err(Refusal::whole(33));
    }
    for (entry, place) in out.iter_mut().zip(mesh.listing(axes)) {
        *entry = order.device(place);
    }
    Ok(())
}

/// Whether a plan file is accepted.
pub fn accepts(file: &[u8]) -> bool {
    Plan::judge(file).is_ok()
}

/// Runs a plan on the words in `work`, and answers the words moved between devices; `spare` is lent to
/// hold every other state.
pub fn run(file: &[u8], work: &mut [u32], spare: &mut [u32]) -> Result<u64, Refusal> {
    let plan = Plan::judge(file)?;
    plan.run(work, spare)?;
    Ok(plan.moved())
}

/// The same without the count.
pub fn only_run(file: &[u8], work: &mut [u32], spare: &mut [u32]) -> Result<(), Refusal> {
    Plan::judge(file)?.run(work, spare)
}

/// An accepted plan.
struct Plan {
    mesh: Mesh,
    order: Order,
    table: Sizes,
    /// The outermost steps, and the states before and after them: one more.
    steps: Vec<Item>,
    states: Vec<State>,
    /// The words of the largest shard, in states inside blocks too.
    most: usize,
}

impl Plan {
    fn judge(file: &[u8]) -> Result<Plan, Refusal> {
        Plan::judge_within(file, Limits::PRESENT)
    }

    fn judge_within(file: &[u8], limits: Limits) -> Result<Plan, Refusal> {
        let header = Header::judge(file, limits.bytes)?;
        let mut reader = Reader { file, at: 18 };
        reader.expect_at(header.mesh_at)?;
        let mesh = Mesh::judge(reader.sizes(header.axes)?, limits.devices)?;
        let order = match header.edition {
            3 => Order::judge(reader.devices(mesh.devices)?, mesh.devices)?,
            _ => Order::PLAIN,
        };
        reader.expect_at(header.table_at)?;
        let table: Sizes = reader.sizes(header.rank)?;
        product_within(&table, 12, limits.words, 13)?;
        reader.expect_at(header.start_at)?;
        let start = reader.sharding(&header)?;
        reader.expect_at(header.steps_at)?;
        let start = State::start(&mesh, &table, start)?;
        if header.edition == 2 && start.sharding.replicated.is_empty() {
            return Err(Refusal::whole(18));
        }
        let mut judge = Judge::new(&mesh, reader, start);
        let (steps, states) = judge.outermost(header.steps)?;
        if judge.source.at < file.len() {
            return Err(Refusal::whole(9));
        }
        let most = judge.most;
        Ok(Plan {
            mesh,
            order,
            table,
            steps,
            states,
            most,
        })
    }

    fn state(&self, number: u16) -> Result<&State, Refusal> {
        let state = self.states.get(usize::from(number));
        state.ok_or(Refusal::whole(34))
    }

    fn has(&self, device: Device) -> bool {
        device.index() < self.mesh.devices
    }

    fn last(&self) -> &State {
        &self.states[self.steps.len()]
    }

    fn room(&self) -> usize {
        self.mesh.devices * self.most
    }

    fn run(&self, work: &mut [u32], spare: &mut [u32]) -> Result<(), Refusal> {
        let room = self.room();
        if work.len() < room {
            return Err(Refusal::whole(30));
        }
        if spare.len() < room {
            return Err(Refusal::whole(31));
        }
        let times = self.apply(&mut work[..room], &mut spare[..room]);
        let words = self.mesh.devices * self.last().words();
        if times % 2 == 1 {
            work[..words].copy_from_slice(&spare[..words]);
        }
        work[words..].fill(0);
        spare.fill(0);
        Ok(())
    }

    /// The words moved between devices: for each new word of each step run, the other devices whose
    /// word it is made from.
    fn moved(&self) -> u64 {
        self.steps.iter().map(|item| item.moved(&self.mesh)).sum()
    }

    /// Runs all steps, on shards by place. Answers how often the state went from one buffer to the
    /// other: after an even number of times it is in `work`, else in `spare`.
    fn apply(&self, work: &mut [u32], spare: &mut [u32]) -> usize {
        let (mut old, mut new) = (work, spare);
        let mut times = 0;
        let mut pass = |make: &dyn Fn(&[u32], &mut [u32])| {
            make(old, new);
            mem::swap(&mut old, &mut new);
            times += 1;
        };
        if !self.order.is_plain() {
            let words = self.states[0].words();
            pass(&|old, new| self.order.by_place(words, old, new));
        }
        for item in &self.steps {
            item.each_plain(&mut |step| pass(&|old, new| step.apply(&self.mesh, old, new)));
        }
        if !self.order.is_plain() {
            let words = self.last().words();
            pass(&|old, new| self.order.by_device(words, old, new));
        }
        times
    }
}

/// What stands at one kind byte of an accepted plan.
enum Item {
    Plain(Taken),
    /// A block, which is run so many times.
    Repeat(usize, Vec<Item>),
}

/// A plain step between its states. A block ends in the sharding that it begins with, so that these
/// are the same however often it is run.
struct Taken {
    step: Step,
    before: State,
    after: State,
}

impl Item {
    /// How many plain steps it runs.
    fn runs(&self) -> usize {
        match self {
            Item::Plain(_) => 1,
            Item::Repeat(count, block) => count * block.iter().map(Item::runs).sum::<usize>(),
        }
    }

    /// The words that it moves between devices, a block in each of its rounds.
    fn moved(&self, mesh: &Mesh) -> u64 {
        match self {
            Item::Plain(taken) => taken.step.moved(mesh, &taken.before, &taken.after),
            Item::Repeat(count, block) => {
                let once: u64 = block.iter().map(|item| item.moved(mesh)).sum();
                *count as u64 * once
            }
        }
    }

    /// Goes through its plain steps in running order.
    fn each_plain(&self, act: &mut dyn FnMut(&Taken)) {
        match self {
            Item::Plain(taken) => act(taken),
            Item::Repeat(count, block) => {
                for _ in 0..*count {
                    block.iter().for_each(|item| item.each_plain(act));
                }
            }
        }
    }
}

impl Taken {
    fn apply(&self, mesh: &Mesh, old: &[u32], new: &mut [u32]) {
        self.step.apply(mesh, &self.before, &self.after, old, new);
    }
}

/// The kind byte of a repeat.
const REPEAT: u8 = 9;

/// What steps are read from, one after the other: a file, or records.
trait Source {
    /// The kind of the next step.
    fn kind(&mut self) -> Result<u8, Refusal>;

    /// The two numbers of a repeat, each judged when it is read.
    fn repeat(
        &mut self,
        positive: &dyn Fn(u8) -> Result<usize, Refusal>,
    ) -> Result<(usize, usize), Refusal>;

    /// A plain step of this kind, or nothing where no step has it.
    fn step(&mut self, kind: u8, axes: usize, rank: usize) -> Result<Option<Step>, Refusal>;
}

/// Reads and judges the steps one after the other.
struct Judge<'a, S> {
    mesh: &'a Mesh,
    source: S,
    /// The state after what was judged.
    state: State,
    /// The words of the largest shard so far.
    most: usize,
    /// The kind bytes read so far; the last one has this number.
    number: usize,
}

impl<'a, S: Source> Judge<'a, S> {
    fn new(mesh: &'a Mesh, source: S, start: State) -> Judge<'a, S> {
        Judge {
            mesh,
            source,
            state: start,
            most: start.words(),
            number: 0,
        }
    }

    /// So many outermost steps, and the states before and after them.
    fn outermost(&mut self, count: usize) -> Result<(Vec<Item>, Vec<State>), Refusal> {
        let mut steps = Vec::with_capacity(count);
        let mut states = Vec::with_capacity(count + 1);
        states.push(self.state);
        let mut ran = 0;
        for _ in 0..count {
            let number = self.number + 1;
            let item = self.item(1)?;
            ran += item.runs();
            if ran > MOST_RUN {
                return Err(refusal_at(43, number));
            }
            steps.push(item);
            states.push(self.state);
        }
        Ok((steps, states))
    }

    /// A step; a repeat there would have this depth.
    fn item(&mut self, depth: usize) -> Result<Item, Refusal> {
        let kind = self.source.kind()?;
        self.number += 1;
        match kind {
            REPEAT => self.repeat(depth),
            _ => Ok(Item::Plain(self.plain(kind)?)),
        }
    }

    fn plain(&mut self, kind: u8) -> Result<Taken, Refusal> {
        let before = self.state;
        let at = self.number;
        let refused = |number| refusal_at(number, at);
        let read = self.source.step(kind, self.mesh.axes(), before.shard.len());
        let step = read?.ok_or(refused(20))?;
        let after = step.judge(self.mesh, &before).map_err(refused)?;
        self.state = after;
        self.most = self.most.max(after.words());
        Ok(Taken {
            step,
            before,
            after,
        })
    }

    fn repeat(&mut self, depth: usize) -> Result<Item, Refusal> {
        let before = self.state.sharding;
        let at = self.number;
        let refused = |number| refusal_at(number, at);
        let positive = |byte: u8| match byte {
            0 => Err(refused(44)),
            _ => Ok(usize::from(byte)),
        };
        let (count, steps) = self.source.repeat(&positive)?;
        if depth > MOST_DEPTH {
            return Err(refused(42));
        }
        let inner: Result<Vec<Item>, Refusal> = (0..steps).map(|_| self.item(depth + 1)).collect();
        let block = Item::Repeat(count, inner?);
        if self.state.sharding != before {
            return Err(refused(41));
        }
        if block.runs() > MOST_RUN {
            return Err(refused(43));
        }
        Ok(block)
    }
}

/// A refusal of the step with this number. Records may be more than 16 bits count: past them the file
/// is too long for any refusal of its own.
fn refusal_at(number: u8, step: usize) -> Refusal {
    match u16::try_from(step) {
        Ok(step) => Refusal { number, step },
        Err(_) => Refusal::whole(2),
    }
}

/// The numbers at the front of a file, within their limits.
struct Header {
    edition: usize,
    axes: usize,
    rank: usize,
    steps: usize,
    mesh_at: usize,
    table_at: usize,
    start_at: usize,
    steps_at: usize,
}

impl Header {
    fn judge(file: &[u8], most: usize) -> Result<Header, Refusal> {
        if file.len() < LEAST_BYTES {
            return Err(Refusal::whole(1));
        }
        if file.len() > most {
            return Err(Refusal::whole(2));
        }
        let entry = |index: usize| usize::from(number_at(file, 2 * index));
        if !(1..=3).contains(&entry(0)) {
            return Err(Refusal::whole(3));
        }
        if entry(8) != file.len() {
            return Err(Refusal::whole(4));
        }
        let (axes, rank, steps) = (entry(1), entry(2), entry(3));
        within_limits(axes, rank, steps)?;
        Ok(Header {
            edition: entry(0),
            axes,
            rank,
            steps,
            mesh_at: entry(4),
            table_at: entry(5),
            start_at: entry(6),
            steps_at: entry(7),
        })
    }
}

fn within_limits(axes: usize, rank: usize, steps: usize) -> Result<(), Refusal> {
    let within =
        (1..=MOST_AXES).contains(&axes) && (1..=MOST_RANK).contains(&rank) && steps <= MOST_STEPS;
    if within {
        Ok(())
    } else {
        Err(Refusal::whole(5))
    }
}

fn number_at(file: &[u8], at: usize) -> u16 {
    u16::from_le_bytes([file[at], file[at + 1]])
}

/// Goes through the file from front to back.
struct Reader<'a> {
    file: &'a [u8],
    at: usize,
}

impl Reader<'_> {
    fn expect_at(&self, offset: usize) -> Result<(), Refusal> {
        if offset == self.at {
            Ok(())
        } else {
            Err(Refusal::whole(6))
        }
    }

    fn bytes(&mut self, count: usize) -> Result<&[u8], Refusal> {
        let bytes = self.file[self.at..].get(..count);
        self.at += count;
        bytes.ok_or(Refusal::whole(7))
    }

    fn byte(&mut self) -> Result<u8, Refusal> {
        Ok(self.bytes(1)?[0])
    }

    fn sizes<const N: usize>(&mut self, count: usize) -> Result<Short<u16, N>, Refusal> {
        let bytes = self.bytes(2 * count)?;
        Ok((0..count).map(|i| number_at(bytes, 2 * i)).collect())
    }

    fn devices(&mut self, count: usize) -> Result<Vec<Device>, Refusal> {
        let bytes = self.bytes(2 * count)?;
        let device = |i| Device(number_at(bytes, 2 * i));
        Ok((0..count).map(device).collect())
    }

    fn list(&mut self, axes: usize) -> Result<AxisList, Refusal> {
        let count = usize::from(self.byte()?);
        if count > axes {
            return Err(Refusal::whole(8));
        }
        Ok(self.bytes(count)?.iter().map(|&byte| Axis(byte)).collect())
    }

    fn lists(&mut self, axes: usize, rank: usize) -> Result<DimLists, Refusal> {
        let mut lists = DimLists::new();
        for _ in 0..rank {
            lists.push(self.list(axes)?);
        }
        Ok(lists)
    }

    fn sharding(&mut self, header: &Header) -> Result<Sharding, Refusal> {
        let dims = self.lists(header.axes, header.rank)?;
        let unreduced = self.list(header.axes)?;
        let replicated = match header.edition {
            1 => AxisList::new(),
            _ => self.list(header.axes)?,
        };
        Ok(Sharding {
            dims,
            unreduced,
            replicated,
        })
    }
}

impl Source for Reader<'_> {
    fn kind(&mut self) -> Result<u8, Refusal> {
        self.byte()
    }

    fn repeat(
        &mut self,
        positive: &dyn Fn(u8) -> Result<usize, Refusal>,
    ) -> Result<(usize, usize), Refusal> {
        let count = positive(self.byte()?)?;
        let steps = positive(self.byte()?)?;
        Ok((count, steps))
    }

    fn step(&mut self, kind: u8, axes: usize, rank: usize) -> Result<Option<Step>, Refusal> {
        let step = match kind {
            1 => Step::Slice(self.lists(axes, rank)?),
            2 => Step::Gather(self.lists(axes, rank)?),
            3 => Step::Reduce(self.list(axes)?),
            4 => Step::AllToAll {
                source: Dim(self.byte()?),
                target: Dim(self.byte()?),
                axes: self.list(axes)?,
            },
            5 => Step::Scatter(self.lists(axes, rank)?),
            _ => return Ok(None),
        };
        Ok(Some(step))
    }
}

/// The product of sizes, refused at the first size that is 0 or takes it past `most`.
fn product_within(sizes: &[u16], zero: u8, most: usize, past: u8) -> Result<usize, Refusal> {
    let mut product = 1;
    for &size in sizes {
        product *= usize::from(size);
        if size == 0 {
            return Err(Refusal::whole(zero));
        }
        if product > most {
            return Err(Refusal::whole(past));
        }
    }
    Ok(product)
}

struct Mesh {
    sizes: Short<u16, MOST_AXES>,
    /// How far apart the places of neighbours along each axis are.
    strides: Short<usize, MOST_AXES>,
    devices: usize,
}

impl Mesh {
    fn judge(sizes: Short<u16, MOST_AXES>, most: usize) -> Result<Mesh, Refusal> {
        let devices = product_within(&sizes, 10, most, 11)?;
        let mut left = devices;
        let stride = |&size: &u16| {
            left /= usize::from(size);
            left
        };
        let strides = sizes.iter().map(stride).collect();
        Ok(Mesh {
            sizes,
            strides,
            devices,
        })
    }

    fn axes(&self) -> usize {
        self.sizes.len()
    }

    fn size(&self, axis: Axis) -> usize {
        self.sizes[axis.index()].into()
    }

    /// How many devices a group along these axes has.
    fn group_size(&self, axes: &[Axis]) -> usize {
        axes.iter().map(|&axis| self.size(axis)).product()
    }

    fn coordinate(&self, place: usize, axis: Axis) -> usize {
        place / self.strides[axis.index()] % self.size(axis)
    }

    /// The position, in its group along these axes, of the device at a place.
    fn position(&self, place: usize, axes: &[Axis]) -> usize {
        axes.iter().fold(0, |position, &axis| {
            position * self.size(axis) + self.coordinate(place, axis)
        })
    }

    /// How far the place at a position of a group is from the one at position 0.
    fn offset(&self, axes: &[Axis], position: usize) -> usize {
        let mut left = position;
        let mut offset = 0;
        for &axis in axes.iter().rev() {
            offset += left % self.size(axis) * self.strides[axis.index()];
            left /= self.size(axis);
        }
        offset
    }

    /// All places, group after group, by position in each.
    fn listing(&self, axes: &[Axis]) -> Vec<usize> {
        let all = (0..self.axes() as u8).map(Axis);
        let rest: AxisList = all.filter(|axis| !axes.contains(axis)).collect();
        let offsets_of = |axes: &[Axis]| -> Vec<usize> {
            let positions = 0..self.group_size(axes);
            positions.map(|at| self.offset(axes, at)).collect()
        };
        let members = offsets_of(axes);
        let firsts = offsets_of(&rest);
        let group = |first: usize| members.iter().map(move |member| first + member);
        firsts.into_iter().flat_map(group).collect()
    }
}

/// Which device stands at each place.
struct Order(Vec<Device>);

impl Order {
    /// Every device's number is its place; no list is kept.
    const PLAIN: Order = Order(Vec::new());

    fn judge(listed: Vec<Device>, devices: usize) -> Result<Order, Refusal> {
        let plain: Vec<Device> = (0..devices as u16).map(Device).collect();
        let mut sorted = listed.clone();
        sorted.sort_unstable();
        if sorted != plain || listed == plain {
            return Err(Refusal::whole(19));
        }
        Ok(Order(listed))
    }

    fn is_plain(&self) -> bool {
        self.0.is_empty()
    }

    fn device(&self, place: usize) -> Device {
        let plain = Device(place as u16);
        self.0.get(place).copied().unwrap_or(plain)
    }

    fn place(&self, device: Device) -> usize {
        let listed = self.0.iter().position(|&other| other == device);
        listed.unwrap_or(device.index())
    }

    /// The place of each device, by its number.
    fn places(&self, devices: usize) -> Vec<usize> {
        let mut places: Vec<usize> = (0..devices).collect();
        for (place, device) in self.0.iter().enumerate() {
            places[device.index()] = place;
        }
        places
    }

    /// Puts shards that lie by device number where the places are.
    fn by_place(&self, words: usize, old: &[u32], new: &mut [u32]) {
        for (shard, device) in new.chunks_exact_mut(words).zip(&self.0) {
            shard.copy_from_slice(&old[device.index() * words..][..words]);
        }
    }

    /// The way back.
    fn by_device(&self, words: usize, old: &[u32], new: &mut [u32]) {
        for (shard, device) in old.chunks_exact(words).zip(&self.0) {
            new[device.index() * words..][..words].copy_from_slice(shard);
        }
    }
}

/// The axes named so far.
#[derive(Default)]
struct Named(AxisList);

impl Named {
    fn name(&mut self, mesh: &Mesh, axis: Axis) -> Result<(), Refusal> {
        if axis.index() >= mesh.axes() {
            return Err(Refusal::whole(14));
        }
        if self.0.contains(&axis) {
            return Err(Refusal::whole(15));
        }
        self.0.push(axis);
        Ok(())
    }
}

impl Sharding {
    fn judge_start(&self, mesh: &Mesh) -> Result<(), Refusal> {
        let mut named = Named::default();
        for &axis in self.dims.iter().flatten() {
            named.name(mesh, axis)?;
        }
        for list in [&self.unreduced, &self.replicated] {
            let mut before = None;
            for &axis in list {
                named.name(mesh, axis)?;
                if before >= Some(axis) {
                    return Err(Refusal::whole(16));
                }
                before = Some(axis);
            }
        }
        Ok(())
    }

    fn names(&self, axis: Axis) -> bool {
        let mut lists = self.dims.iter().chain([&self.unreduced, &self.replicated]);
        lists.any(|list| list.contains(&axis))
    }

    /// Whether an all-reduce may name the axis: it splits no dimension and is not to stay replicated.
    fn may_reduce(&self, axis: Axis) -> bool {
        self.unreduced.contains(&axis) || !self.names(axis)
    }
}

/// A sharding of the plan's table, with its shard sizes.
#[derive(Clone, Copy)]
struct State {
    sharding: Sharding,
    shard: Sizes,
}

impl State {
    fn start(mesh: &Mesh, table: &Sizes, sharding: Sharding) -> Result<State, Refusal> {
        sharding.judge_start(mesh)?;
        let shard = divided(mesh, table, &sharding.dims).ok_or(Refusal::whole(17))?;
        Ok(State { sharding, shard })
    }

    /// Where in the table the shard of the device at a place begins.
    fn first(&self, mesh: &Mesh, place: usize) -> Sizes {
        let lists = self.sharding.dims.iter().zip(&self.shard);
        lists
            .map(|(list, &size)| mesh.position(place, list) as u16 * size)
            .collect()
    }

    /// The words of one shard.
    fn words(&self) -> usize {
        self.shard.iter().map(|&size| usize::from(size)).product()
    }

    fn sliced(&self, mesh: &Mesh, lists: &DimLists) -> Result<State, u8> {
        let mut next = *self;
        let mut named = AxisList::new();
        for (dim, list) in next.sharding.dims.iter_mut().zip(lists) {
            for &axis in list {
                if self.sharding.names(axis) || named.contains(&axis) {
                    return Err(23);
                }
                named.push(axis);
            }
            dim.extend(list);
        }
        next.shard = divided(mesh, &self.shard, lists).ok_or(25)?;
        Ok(next)
    }

    fn scattered(&self, mesh: &Mesh, lists: &DimLists) -> Result<State, u8> {
        let named: Vec<Axis> = lists.iter().flatten().copied().collect();
        if (1..named.len()).any(|at| named[..at].contains(&named[at])) {
            return Err(23);
        }
        let unreduced = self.sharding.unreduced;
        if named.iter().any(|axis| !unreduced.contains(axis)) {
            return Err(27);
        }
        let mut next = *self;
        next.shard = divided(mesh, &self.shard, lists).ok_or(25)?;
        let kept = unreduced.iter().filter(|axis| !named.contains(axis));
        next.sharding.unreduced = kept.copied().collect();
        for (dim, list) in next.sharding.dims.iter_mut().zip(lists) {
            dim.extend(list);
        }
        Ok(next)
    }

    fn gathered(&self, mesh: &Mesh, lists: &DimLists) -> Result<State, u8> {
        let mut next = *self;
        for (dim, list) in next.sharding.dims.iter_mut().zip(lists) {
            if !dim.ends_with(list) {
                return Err(24);
            }
            dim.truncate(dim.len() - list.len());
        }
        for (size, list) in next.shard.iter_mut().zip(lists) {
            *size *= mesh.group_size(list) as u16;
        }
        Ok(next)
    }

    fn reduced(&self, axes: &AxisList) -> Result<State, u8> {
        if !axes.is_sorted_by(|one, next| one < next) {
            return Err(26);
        }
        if !axes.iter().all(|&axis| self.sharding.may_reduce(axis)) {
            return Err(27);
        }
        let mut next = *self;
        let unreduced = self.sharding.unreduced;
        let kept = unreduced.iter().filter(|axis| !axes.contains(axis));
        next.sharding.unreduced = kept.copied().collect();
        Ok(next)
    }
}

/// The sizes divided by the lists' group sizes, or nothing where that leaves a remainder.
fn divided(mesh: &Mesh, sizes: &Sizes, lists: &DimLists) -> Option<Sizes> {
    let mut quotients = *sizes;
    for (size, list) in quotients.iter_mut().zip(lists) {
        let pieces = mesh.group_size(list) as u16;
        if *size % pieces != 0 {
            return None;
        }
        *size /= pieces;
    }
    Some(quotients)
}

enum Step {
    Slice(DimLists),
    Gather(DimLists),
    Reduce(AxisList),
    AllToAll {
        source: Dim,
        target: Dim,
        axes: AxisList,
    },
    /// A reduction along all its axes, and then a slice.
    Scatter(DimLists),
}

impl Step {
    /// All axes of the step, in file order.
    fn axes(&self) -> &[AxisList] {
        match self {
            Step::Slice(lists) | Step::Gather(lists) | Step::Scatter(lists) => lists,
            Step::Reduce(axes) | Step::AllToAll { axes, .. } => std::slice::from_ref(axes),
        }
    }

    /// The state after this step, or the reason against it.
    fn judge(&self, mesh: &Mesh, state: &State) -> Result<State, u8> {
        if self.axes().iter().all(|list| list.is_empty()) {
            return Err(21);
        }
        let mut axes = self.axes().iter().flatten();
        if axes.any(|axis| axis.index() >= mesh.axes()) {
            return Err(22);
        }
        match self {
            Step::Slice(lists) => state.sliced(mesh, lists),
            Step::Gather(lists) => state.gathered(mesh, lists),
            Step::Reduce(axes) => state.reduced(axes),
            Step::AllToAll { source, target, .. } => {
                let rank = state.shard.len();
                if source.index() >= rank || target.index() >= rank || source == target {
                    return Err(28);
                }
                let (gathered, sliced) = self.movement(rank);
                state.gathered(mesh, &gathered)?.sliced(mesh, &sliced)
            }
            Step::Scatter(lists) => state.scattered(mesh, lists),
        }
    }

    /// The lists gathered off the dimensions and the lists then sliced onto them.
    fn movement(&self, rank: usize) -> (DimLists, DimLists) {
        let none: DimLists = (0..rank).map(|_| AxisList::new()).collect();
        let (mut gathered, mut sliced) = (none, none);
        match self {
            Step::Slice(lists) | Step::Scatter(lists) => sliced = *lists,
            Step::Gather(lists) => gathered = *lists,
            Step::Reduce(_) => {}
            Step::AllToAll {
                source,
                target,
                axes,
            } => {
                gathered[source.index()] = *axes;
                sliced[target.index()] = *axes;
            }
        }
        (gathered, sliced)
    }

    /// Makes the state after the step in `new` from the state before it in `old`.
    fn apply(&self, mesh: &Mesh, before: &State, after: &State, old: &[u32], new: &mut [u32]) {
        match self {
            Step::Reduce(axes) => reduce(mesh, axes, before.words(), old, new),
            Step::Scatter(lists) => {
                let mut axes: Vec<Axis> = lists.iter().flatten().copied().collect();
                axes.sort();
                let mut sums = vec![0; mesh.devices * before.words()];
                reduce(mesh, &axes, before.words(), old, &mut sums);
                self.moves(mesh, before, after, &sums, new);
            }
            _ => self.moves(mesh, before, after, old, new),
        }
    }

    /// Gathers and slices.
    fn moves(&self, mesh: &Mesh, before: &State, after: &State, old: &[u32], new: &mut [u32]) {
        self.movement_between(mesh, before, after).apply(old, new);
    }

    fn movement_between<'a>(
        &self,
        mesh: &'a Mesh,
        before: &'a State,
        after: &'a State,
    ) -> Move<'a> {
        let (gathered, sliced) = self.movement(before.shard.len());
        Move {
            mesh,
            before,
            after,
            gathered,
            sliced,
        }
    }

    /// For each new word, the other devices whose word it is made from.
    fn moved(&self, mesh: &Mesh, before: &State, after: &State) -> u64 {
        match self {
            Step::Reduce(axes) => others_in_groups(mesh, axes) * after.words() as u64,
            Step::Scatter(lists) => {
                let axes: Vec<Axis> = lists.iter().flatten().copied().collect();
                others_in_groups(mesh, &axes) * after.words() as u64
            }
            _ => self.movement_between(mesh, before, after).moved(),
        }
    }
}

/// For each device, the others of its group.
fn others_in_groups(mesh: &Mesh, axes: &[Axis]) -> u64 {
    let mut others = 0;
    for group in mesh.listing(axes).chunks(mesh.group_size(axes)) {
        let members: BTreeSet<&usize> = group.iter().collect();
        for place in group {
            others += members.len() as u64 - u64::from(members.contains(place));
        }
    }
    others
}

/// Gives each device the word-by-word sum of its group's shards, which lie by place.
fn reduce(mesh: &Mesh, axes: &[Axis], words: usize, old: &[u32], new: &mut [u32]) {
    let mut sum = vec![0; words];
    for group in mesh.listing(axes).chunks(mesh.group_size(axes)) {
        sum.fill(0);
        for place in group {
            let shard = &old[place * words..][..words];
            for (total, word) in sum.iter_mut().zip(shard) {
                *total = word.wrapping_add(*total);
            }
        }
        for place in group {
            new[place * words..][..words].copy_from_slice(&sum);
        }
    }
}

/// States of at most so many words have their words moved counted one by one. Larger ones would take
/// minutes so, and are counted shard by shard.
const ONE_BY_ONE: usize = 1 << 14;

/// A step that only moves words. Along each dimension it gathers, slices or does neither; the
/// state between gathering and slicing is never made.
struct Move<'a> {
    mesh: &'a Mesh,
    before: &'a State,
    after: &'a State,
    gathered: DimLists,
    sliced: DimLists,
}

impl Move<'_> {
    fn apply(&self, old: &[u32], new: &mut [u32]) {
        let strides = row_major(&self.before.shard);
        let sources = self.sources(&strides);
        let shards = new.chunks_exact_mut(self.after.words());
        for (place, shard) in shards.take(self.mesh.devices).enumerate() {
            let old = &old[self.origin(place, &strides)..];
            for (word, &source) in shard.iter_mut().zip(&sources) {
                *word = old[source];
            }
        }
    }

    /// The new words that come from another device.
    fn moved(&self) -> u64 {
        if self.mesh.devices * self.after.words() <= ONE_BY_ONE {
            self.moved_one_by_one()
        } else {
            self.moved_by_shards()
        }
    }

    /// The same, word by word, from the places that the words are taken from.
    fn moved_one_by_one(&self) -> u64 {
        let strides = row_major(&self.before.shard);
        let sources = self.sources(&strides);
        let words = self.before.words();
        let from_others = |place: usize| {
            let origin = self.origin(place, &strides);
            let is_other = |source: &&usize| (origin + **source) / words != place;
            sources.iter().filter(is_other).count() as u64
        };
        (0..self.mesh.devices).map(from_others).sum()
    }

    /// The same for each new shard at once: its words but those whose source lies in the old shard
    /// at the same place.
    fn moved_by_shards(&self) -> u64 {
        let distances = self.distances();
        let words = self.after.words() as u64;
        let from_others = |place: usize| {
            let own = distances.get(&(place - self.first_of_group(place)));
            words - own.copied().unwrap_or(0)
        };
        (0..self.mesh.devices).map(from_others).sum()
    }

    /// How many words of a new shard lie so many places after the first of the group.
    fn distances(&self) -> BTreeMap<usize, u64> {
        let mut distances = BTreeMap::from([(0, 1)]);
        for dim in 0..self.before.shard.len() {
            let piece = usize::from(self.before.shard[dim]);
            let size = usize::from(self.after.shard[dim]);
            let mut further = BTreeMap::new();
            for (number, first) in (0..size).step_by(piece).enumerate() {
                let member = self.mesh.offset(&self.gathered[dim], number);
                let along = piece.min(size - first) as u64;
                for (distance, words) in &distances {
                    *further.entry(distance + member).or_insert(0) += words * along;
                }
            }
            distances = further;
        }
        distances
    }

    /// The place that has position 0 in every list that is gathered.
    fn first_of_group(&self, place: usize) -> usize {
        let mut first = place;
        for list in &self.gathered {
            first -= self.mesh.offset(list, self.mesh.position(place, list));
        }
        first
    }

    /// Where the first word of the new shard at a place lies in the old state.
    fn origin(&self, place: usize, strides: &[usize]) -> usize {
        let mut origin = self.first_of_group(place) * self.before.words();
        for ((list, &size), stride) in self.sliced.iter().zip(&self.after.shard).zip(strides) {
            origin += self.mesh.position(place, list) * usize::from(size) * stride;
        }
        origin
    }

    /// How far each word of a new shard lies from its first word, in the old state. This is the
    /// same for all places.
    fn sources(&self, strides: &[usize]) -> Vec<usize> {
        let mut sources = vec![0];
        for (dim, stride) in strides.iter().enumerate() {
            let along = self.sources_along(dim, *stride);
            let outer = sources.iter();
            sources = outer
                .flat_map(|outer| along.iter().map(move |inner| outer + inner))
                .collect();
        }
        sources
    }

    /// The same along one dimension alone.
    fn sources_along(&self, dim: usize, stride: usize) -> Vec<usize> {
        let piece = usize::from(self.before.shard[dim]);
        let source = |index: usize| {
            let member = self.mesh.offset(&self.gathered[dim], index / piece);
            member * self.before.words() + index % piece * stride
        };
        (0..usize::from(self.after.shard[dim]))
            .map(source)
            .collect()
    }
}

/// How far apart neighbours along each dimension are in row-major order.
fn row_major(sizes: &[u16]) -> Short<usize, MOST_RANK> {
    let mut left: usize = sizes.iter().map(|&size| usize::from(size)).product();
    let stride = |&size: &u16| {
        left /= usize::from(size);
        left
    };
    sizes.iter().map(stride).collect()
}
