//! A safe way to call the verified library.
//!
//! Buffers are borrowed for the time of a call and never kept. Every answer is a `Result`; a
//! refusal leaves all lent memory as it was.

#![allow(unsafe_code)]

use crate::answers::{
    Axis, AxisList, Checked, Device, DimLists, NotPlaced, Placed, Refusal, Sharding, Sizes,
    MOST_AXES, MOST_BYTES, MOST_DEVICES, MOST_RANK,
};
use crate::records::{
    MeshAndTable, Opened, Records, ShardingRecord, StepRecord, LEAST_STEP_BYTES, RECORD_BYTES,
    RECORD_LISTS,
};
use std::mem::{offset_of, size_of};

/// Judges a plan file.
pub fn check(file: &[u8]) -> Result<Checked, Refusal> {
    raw::check(file).into()
}

/// Tells how a state is sharded, and where in the table a device's shard begins.
pub fn place(file: &[u8], state: u16, device: Device) -> Result<Placed, Refusal> {
    raw::place(file, state, device).into()
}

/// Tells where the shard of each device of a list begins: writes the first indexes of each in turn, as
/// many as the rank. Entries after them stay.
pub fn place_all(
    file: &[u8],
    state: u16,
    devices: &[Device],
    first: &mut [u16],
) -> Result<(), NotPlaced> {
    raw::place_all(file, state, devices, first).into()
}

/// Lists the devices of a mesh group by group. Entries after the last device stay.
pub fn groups(mesh: &[u16], axes: &[Axis], out: &mut [Device]) -> Result<(), Refusal> {
    refused(raw::groups(mesh, axes, out))
}

/// The same of devices with an order.
pub fn groups_ordered(
    mesh: &[u16],
    order: &[Device],
    axes: &[Axis],
    out: &mut [Device],
) -> Result<(), Refusal> {
    refused(raw::groups_ordered(mesh, order, axes, out))
}

/// Runs a plan, and answers the words moved between devices. Afterwards the last state stands at the
/// front of `work`, and the rest of `work` and all of `spare` are 0.
pub fn run(file: &[u8], work: &mut [u32], spare: &mut [u32]) -> Result<u64, Refusal> {
    raw::run(file, work, spare).into()
}

/// Judges a plan given as records, and answers the bytes of its file.
pub fn write(records: &Records) -> Result<Vec<u8>, Refusal> {
    let mut file = vec![0; MOST_BYTES];
    let length = write_into(records, &mut file)?;
    file.truncate(length);
    Ok(file)
}

/// The same into a lent buffer; answers how many bytes the file has. Bytes after it stay.
///
/// Panics where a sharding or a step has not one list for each dimension of the table.
pub fn write_into(records: &Records, out: &mut [u8]) -> Result<usize, Refusal> {
    let rank = records.on.table.len();
    let start = RawSharding::of(&records.start, rank);
    let steps: Vec<u8> = records
        .steps
        .iter()
        .flat_map(|step| record_bytes(step, rank))
        .collect();
    raw::write(&records.on, start, &steps, out).into()
}

/// The records of a plan file, which `write` makes into the same bytes again.
pub fn read(file: &[u8]) -> Result<Records, Refusal> {
    let mut order = vec![Device::default(); MOST_DEVICES];
    let records = file.len().min(MOST_BYTES) / LEAST_STEP_BYTES;
    let mut steps = vec![0; records * RECORD_BYTES];
    let opened = read_into(file, &mut order, &mut steps)?;
    Ok(Records::opened(&opened, &order, &steps).expect("the records of an accepted file"))
}

/// Reads a plan file: the order of its devices, where it has one, and its step records, each in the
/// form of `StepRecord::to_bytes`, into lent lists. What stands behind them in the lists stays.
pub fn read_into(file: &[u8], order: &mut [Device], steps: &mut [u8]) -> Result<Opened, Refusal> {
    raw::read(file, order, steps).into()
}

/// The steps of a plan from one sharding to another; with the mesh, the table and the start they
/// are records for `write`.
///
/// Panics where a sharding has not one list for each dimension of the table.
pub fn plan(
    on: &MeshAndTable,
    start: &ShardingRecord,
    goal: &ShardingRecord,
) -> Result<Vec<StepRecord>, Refusal> {
    let rank = on.table.len();
    let goal = RawSharding::of(goal, rank);
    raw::plan(on, RawSharding::of(start, rank), goal).to_steps(rank)
}

/// The bytes of a record, which have no place for how many lists by dimension there are.
fn record_bytes(step: &StepRecord, rank: usize) -> [u8; RECORD_BYTES] {
    if let StepRecord::Slice(lists) | StepRecord::Gather(lists) = step {
        assert_eq!(lists.len(), rank, "give a list for each dimension");
    }
    step.to_bytes()
}

fn refused(code: u32) -> Result<(), Refusal> {
    if code == 0 {
        return Ok(());
    }
    Err(Refusal {
        number: (code % 256) as u8,
        step: (code / 256) as u16,
    })
}

fn code(refusal: Refusal) -> u32 {
    u32::from(refusal.number) + 256 * u32::from(refusal.step)
}

/// The lists of a sharding after those of dimensions 0 to 3.
const UNREDUCED: usize = MOST_RANK;
const REPLICATED: usize = MOST_RANK + 1;
const LISTS: usize = MOST_RANK + 2;

/// A sharding as it crosses the boundary: six lists in six places each.
#[derive(Clone, Copy, Debug, Default, PartialEq, Eq)]
#[repr(C)]
pub struct RawSharding {
    pub counts: [u8; LISTS],
    pub axes: [[u8; MOST_AXES]; LISTS],
}

/// The check's answer as it crosses the boundary.
#[derive(Clone, Copy, Debug, Default, PartialEq, Eq)]
#[repr(C)]
pub struct RawChecked {
    refusal: u32,
    room: u32,
    devices: u16,
    steps: u16,
    rank: u16,
    shard: [u16; MOST_RANK],
    sharding: RawSharding,
    moved: u64,
}

/// The run's answer as it crosses the boundary.
#[derive(Clone, Copy, Debug, Default, PartialEq, Eq)]
#[repr(C)]
pub struct RawRan {
    refusal: u32,
    moved: u64,
}

/// The placement's answer as it crosses the boundary.
#[derive(Clone, Copy, Debug, Default, PartialEq, Eq)]
#[repr(C)]
pub struct RawPlaced {
    refusal: u32,
    rank: u16,
    shard: [u16; MOST_RANK],
    first: [u16; MOST_RANK],
    sharding: RawSharding,
}

/// The answer of the placement of a list, as it crosses the boundary.
#[derive(Clone, Copy, Debug, Default, PartialEq, Eq)]
#[repr(C)]
pub struct RawPlacedAll {
    refusal: u32,
    place: usize,
}

/// A step record as it crosses the boundary: five lists in six places each.
#[derive(Clone, Copy, Debug, Default, PartialEq, Eq)]
#[repr(C)]
pub struct RawStep {
    kind: u8,
    source: u8,
    target: u8,
    counts: [u8; RECORD_LISTS],
    axes: [[u8; MOST_AXES]; RECORD_LISTS],
}

/// The writer's answer as it crosses the boundary.
#[derive(Clone, Copy, Debug, Default, PartialEq, Eq)]
#[repr(C)]
pub struct RawWritten {
    refusal: u32,
    bytes: usize,
}

/// The reading call's answer as it crosses the boundary.
#[derive(Clone, Copy, Debug, Default, PartialEq, Eq)]
#[repr(C)]
pub struct RawOpened {
    refusal: u32,
    n: u16,
    rank: u16,
    mesh: [u16; MOST_AXES],
    table: [u16; MOST_RANK],
    start: RawSharding,
    order: usize,
    steps_bytes: usize,
}

/// The most steps that the planner makes: a reduction, a gather and a slice.
const MOST_PLANNED: usize = 3;

/// The planner's answer as it crosses the boundary.
#[derive(Clone, Copy, Debug, Default, PartialEq, Eq)]
#[repr(C)]
pub struct RawPlanned {
    refusal: u32,
    count: u32,
    steps: [RawStep; MOST_PLANNED],
}

/// Where each field stands in include/ishkrela.h, and the size of the whole.
macro_rules! layout {
    ($raw:ty, $size:literal, $($field:ident $at:literal),+) => {
        const _: () = {
            assert!(size_of::<$raw>() == $size);
            $(assert!(offset_of!($raw, $field) == $at);)+
        };
    };
}

layout!(RawSharding, 42, counts 0, axes 6);
layout!(RawChecked, 72, refusal 0, room 4, devices 8, steps 10, rank 12, shard 14, sharding 22, moved 64);
layout!(RawRan, 16, refusal 0, moved 8);
layout!(RawPlaced, 64, refusal 0, rank 4, shard 6, first 14, sharding 22);
layout!(RawPlacedAll, 16, refusal 0, place 8);
layout!(RawStep, 38, kind 0, source 1, target 2, counts 3, axes 8);
layout!(RawWritten, 16, refusal 0, bytes 8);
layout!(RawOpened, 88, refusal 0, n 4, rank 6, mesh 8, table 20, start 28, order 72, steps_bytes 80);
layout!(RawPlanned, 124, refusal 0, count 4, steps 8);

impl RawSharding {
    /// A sharding that is given. A list with more axes than places keeps its count, up to 255.
    pub fn of(given: &ShardingRecord, rank: usize) -> RawSharding {
        assert_eq!(given.dims.len(), rank, "give a list for each dimension");
        let mut raw = RawSharding::default();
        for (dim, list) in given.dims.iter().take(MOST_RANK).enumerate() {
            raw.set(dim, list);
        }
        raw.set(UNREDUCED, &given.unreduced);
        raw.set(REPLICATED, &given.replicated);
        raw
    }

    fn list(&self, index: usize) -> AxisList {
        let axes = &self.axes[index][..usize::from(self.counts[index])];
        axes.iter().map(|&axis| Axis(axis)).collect()
    }

    fn to_sharding(self, rank: usize) -> Sharding {
        Sharding {
            dims: (0..rank).map(|dim| self.list(dim)).collect::<DimLists>(),
            unreduced: self.list(UNREDUCED),
            replicated: self.list(REPLICATED),
        }
    }

    fn set(&mut self, index: usize, list: &[Axis]) {
        self.counts[index] = list.len().min(255) as u8;
        for (place, axis) in self.axes[index].iter_mut().zip(list) {
            *place = axis.0;
        }
    }
}

impl From<Sharding> for RawSharding {
    fn from(sharding: Sharding) -> Self {
        let mut raw = RawSharding::default();
        for (dim, list) in sharding.dims.iter().enumerate() {
            raw.set(dim, list);
        }
        raw.set(UNREDUCED, &sharding.unreduced);
        raw.set(REPLICATED, &sharding.replicated);
        raw
    }
}

impl RawStep {
    fn from_bytes(bytes: [u8; RECORD_BYTES]) -> RawStep {
        let places = 3 + RECORD_LISTS;
        RawStep {
            kind: bytes[0],
            source: bytes[1],
            target: bytes[2],
            counts: std::array::from_fn(|list| bytes[3 + list]),
            axes: std::array::from_fn(|list| {
                std::array::from_fn(|at| bytes[places + MOST_AXES * list + at])
            }),
        }
    }

    fn to_bytes(self) -> Vec<u8> {
        let head = [self.kind, self.source, self.target];
        [&head[..], &self.counts, &self.axes.concat()].concat()
    }
}

impl RawPlanned {
    fn to_steps(self, rank: usize) -> Result<Vec<StepRecord>, Refusal> {
        refused(self.refusal)?;
        let made = &self.steps[..self.count as usize];
        let step = |raw: &RawStep| StepRecord::from_bytes(&raw.to_bytes(), rank);
        Ok(made
            .iter()
            .map(|raw| step(raw).expect("a step of the planner"))
            .collect())
    }
}

fn sizes(places: &[u16; MOST_RANK], rank: u16) -> Sizes {
    places[..usize::from(rank)].iter().copied().collect()
}

fn places(sizes: &Sizes) -> [u16; MOST_RANK] {
    std::array::from_fn(|dim| sizes.get(dim).copied().unwrap_or(0))
}

impl From<RawChecked> for Result<Checked, Refusal> {
    fn from(raw: RawChecked) -> Self {
        refused(raw.refusal)?;
        Ok(Checked {
            room: raw.room,
            devices: raw.devices,
            steps: raw.steps,
            sharding: raw.sharding.to_sharding(raw.rank.into()),
            shard: sizes(&raw.shard, raw.rank),
            moved: raw.moved,
        })
    }
}

impl From<RawRan> for Result<u64, Refusal> {
    fn from(raw: RawRan) -> Self {
        refused(raw.refusal)?;
        Ok(raw.moved)
    }
}

impl From<RawPlaced> for Result<Placed, Refusal> {
    fn from(raw: RawPlaced) -> Self {
        refused(raw.refusal)?;
        Ok(Placed {
            sharding: raw.sharding.to_sharding(raw.rank.into()),
            shard: sizes(&raw.shard, raw.rank),
            first: sizes(&raw.first, raw.rank),
        })
    }
}

impl From<RawPlacedAll> for Result<(), NotPlaced> {
    fn from(raw: RawPlacedAll) -> Self {
        refused(raw.refusal).map_err(|refusal| NotPlaced {
            refusal,
            place: (refusal.number == 32).then_some(raw.place),
        })
    }
}

impl From<RawWritten> for Result<usize, Refusal> {
    fn from(raw: RawWritten) -> Self {
        refused(raw.refusal)?;
        Ok(raw.bytes)
    }
}

impl From<RawOpened> for Result<Opened, Refusal> {
    fn from(raw: RawOpened) -> Self {
        refused(raw.refusal)?;
        Ok(Opened {
            mesh: raw.mesh[..usize::from(raw.n)].to_vec(),
            table: sizes(&raw.table, raw.rank),
            start: raw.start.to_sharding(raw.rank.into()),
            order: raw.order,
            steps: raw.steps_bytes,
        })
    }
}

// The other way: what the boundary has to give for an answer, down to the places not used. A
// refusal leaves every other field 0, but for the place beside 32.

impl From<Result<Checked, Refusal>> for RawChecked {
    fn from(answer: Result<Checked, Refusal>) -> Self {
        match answer {
            Ok(checked) => RawChecked {
                refusal: 0,
                room: checked.room,
                devices: checked.devices,
                steps: checked.steps,
                rank: checked.rank() as u16,
                shard: places(&checked.shard),
                sharding: checked.sharding.into(),
                moved: checked.moved,
            },
            Err(refusal) => RawChecked {
                refusal: code(refusal),
                ..RawChecked::default()
            },
        }
    }
}

impl From<Result<u64, Refusal>> for RawRan {
    fn from(answer: Result<u64, Refusal>) -> Self {
        RawRan {
            refusal: answer.map_or_else(code, |_| 0),
            moved: answer.unwrap_or(0),
        }
    }
}

impl From<Result<Placed, Refusal>> for RawPlaced {
    fn from(answer: Result<Placed, Refusal>) -> Self {
        match answer {
            Ok(placed) => RawPlaced {
                refusal: 0,
                rank: placed.shard.len() as u16,
                shard: places(&placed.shard),
                first: places(&placed.first),
                sharding: placed.sharding.into(),
            },
            Err(refusal) => RawPlaced {
                refusal: code(refusal),
                ..RawPlaced::default()
            },
        }
    }
}

impl From<Result<(), NotPlaced>> for RawPlacedAll {
    fn from(answer: Result<(), NotPlaced>) -> Self {
        let Err(NotPlaced { refusal, place }) = answer else {
            return RawPlacedAll::default();
        };
        RawPlacedAll {
            refusal: code(refusal),
            place: place.unwrap_or(0),
        }
    }
}

impl From<Result<usize, Refusal>> for RawWritten {
    fn from(answer: Result<usize, Refusal>) -> Self {
        let refusal = answer.map_or_else(code, |_| 0);
        let bytes = answer.unwrap_or(0);
        RawWritten { refusal, bytes }
    }
}

impl From<Result<Opened, Refusal>> for RawOpened {
    fn from(answer: Result<Opened, Refusal>) -> Self {
        match answer {
            Ok(opened) => RawOpened {
                refusal: 0,
                n: opened.mesh.len() as u16,
                rank: opened.table.len() as u16,
                mesh: std::array::from_fn(|axis| opened.mesh.get(axis).copied().unwrap_or(0)),
                table: places(&opened.table),
                start: opened.start.into(),
                order: opened.order,
                steps_bytes: opened.steps,
            },
            Err(refusal) => RawOpened {
                refusal: code(refusal),
                ..RawOpened::default()
            },
        }
    }
}

impl From<Result<Vec<StepRecord>, Refusal>> for RawPlanned {
    fn from(answer: Result<Vec<StepRecord>, Refusal>) -> Self {
        let mut raw = RawPlanned::default();
        match answer {
            Ok(steps) => {
                raw.count = steps.len() as u32;
                for (place, step) in raw.steps.iter_mut().zip(&steps) {
                    *place = RawStep::from_bytes(step.to_bytes());
                }
            }
            Err(refusal) => raw.refusal = code(refusal),
        }
        raw
    }
}

/// The calls with their answers as they cross the boundary.
pub mod raw {
    use super::{
        RawChecked, RawOpened, RawPlaced, RawPlacedAll, RawPlanned, RawRan, RawSharding, RawWritten,
    };
    use crate::answers::{Axis, Device};
    use crate::records::MeshAndTable;

    mod c {
        use super::{
            RawChecked, RawOpened, RawPlaced, RawPlacedAll, RawPlanned, RawRan, RawSharding, RawWritten,
        };

        // The names and types are those of include/ishkrela.h.
        extern "C" {
            pub fn ishkrela_check(file: *const u8, file_len: usize) -> RawChecked;

            pub fn ishkrela_place(
                file: *const u8,
                file_len: usize,
                state: u16,
                device: u16,
            ) -> RawPlaced;

            pub fn ishkrela_place_all(
                file: *const u8,
                file_len: usize,
                state: u16,
                devices: *const u16,
                devices_len: usize,
                first: *mut u16,
                first_len: usize,
            ) -> RawPlacedAll;

            pub fn ishkrela_groups(
                mesh: *const u16,
                mesh_len: usize,
                axes: *const u8,
                axes_len: usize,
                out: *mut u16,
                out_len: usize,
            ) -> u32;

            pub fn ishkrela_groups_ordered(
                mesh: *const u16,
                mesh_len: usize,
                order: *const u16,
                order_len: usize,
                axes: *const u8,
                axes_len: usize,
                out: *mut u16,
                out_len: usize,
            ) -> u32;

            pub fn ishkrela_run(
                file: *const u8,
                file_len: usize,
                work: *mut u32,
                work_len: usize,
                spare: *mut u32,
                spare_len: usize,
            ) -> RawRan;

            pub fn ishkrela_write(
                mesh: *const u16,
                mesh_len: usize,
                order: *const u16,
                order_len: usize,
                table: *const u16,
                table_len: usize,
                start: RawSharding,
                steps: *const u8,
                steps_bytes: usize,
                file: *mut u8,
                file_len: usize,
            ) -> RawWritten;

            pub fn ishkrela_read(
                file: *const u8,
                file_len: usize,
                order: *mut u16,
                order_len: usize,
                steps: *mut u8,
                steps_bytes: usize,
            ) -> RawOpened;

            pub fn ishkrela_plan(
                mesh: *const u16,
                mesh_len: usize,
                order: *const u16,
                order_len: usize,
                table: *const u16,
                table_len: usize,
                start: RawSharding,
                goal: RawSharding,
            ) -> RawPlanned;
        }
    }

    pub fn check(file: &[u8]) -> RawChecked {
        // Safe: the pointer and length are those of a borrowed slice, which is only read.
        unsafe { c::ishkrela_check(file.as_ptr(), file.len()) }
    }

    pub fn place(file: &[u8], state: u16, device: Device) -> RawPlaced {
        // Safe: as above.
        unsafe { c::ishkrela_place(file.as_ptr(), file.len(), state, device.0) }
    }

    pub fn place_all(
        file: &[u8],
        state: u16,
        devices: &[Device],
        first: &mut [u16],
    ) -> RawPlacedAll {
        // Safe: as above; `first` is borrowed alone. Device, and Axis below, have the layout of the
        // number inside them.
        unsafe {
            c::ishkrela_place_all(
                file.as_ptr(),
                file.len(),
                state,
                devices.as_ptr().cast(),
                devices.len(),
                first.as_mut_ptr(),
                first.len(),
            )
        }
    }

    pub fn groups(mesh: &[u16], axes: &[Axis], out: &mut [Device]) -> u32 {
        // Safe: as above; `out` is borrowed alone.
        unsafe {
            c::ishkrela_groups(
                mesh.as_ptr(),
                mesh.len(),
                axes.as_ptr().cast(),
                axes.len(),
                out.as_mut_ptr().cast(),
                out.len(),
            )
        }
    }

    pub fn groups_ordered(
        mesh: &[u16],
        order: &[Device],
        axes: &[Axis],
        out: &mut [Device],
    ) -> u32 {
        // Safe: as above.
        unsafe {
            c::ishkrela_groups_ordered(
                mesh.as_ptr(),
                mesh.len(),
                order.as_ptr().cast(),
                order.len(),
                axes.as_ptr().cast(),
                axes.len(),
                out.as_mut_ptr().cast(),
                out.len(),
            )
        }
    }

    pub fn run(file: &[u8], work: &mut [u32], spare: &mut [u32]) -> RawRan {
        // Safe: as above; `work` and `spare` are each borrowed alone, so they do not overlap.
        unsafe {
            c::ishkrela_run(
                file.as_ptr(),
                file.len(),
                work.as_mut_ptr(),
                work.len(),
                spare.as_mut_ptr(),
                spare.len(),
            )
        }
    }

    pub fn write(
        on: &MeshAndTable,
        start: RawSharding,
        steps: &[u8],
        out: &mut [u8],
    ) -> RawWritten {
        // Safe: as above; `out` is borrowed alone.
        unsafe {
            c::ishkrela_write(
                on.mesh.as_ptr(),
                on.mesh.len(),
                on.order.as_ptr().cast(),
                on.order.len(),
                on.table.as_ptr(),
                on.table.len(),
                start,
                steps.as_ptr(),
                steps.len(),
                out.as_mut_ptr(),
                out.len(),
            )
        }
    }

    pub fn read(file: &[u8], order: &mut [Device], steps: &mut [u8]) -> RawOpened {
        // Safe: as above; `order` and `steps` are each borrowed alone.
        unsafe {
            c::ishkrela_read(
                file.as_ptr(),
                file.len(),
                order.as_mut_ptr().cast(),
                order.len(),
                steps.as_mut_ptr(),
                steps.len(),
            )
        }
    }

    pub fn plan(on: &MeshAndTable, start: RawSharding, goal: RawSharding) -> RawPlanned {
        // Safe: as above.
        unsafe {
            c::ishkrela_plan(
                on.mesh.as_ptr(),
                on.mesh.len(),
                on.order.as_ptr().cast(),
                on.order.len(),
                on.table.as_ptr(),
                on.table.len(),
                start,
                goal,
            )
        }
    }
}
