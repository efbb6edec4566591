//! The rules a second time, and what is needed to hold the verified library to them.
//!
//! `reference` is written from documents 01 and 02 alone. `plans`, `spoilt` and `spreads` make what
//! both are tried on. `library` calls the archive, when it is there.

pub mod answers;
pub mod blocks;
pub mod hex;
pub mod json;
#[cfg(library)]
pub mod library;
pub mod plans;
pub mod random;
pub mod records;
pub mod reference;
pub mod short;
pub mod spoilt;
pub mod spreads;
pub mod tuned;

use answers::{Axis, Checked, Device, NotPlaced, Placed, Refusal, Sizes};
use records::{MeshAndTable, Opened, Records, ShardingRecord, StepRecord};

/// The four calls of document 01, and of document 02 the placement of a list of devices, the listing
/// by an order, the writer, the way back and the planner.
pub trait Implementation {
    fn name(&self) -> &'static str;

    fn check(&self, file: &[u8]) -> Result<Checked, Refusal>;

    fn place(&self, file: &[u8], state: u16, device: Device) -> Result<Placed, Refusal>;

    /// Writes the first indexes of each device of a list.
    fn place_all(
        &self,
        file: &[u8],
        state: u16,
        devices: &[Device],
        first: &mut [u16],
    ) -> Result<(), NotPlaced>;

    fn groups(&self, mesh: &[u16], axes: &[Axis], out: &mut [Device]) -> Result<(), Refusal>;

    fn groups_ordered(
        &self,
        mesh: &[u16],
        order: &[Device],
        axes: &[Axis],
        out: &mut [Device],
    ) -> Result<(), Refusal>;

    /// Answers the words moved between devices.
    fn run(&self, file: &[u8], work: &mut [u32], spare: &mut [u32]) -> Result<u64, Refusal>;

    /// Judges a file, to be timed: the words moved are not asked for.
    fn accepts(&self, file: &[u8]) -> bool {
        self.check(file).is_ok()
    }

    /// Runs a plan, to be timed: the words moved are not asked for.
    fn only_run(&self, file: &[u8], work: &mut [u32], spare: &mut [u32]) -> Result<(), Refusal> {
        self.run(file, work, spare).map(|_| ())
    }

    /// Writes the file of a plan, and answers its length.
    fn write(&self, records: &Records, out: &mut [u8]) -> Result<usize, Refusal>;

    /// Reads the file of a plan: the order and the step records, as bytes, into lent lists.
    fn read(&self, file: &[u8], order: &mut [Device], steps: &mut [u8]) -> Result<Opened, Refusal>;

    /// Makes the plan from one sharding to another.
    fn plan(
        &self,
        on: &MeshAndTable,
        start: &ShardingRecord,
        goal: &ShardingRecord,
    ) -> Result<Vec<StepRecord>, Refusal>;

    /// The shard sizes of every state, the start first.
    fn shards(&self, file: &[u8]) -> Result<Vec<Sizes>, Refusal> {
        let steps = self.check(file)?.steps;
        (0..=steps)
            .map(|state| Ok(self.place(file, state, Device(0))?.shard))
            .collect()
    }
}

pub struct Reference;

impl Implementation for Reference {
    fn name(&self) -> &'static str {
        "reference"
    }

    fn check(&self, file: &[u8]) -> Result<Checked, Refusal> {
        Ok(reference::check(file)?.checked)
    }

    fn place(&self, file: &[u8], state: u16, device: Device) -> Result<Placed, Refusal> {
        reference::place(file, state, device)
    }

    fn place_all(
        &self,
        file: &[u8],
        state: u16,
        devices: &[Device],
        first: &mut [u16],
    ) -> Result<(), NotPlaced> {
        reference::place_all(file, state, devices, first)
    }

    fn groups(&self, mesh: &[u16], axes: &[Axis], out: &mut [Device]) -> Result<(), Refusal> {
        reference::groups(mesh, axes, out)
    }

    fn groups_ordered(
        &self,
        mesh: &[u16],
        order: &[Device],
        axes: &[Axis],
        out: &mut [Device],
    ) -> Result<(), Refusal> {
        reference::groups_ordered(mesh, order, axes, out)
    }

    fn run(&self, file: &[u8], work: &mut [u32], spare: &mut [u32]) -> Result<u64, Refusal> {
        reference::run(file, work, spare)
    }

    // The reference counts the words moved one by one, which is not to be compared.
    fn accepts(&self, file: &[u8]) -> bool {
        reference::accepts(file)
    }

    fn only_run(&self, file: &[u8], work: &mut [u32], spare: &mut [u32]) -> Result<(), Refusal> {
        reference::only_run(file, work, spare)
    }

    fn write(&self, records: &Records, out: &mut [u8]) -> Result<usize, Refusal> {
        reference::records::write(records, out)
    }

    fn read(&self, file: &[u8], order: &mut [Device], steps: &mut [u8]) -> Result<Opened, Refusal> {
        reference::records::read(file, order, steps)
    }

    fn plan(
        &self,
        on: &MeshAndTable,
        start: &ShardingRecord,
        goal: &ShardingRecord,
    ) -> Result<Vec<StepRecord>, Refusal> {
        reference::records::plan(on, start, goal)
    }

    fn shards(&self, file: &[u8]) -> Result<Vec<Sizes>, Refusal> {
        Ok(reference::check(file)?.shards)
    }
}

#[cfg(library)]
pub struct Library;

#[cfg(library)]
impl Implementation for Library {
    fn name(&self) -> &'static str {
        "library"
    }

    fn check(&self, file: &[u8]) -> Result<Checked, Refusal> {
        library::check(file)
    }

    fn place(&self, file: &[u8], state: u16, device: Device) -> Result<Placed, Refusal> {
        library::place(file, state, device)
    }

    fn place_all(
        &self,
        file: &[u8],
        state: u16,
        devices: &[Device],
        first: &mut [u16],
    ) -> Result<(), NotPlaced> {
        library::place_all(file, state, devices, first)
    }

    fn groups(&self, mesh: &[u16], axes: &[Axis], out: &mut [Device]) -> Result<(), Refusal> {
        library::groups(mesh, axes, out)
    }

    fn groups_ordered(
        &self,
        mesh: &[u16],
        order: &[Device],
        axes: &[Axis],
        out: &mut [Device],
    ) -> Result<(), Refusal> {
        library::groups_ordered(mesh, order, axes, out)
    }

    fn run(&self, file: &[u8], work: &mut [u32], spare: &mut [u32]) -> Result<u64, Refusal> {
        library::run(file, work, spare)
    }

    fn write(&self, records: &Records, out: &mut [u8]) -> Result<usize, Refusal> {
        library::write_into(records, out)
    }

    fn read(&self, file: &[u8], order: &mut [Device], steps: &mut [u8]) -> Result<Opened, Refusal> {
        library::read_into(file, order, steps)
    }

    fn plan(
        &self,
        on: &MeshAndTable,
        start: &ShardingRecord,
        goal: &ShardingRecord,
    ) -> Result<Vec<StepRecord>, Refusal> {
        library::plan(on, start, goal)
    }
}

/// The verified library, when the archive is linked.
pub fn library() -> Option<&'static dyn Implementation> {
    #[cfg(library)]
    return Some(&Library);
    #[cfg(not(library))]
    None
}

/// The reference, and the library when it is linked.
pub fn implementations() -> Vec<&'static dyn Implementation> {
    let reference: &'static dyn Implementation = &Reference;
    std::iter::once(reference).chain(library()).collect()
}
