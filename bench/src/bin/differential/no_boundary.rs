//! The same where there is no library: nothing differs.

use bench::answers::{Checked, Device, NotPlaced, Placed, Refusal};
use bench::random::Random;
use bench::records::{MeshAndTable, Opened, Records, ShardingRecord, StepRecord};

pub struct Boundary;

impl Boundary {
    pub fn check(self, _: &[u8], _: Result<Checked, Refusal>) -> Option<String> {
        None
    }

    pub fn run(
        self,
        _: &[u8],
        _: &[u32],
        _: &[u32],
        _: Result<u64, Refusal>,
    ) -> Option<String> {
        None
    }

    pub fn place(self, _: &[u8], _: u16, _: Device, _: Result<Placed, Refusal>) -> Option<String> {
        None
    }

    pub fn place_all(
        self,
        _: (&[u8], u16, &[Device]),
        _: &[u16],
        _: (Result<(), NotPlaced>, &[u16]),
    ) -> Option<String> {
        None
    }

    pub fn write(
        self,
        _: &mut Random,
        _: &Records,
        _: &[u8],
        _: (Result<usize, Refusal>, &[u8]),
    ) -> Option<String> {
        None
    }

    pub fn read(
        self,
        _: &[u8],
        _: &[Device],
        _: &[u8],
        _: Result<Opened, Refusal>,
    ) -> Option<String> {
        None
    }

    pub fn plan(
        self,
        _: &mut Random,
        _: &MeshAndTable,
        _: &ShardingRecord,
        _: &ShardingRecord,
        _: Result<Vec<StepRecord>, Refusal>,
    ) -> Option<String> {
        None
    }
}
