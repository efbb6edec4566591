//! What the calls take and answer, and the limits of documents 01 and 02.

use crate::short::Short;
use std::fmt;

pub const MOST_AXES: usize = 6;
pub const MOST_DEVICES: usize = 1024;
pub const MOST_RANK: usize = 4;
pub const MOST_WORDS: usize = 65536;
/// The most outermost steps.
pub const MOST_STEPS: usize = 64;
/// The most plain steps that a plan runs.
pub const MOST_RUN: usize = 4096;
/// The most depth of repeats; an outermost one has depth 1.
pub const MOST_DEPTH: usize = 4;
pub const LEAST_BYTES: usize = 18;
pub const MOST_BYTES: usize = 8192;
/// No plan needs more words than this.
pub const MOST_ROOM: usize = MOST_DEVICES * MOST_WORDS;

/// The number of a mesh axis.
#[derive(Clone, Copy, Default, PartialEq, Eq, PartialOrd, Ord)]
#[repr(transparent)]
pub struct Axis(pub u8);

/// The number of a tensor dimension.
#[derive(Clone, Copy, Default, PartialEq, Eq, PartialOrd, Ord)]
#[repr(transparent)]
pub struct Dim(pub u8);

/// The number of a device: row-major in its coordinates, or the one that an order lists there.
#[derive(Clone, Copy, Default, PartialEq, Eq, PartialOrd, Ord)]
#[repr(transparent)]
pub struct Device(pub u16);

/// Axes from outer to inner.
pub type AxisList = Short<Axis, MOST_AXES>;
/// One axis list for each dimension.
pub type DimLists = Short<AxisList, MOST_RANK>;
/// One number for each dimension.
pub type Sizes = Short<u16, MOST_RANK>;

#[derive(Clone, Copy, Debug, Default, PartialEq, Eq)]
pub struct Sharding {
    pub dims: DimLists,
    pub unreduced: AxisList,
    /// The axes that are to stay replicated; one that no list names is replicated too.
    pub replicated: AxisList,
}

/// Why a call did nothing: the number of document 01 or 02, and the step, or 0. Steps are counted
/// from 1, by kind bytes in file order.
#[derive(Clone, Copy, PartialEq, Eq)]
pub struct Refusal {
    pub number: u8,
    pub step: u16,
}

/// Why no device of a list was placed: the refusal, and with 32 the place in the list, from 0, of the
/// first device that is not there.
#[derive(Clone, Copy, Debug, PartialEq, Eq)]
pub struct NotPlaced {
    pub refusal: Refusal,
    pub place: Option<usize>,
}

#[derive(Clone, Copy, Debug, PartialEq, Eq)]
pub struct Checked {
    pub room: u32,
    pub devices: u16,
    /// The number of outermost steps.
    pub steps: u16,
    /// The sharding after the last step.
    pub sharding: Sharding,
    /// The shard sizes after the last step.
    pub shard: Sizes,
    /// The words that a run moves between devices.
    pub moved: u64,
}

#[derive(Clone, Copy, Debug, PartialEq, Eq)]
pub struct Placed {
    pub sharding: Sharding,
    pub shard: Sizes,
    /// The device's first index along each dimension.
    pub first: Sizes,
}

impl Axis {
    pub fn index(self) -> usize {
        self.0.into()
    }
}

impl Dim {
    pub fn index(self) -> usize {
        self.0.into()
    }
}

impl Device {
    pub fn index(self) -> usize {
        self.0.into()
    }
}

impl Refusal {
    /// A refusal that belongs to no step.
    pub fn whole(number: u8) -> Self {
        Refusal { number, step: 0 }
    }
}

impl From<Refusal> for NotPlaced {
    /// A refusal that is of no device of the list.
    fn from(refusal: Refusal) -> Self {
        let place = None;
        NotPlaced { refusal, place }
    }
}

impl Checked {
    pub fn rank(&self) -> usize {
        self.shard.len()
    }
}

impl fmt::Debug for Axis {
    fn fmt(&self, f: &mut fmt::Formatter) -> fmt::Result {
        write!(f, "{}", self.0)
    }
}

impl fmt::Debug for Dim {
    fn fmt(&self, f: &mut fmt::Formatter) -> fmt::Result {
        write!(f, "{}", self.0)
    }
}

impl fmt::Debug for Device {
    fn fmt(&self, f: &mut fmt::Formatter) -> fmt::Result {
        write!(f, "{}", self.0)
    }
}

impl fmt::Display for Refusal {
    fn fmt(&self, f: &mut fmt::Formatter) -> fmt::Result {
        write!(f, "no {} {}", self.number, self.step)
    }
}

impl fmt::Debug for Refusal {
    fn fmt(&self, f: &mut fmt::Formatter) -> fmt::Result {
        fmt::Display::fmt(self, f)
    }
}
