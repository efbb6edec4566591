//! Faithful spreads of a table: how one is made, and how a buffer is tried for being one.
//!
//! This is written from the definition, device by device and coordinate by coordinate, and
//! shares nothing with the reference.

use crate::answers::{Axis, Device, Sharding};
use crate::random::Random;
use std::ops::Range;

/// A sharding of a table over a mesh. A place is the row-major number of coordinates.
pub struct Layout<'a> {
    pub mesh: &'a [u16],
    /// The device at each place; empty where that is its number.
    pub order: &'a [Device],
    pub table: &'a [u16],
    pub sharding: &'a Sharding,
}

impl Layout<'_> {
    pub fn devices(&self) -> usize {
        product(self.mesh)
    }

    /// The words of one shard.
    pub fn words(&self) -> usize {
        (0..self.table.len())
            .map(|dim| self.shard_size(dim))
            .product()
    }

    /// A faithful spread of a table, otherwise random.
    pub fn spread(&self, table: &[u32], random: &mut Random) -> Vec<u32> {
        let mut buffer = vec![0; self.devices() * self.words()];
        let parts = self.parts();
        for place in 0..self.devices() {
            if self.lowest_part(place) != place {
                continue;
            }
            let mut left = self.block(table, place);
            for part in &parts[1..] {
                let shard = &mut buffer[self.shard_at(place + part)];
                for (word, left) in shard.iter_mut().zip(&mut left) {
                    *word = random.word();
                    *left = left.wrapping_sub(*word);
                }
            }
            buffer[self.shard_at(place)].copy_from_slice(&left);
        }
        self.make_replicas_equal(&mut buffer);
        buffer
    }

    fn make_replicas_equal(&self, buffer: &mut [u32]) {
        for place in 0..self.devices() {
            let first = self.without(place, |axis| self.is_replicated(axis));
            buffer.copy_within(self.shard_at(first), self.shard_at(place).start);
        }
    }

    /// Tries a buffer by the two conditions of a faithful spread; an error says where it fails.
    pub fn try_spread(&self, table: &[u32], buffer: &[u32]) -> Result<(), String> {
        if buffer.len() < self.devices() * self.words() {
            return Err("the buffer is shorter than the state".into());
        }
        let parts = self.parts();
        for place in 0..self.devices() {
            let replica = self.without(place, |axis| self.is_replicated(axis));
            if buffer[self.shard_at(place)] != buffer[self.shard_at(replica)] {
                let (one, other) = (self.device(replica), self.device(place));
                return Err(format!("replicas {one:?} and {other:?} differ"));
            }
            // The sum and the block are the same for all devices that are added up here, so one
            // of them stands for all.
            if self.lowest_part(place) == place {
                self.try_sum(table, buffer, place, &parts)?;
            }
        }
        Ok(())
    }

    fn try_sum(
        &self,
        table: &[u32],
        buffer: &[u32],
        place: usize,
        parts: &[usize],
    ) -> Result<(), String> {
        let mut sum = vec![0u32; self.words()];
        for part in parts {
            for (sum, word) in sum.iter_mut().zip(&buffer[self.shard_at(place + part)]) {
                *sum = sum.wrapping_add(*word);
            }
        }
        if sum == self.block(table, place) {
            return Ok(());
        }
        let device = self.device(place);
        Err(format!("the block of device {device:?} is not the table's"))
    }

    fn device(&self, place: usize) -> Device {
        let plain = Device(place as u16);
        self.order.get(place).copied().unwrap_or(plain)
    }

    fn place(&self, device: Device) -> usize {
        let all = 0..self.devices();
        let mut found = all.filter(|&place| self.device(place) == device);
        found.next().expect("a device of the mesh")
    }

    /// Where the words of the device at a place lie: shards lie by device number.
    fn shard_at(&self, place: usize) -> Range<usize> {
        let first = self.device(place).index() * self.words();
        first..first + self.words()
    }

    /// The lowest of the places that agree with this one outside the unreduced axes.
    fn lowest_part(&self, place: usize) -> usize {
        self.without(place, |axis| self.is_unreduced(axis))
    }

    /// How far the places that agree outside the unreduced axes are from the lowest of them.
    fn parts(&self) -> Vec<usize> {
        let all = 0..self.devices();
        all.filter(|&place| self.lowest_part(place) == 0).collect()
    }

    /// The table's block of the device at a place.
    fn block(&self, table: &[u32], place: usize) -> Vec<u32> {
        let mut indexes = vec![0];
        for (dim, &size) in self.table.iter().enumerate() {
            let first = self.first_index_at(place, dim);
            let along = first..first + self.shard_size(dim);
            let outer = indexes.iter();
            indexes = outer
                .flat_map(|outer| along.clone().map(move |i| outer * usize::from(size) + i))
                .collect();
        }
        indexes.into_iter().map(|index| table[index]).collect()
    }

    /// The device's first index along a dimension.
    pub fn first_index(&self, device: Device, dim: usize) -> usize {
        self.first_index_at(self.place(device), dim)
    }

    fn first_index_at(&self, place: usize, dim: usize) -> usize {
        let coordinates = self.coordinates(place);
        let mut block = 0;
        for axis in &self.sharding.dims[dim] {
            block = block * usize::from(self.mesh[axis.index()]) + coordinates[axis.index()];
        }
        block * self.shard_size(dim)
    }

    fn shard_size(&self, dim: usize) -> usize {
        let list = &self.sharding.dims[dim];
        let pieces: usize = list
            .iter()
            .map(|axis| usize::from(self.mesh[axis.index()]))
            .product();
        usize::from(self.table[dim]) / pieces
    }

    fn coordinates(&self, place: usize) -> Vec<usize> {
        let mut left = place;
        let mut coordinates = vec![0; self.mesh.len()];
        for (coordinate, &size) in coordinates.iter_mut().zip(self.mesh).rev() {
            *coordinate = left % usize::from(size);
            left /= usize::from(size);
        }
        coordinates
    }

    fn place_at(&self, coordinates: &[usize]) -> usize {
        let pairs = coordinates.iter().zip(self.mesh);
        pairs.fold(0, |place, (coordinate, &size)| {
            place * usize::from(size) + coordinate
        })
    }

    /// The place with the chosen coordinates set to 0.
    fn without(&self, place: usize, chosen: impl Fn(Axis) -> bool) -> usize {
        let mut coordinates = self.coordinates(place);
        for (axis, coordinate) in coordinates.iter_mut().enumerate() {
            if chosen(Axis(axis as u8)) {
                *coordinate = 0;
            }
        }
        self.place_at(&coordinates)
    }

    fn is_unreduced(&self, axis: Axis) -> bool {
        self.sharding.unreduced.contains(&axis)
    }

    /// Explicitly or not: an axis that is to stay replicated counts as one that no list names.
    fn is_replicated(&self, axis: Axis) -> bool {
        let sharded = self.sharding.dims.iter().any(|list| list.contains(&axis));
        !sharded && !self.is_unreduced(axis)
    }
}

/// The product of sizes.
pub fn product(sizes: &[u16]) -> usize {
    sizes.iter().map(|&size| usize::from(size)).product()
}
