//! The steps that only move words, each in plain Rust as fast as we can write it without a proof:
//! what the benchmark holds the library's kernels to.
//!
//! A step goes along axis 0 of a mesh of two axes. One shard splits the other: the whole of a group
//! has `outer` rows of `group` runs, and each member has one run of each row. Which dimension the
//! axis is on, and how many there are, shows only in these numbers.

/// The devices and the words of a step.
#[derive(Clone, Copy, Debug)]
pub struct Shape {
    /// The devices of a group, and how many groups there are: a mesh of the two sizes.
    pub group: usize,
    pub groups: usize,
    /// The rows of a shard, and the words of a run.
    pub outer: usize,
    pub run: usize,
}

impl Shape {
    pub fn devices(self) -> usize {
        self.group * self.groups
    }

    /// The words of a member's part.
    pub fn part(self) -> usize {
        self.outer * self.run
    }

    /// The words of a group's whole.
    pub fn whole(self) -> usize {
        self.part() * self.group
    }
}

/// Calls a function with the run as a constant, where it is short: the compiler then moves a run
/// with a few instructions.
macro_rules! with_run {
    ($run:expr, $short:ident, $long:ident, $args:tt) => {
        match $run {
            1 => $short::<1> $args,
            2 => $short::<2> $args,
            3 => $short::<3> $args,
            4 => $short::<4> $args,
            6 => $short::<6> $args,
            8 => $short::<8> $args,
            16 => $short::<16> $args,
            _ => $long $args,
        }
    };
}

/// All-slice: each member takes its run of each row.
pub fn slice(shape: Shape, old: &[u32], new: &mut [u32]) {
    let shards = old.chunks_exact(shape.whole());
    for (device, (old, new)) in shards.zip(new.chunks_exact_mut(shape.part())).enumerate() {
        let first = device / shape.groups * shape.run;
        let row = shape.group * shape.run;
        with_run!(
            shape.run,
            take_short,
            take_long,
            (&old[first..], new, row, shape.run)
        );
    }
}

/// The first words of each row.
fn take_short<const R: usize>(old: &[u32], new: &mut [u32], row: usize, _: usize) {
    for (new, old) in new.chunks_exact_mut(R).zip(old.chunks(row)) {
        new.copy_from_slice(&old[..R]);
    }
}

fn take_long(old: &[u32], new: &mut [u32], row: usize, run: usize) {
    for (new, old) in new.chunks_exact_mut(run).zip(old.chunks(row)) {
        new.copy_from_slice(&old[..run]);
    }
}

/// All-gather, member by member: the whole of a group is put together at its first member, and the
/// others repeat it.
pub fn gather_by_member(shape: Shape, old: &[u32], new: &mut [u32]) {
    gather(shape, old, new, |parts, whole| {
        let row = shape.group * shape.run;
        for (member, part) in parts.iter().enumerate() {
            let to = &mut whole[member * shape.run..];
            with_run!(shape.run, put_short, put_long, (part, to, row, shape.run));
        }
    });
}

fn put_short<const R: usize>(part: &[u32], to: &mut [u32], row: usize, _: usize) {
    for (to, run) in to.chunks_mut(row).zip(part.chunks_exact(R)) {
        to[..R].copy_from_slice(run);
    }
}

fn put_long(part: &[u32], to: &mut [u32], row: usize, run: usize) {
    for (to, run_of_part) in to.chunks_mut(row).zip(part.chunks_exact(run)) {
        to[..run].copy_from_slice(run_of_part);
    }
}

/// The same, row by row, with the members of a small group as a constant.
pub fn gather_by_row(shape: Shape, old: &[u32], new: &mut [u32]) {
    gather(shape, old, new, |parts, whole| {
        with_run!(shape.run, rows_short, rows_long, (parts, whole, shape.run));
    });
}

fn rows_short<const R: usize>(parts: &[&[u32]], whole: &mut [u32], run: usize) {
    match parts.len() {
        2 => rows_of::<2, R>(parts, whole),
        3 => rows_of::<3, R>(parts, whole),
        4 => rows_of::<4, R>(parts, whole),
        6 => rows_of::<6, R>(parts, whole),
        _ => rows_long(parts, whole, run),
    }
}

fn rows_of<const G: usize, const R: usize>(parts: &[&[u32]], whole: &mut [u32]) {
    let mut parts: [_; G] = std::array::from_fn(|member| parts[member].chunks_exact(R));
    for row in whole.chunks_exact_mut(G * R) {
        for (to, part) in row.chunks_exact_mut(R).zip(&mut parts) {
            to.copy_from_slice(part.next().expect("as many runs as rows"));
        }
    }
}

fn rows_long(parts: &[&[u32]], whole: &mut [u32], run: usize) {
    for (at, row) in whole.chunks_exact_mut(parts.len() * run).enumerate() {
        for (to, part) in row.chunks_exact_mut(run).zip(parts) {
            to.copy_from_slice(&part[at * run..][..run]);
        }
    }
}

fn gather(shape: Shape, old: &[u32], new: &mut [u32], put: impl Fn(&[&[u32]], &mut [u32])) {
    let (part, whole) = (shape.part(), shape.whole());
    for first in 0..shape.groups {
        let members = (0..shape.group).map(|member| member * shape.groups + first);
        let parts: Vec<&[u32]> = members.map(|at| &old[at * part..][..part]).collect();
        put(&parts, &mut new[first * whole..][..whole]);
    }
    let (firsts, others) = new.split_at_mut(shape.groups * whole);
    for again in others.chunks_exact_mut(shape.groups * whole) {
        again.copy_from_slice(firsts);
    }
}

/// All-to-all from the first dimension to the second: a member has `outer / group` of the rows and
/// gets its run of every row.
pub fn all_to_all(shape: Shape, old: &[u32], new: &mut [u32]) {
    let (part, row) = (shape.part(), shape.group * shape.run);
    let piece = part / shape.group;
    for (device, new) in new.chunks_exact_mut(part).enumerate() {
        let (member, first) = (device / shape.groups, device % shape.groups);
        for (from, new) in new.chunks_exact_mut(piece).enumerate() {
            let old = &old[(from * shape.groups + first) * part..][..part];
            let old = &old[member * shape.run..];
            with_run!(shape.run, take_short, take_long, (old, new, row, shape.run));
        }
    }
}

/// All-to-all from the second dimension to the first: the way back.
pub fn all_to_all_back(shape: Shape, old: &[u32], new: &mut [u32]) {
    let (part, row) = (shape.part(), shape.group * shape.run);
    let piece = part / shape.group;
    for (device, new) in new.chunks_exact_mut(part).enumerate() {
        let (member, first) = (device / shape.groups, device % shape.groups);
        for from in 0..shape.group {
            let old = &old[(from * shape.groups + first) * part..][..part];
            let old = &old[member * piece..][..piece];
            let to = &mut new[from * shape.run..];
            with_run!(shape.run, put_short, put_long, (old, to, row, shape.run));
        }
    }
}
