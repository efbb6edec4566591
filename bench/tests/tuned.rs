//! The tuned kernels of the benchmark do what a plan of the same step does.

use bench::answers::Dim;
use bench::plans::{axes, Draft, Lists, Step};
use bench::random::Random;
use bench::tuned::{self, Shape};
use bench::{Implementation, Reference};

const SHAPES: [(usize, usize, usize, usize); 8] = [
    (2, 3, 4, 1),
    (2, 2, 4, 2),
    (3, 2, 6, 3),
    (4, 1, 4, 4),
    (6, 2, 6, 6),
    (5, 2, 5, 7),
    (2, 2, 2, 16),
    (16, 1, 16, 8),
];

type Kernel = fn(Shape, &[u32], &mut [u32]);

fn on(dim: usize) -> Lists {
    let mut lists = vec![Vec::new(); 2];
    lists[dim] = axes(&[0]);
    lists
}

/// The shards of a plan's last state.
fn run(shape: Shape, start: Lists, step: Step, old: &[u32], last: usize) -> Vec<u32> {
    let draft = Draft {
        mesh: vec![shape.group as u16, shape.groups as u16],
        table: vec![shape.outer as u16, (shape.group * shape.run) as u16],
        start,
        steps: vec![step],
        ..Draft::default()
    };
    let room = old.len().max(last);
    let mut work = old.to_vec();
    work.resize(room, 0);
    let answer = Reference.run(&draft.encode(), &mut work, &mut vec![0; room]);
    answer.expect("a plan with room");
    work.truncate(last);
    work
}

fn try_kernels(
    before: impl Fn(Shape) -> usize,
    after: impl Fn(Shape) -> usize,
    start: Lists,
    step: Step,
    kernels: &[Kernel],
) {
    for (group, groups, outer, run_words) in SHAPES {
        let shape = Shape {
            group,
            groups,
            outer,
            run: run_words,
        };
        let old = Random::new(1).words(shape.devices() * before(shape));
        let last = shape.devices() * after(shape);
        let asked = run(shape, start.clone(), step.clone(), &old, last);
        for kernel in kernels {
            let mut new = vec![0; last];
            kernel(shape, &old, &mut new);
            assert_eq!(new, asked, "{shape:?}");
        }
    }
}

#[test]
fn slices() {
    try_kernels(
        Shape::whole,
        Shape::part,
        vec![Vec::new(); 2],
        Step::Slice(on(1)),
        &[tuned::slice],
    );
}

#[test]
fn gathers() {
    let kernels: [Kernel; 2] = [tuned::gather_by_member, tuned::gather_by_row];
    try_kernels(
        Shape::part,
        Shape::whole,
        on(1),
        Step::Gather(on(1)),
        &kernels,
    );
}

#[test]
fn all_to_alls() {
    let there = Step::AllToAll(Dim(0), Dim(1), axes(&[0]));
    let back = Step::AllToAll(Dim(1), Dim(0), axes(&[0]));
    try_kernels(Shape::part, Shape::part, on(0), there, &[tuned::all_to_all]);
    try_kernels(
        Shape::part,
        Shape::part,
        on(1),
        back,
        &[tuned::all_to_all_back],
    );
}
