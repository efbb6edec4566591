//! Steps that only move words, in every shape: short and long runs, small and large groups, the
//! first, a middle and the last dimension, ranks 1 to 4; beside kernels that are tuned for each.

use crate::{ratio, shown, Bench, Extent, MIDDLE};
use bench::answers::Dim;
use bench::plans::{axes, Draft, Lists, Step};
use bench::tuned::{self, Shape};
use std::fmt::Write;
use std::hint::black_box;

const RUNS: [usize; 10] = [1, 2, 3, 4, 6, 8, 16, 64, 256, 2048];
const GROUPS: [usize; 9] = [2, 3, 4, 6, 16, 32, 64, 256, 1024];
const WORST: usize = 16;

/// From here on a run counts as long.
const LONG: usize = 16;

type Kernel = fn(Shape, &[u32], &mut [u32]);

/// A step and the one that undoes it.
struct Pair {
    kind: &'static str,
    on: &'static str,
    shape: Shape,
    table: Vec<u16>,
    start: Lists,
    steps: [Step; 2],
    /// The words of a shard after the step, and after the one that undoes it.
    words: [usize; 2],
    /// The kernels of each, of which the fastest counts.
    kernels: [&'static [Kernel]; 2],
}

/// Microseconds of both steps, and what they are held to.
struct Measured {
    label: String,
    run: usize,
    library: Option<f64>,
    reference: f64,
    tuned: f64,
    copy: f64,
}

impl Measured {
    fn against(&self, base: impl Fn(&Measured) -> f64) -> Option<f64> {
        ratio(self.library, base(self))
    }
}

pub fn every_shape(bench: &mut Bench) {
    let rows: Vec<Measured> = pairs().iter().map(|pair| measure(bench, pair)).collect();
    for row in &rows {
        let limits = &mut bench.limits;
        let limit = if row.run < LONG {
            &mut limits.tuned_short
        } else {
            &mut limits.tuned_long
        };
        limit.see(row.library, row.tuned, &row.label);
        limits.step.see(row.library, row.reference, &row.label);
    }
    tell_runs(&mut bench.page, &rows);
    tell_worst(&mut bench.page, &rows);
}

fn pairs() -> Vec<Pair> {
    let mut pairs = Vec::new();
    for group in GROUPS {
        for run in RUNS {
            pairs.extend(slice_and_gather("last", group, run));
            pairs.extend(there_and_back(group, run));
        }
        pairs.extend(slice_and_gather("only", group, MIDDLE.words / group));
        pairs.extend(slice_and_gather("first", group, MIDDLE.words / group));
        for run in [2, 16, 256] {
            pairs.extend(slice_and_gather("middle", group, run));
            pairs.extend(slice_and_gather("third", group, run));
        }
    }
    pairs
}

/// As many rows as a table of the middle size has.
fn shape_of(group: usize, run: usize) -> Option<Shape> {
    let devices = MIDDLE.devices.max(group);
    let outer = MIDDLE.words / (group * run);
    (outer > 0).then_some(Shape {
        group,
        groups: devices / group,
        outer,
        run,
    })
}

fn on_dim(rank: usize, dim: usize) -> Lists {
    let mut lists = vec![Vec::new(); rank];
    lists[dim] = axes(&[0]);
    lists
}

fn slice_and_gather(on: &'static str, group: usize, run: usize) -> Option<Pair> {
    let shape = shape_of(group, run)?;
    let halves = [shape.outer / 2, 2];
    let (table, dim) = match on {
        "only" => (vec![group * run], 0),
        "first" => (vec![group, run], 0),
        "middle" => (vec![shape.outer, group, run], 1),
        "third" if shape.outer % 2 == 0 => (vec![halves[0], halves[1], group, run], 2),
        "third" => return None,
        _ => (vec![shape.outer, group * run], 1),
    };
    let lists = on_dim(table.len(), dim);
    Some(Pair {
        kind: "slice, gather",
        on,
        shape,
        start: vec![Vec::new(); table.len()],
        table: table.into_iter().map(|size| size as u16).collect(),
        steps: [Step::Slice(lists.clone()), Step::Gather(lists)],
        words: [shape.part(), shape.whole()],
        kernels: [
            &[tuned::slice],
            &[tuned::gather_by_member, tuned::gather_by_row],
        ],
    })
}

/// Both dimensions are split by the group in turn, so that there are as many rows as it has members,
/// or a multiple of it.
fn there_and_back(group: usize, run: usize) -> Option<Pair> {
    let shape = shape_of(group, run)?;
    let outer = shape.outer / group * group;
    let shape = Shape { outer, ..shape };
    let step = |source, target| Step::AllToAll(Dim(source), Dim(target), axes(&[0]));
    (outer > 0).then(|| Pair {
        kind: "all-to-all x2",
        on: "0 to 1",
        shape,
        table: vec![outer as u16, (group * run) as u16],
        start: on_dim(2, 0),
        steps: [step(0, 1), step(1, 0)],
        words: [shape.part(); 2],
        kernels: [&[tuned::all_to_all], &[tuned::all_to_all_back]],
    })
}

fn measure(bench: &mut Bench, pair: &Pair) -> Measured {
    let shape = pair.shape;
    let draft = |steps: &[&Step]| Draft {
        mesh: vec![shape.group as u16, shape.groups as u16],
        table: pair.table.clone(),
        start: pair.start.clone(),
        steps: steps.iter().copied().cloned().collect(),
        ..Draft::default()
    };
    let [there, back] = &pair.steps;
    let once = draft(&[there]).encode();
    let thrice = draft(&[there, back, there]).encode();
    let [once, thrice] = bench.runs([&once, &thrice]);
    let times = thrice.with(once, |thrice, once| thrice - once);
    let [after, before] = pair.words.map(|words| shape.devices() * words);
    let room = before.max(after);
    let mut tuned = 0.0;
    for (kernels, words) in pair.kernels.iter().zip([[before, after], [after, before]]) {
        let times = kernels
            .iter()
            .map(|kernel| time(bench, *kernel, shape, room, words));
        tuned += times.fold(f64::INFINITY, f64::min);
    }
    let copy = bench.copy(room, before) + bench.copy(room, after);
    Measured {
        label: format!(
            "{}, {}, run {}, group {}",
            pair.kind, pair.on, shape.run, shape.group
        ),
        run: shape.run,
        library: times.library,
        reference: times.reference,
        tuned,
        copy,
    }
}

fn time(bench: &mut Bench, kernel: Kernel, shape: Shape, room: usize, words: [usize; 2]) -> f64 {
    bench.least(|bench| {
        bench.time(room, |work, spare| {
            kernel(
                shape,
                black_box(&work[..words[0]]),
                black_box(&mut spare[..words[1]]),
            );
        })
    })
}

fn tell_runs(page: &mut String, rows: &[Measured]) {
    let Extent { devices, words } = MIDDLE;
    say!(page, "\n### Every shape\n");
    say!(
        page,
        "Steps alone again, a step and the one that undoes it: {} pairs on {devices} devices (or as",
        rows.len()
    );
    say!(
        page,
        "many as groups fit in) with a table of {words} words (or as many as rows fit in). Groups of"
    );
    say!(
        page,
        "{GROUPS:?}; the last dimension of two, the first, the only"
    );
    say!(
        page,
        "one, the middle of three and the third of four. `tuned` is the fastest that we can write in"
    );
    say!(
        page,
        "Rust for each kind and run (bench/src/tuned.rs). For each run the median of its pairs and"
    );
    say!(page, "the largest.\n");
    say!(
        page,
        "    {:>6} {:>5} {:>9} {:>7} {:>9} {:>7} {:>9} {:>7}  largest lib/tuned",
        "run",
        "pairs",
        "lib/tuned",
        "most",
        "lib/ref",
        "most",
        "lib/copy",
        "most"
    );
    let mut runs: Vec<usize> = rows.iter().map(|row| row.run).collect();
    runs.sort_unstable();
    runs.dedup();
    for run in runs {
        let of_run: Vec<&Measured> = rows.iter().filter(|row| row.run == run).collect();
        let both = |base: fn(&Measured) -> f64| {
            let (middle, most) = spread(&of_run, base);
            format!("{} {}", shown(middle, 9, 2), shown(most, 7, 2))
        };
        let label = worst_first(&of_run).first().map_or("", |row| &row.label);
        say!(
            page,
            "    {run:>6} {:>5} {} {} {}  {label}",
            of_run.len(),
            both(|row| row.tuned),
            both(|row| row.reference),
            both(|row| row.copy),
        );
    }
}

/// The median and the largest.
fn spread(rows: &[&Measured], base: fn(&Measured) -> f64) -> (Option<f64>, Option<f64>) {
    let mut ratios: Vec<f64> = rows.iter().filter_map(|row| row.against(base)).collect();
    ratios.sort_unstable_by(f64::total_cmp);
    (
        ratios.get(ratios.len() / 2).copied(),
        ratios.last().copied(),
    )
}

fn worst_first<'a>(rows: &[&'a Measured]) -> Vec<&'a Measured> {
    let mut rows = rows.to_vec();
    let key = |row: &Measured| row.against(|row| row.tuned).unwrap_or(0.0);
    rows.sort_by(|one, two| key(two).total_cmp(&key(one)));
    rows
}

fn tell_worst(page: &mut String, rows: &[Measured]) {
    say!(
        page,
        "\nThe {WORST} pairs with the largest ratio to the tuned kernels:\n"
    );
    say!(
        page,
        "    {:<42} {:>9} {:>9} {:>9} {:>8} {:>9} {:>7} {:>8}",
        "pair",
        "library",
        "tuned",
        "reference",
        "copy",
        "lib/tuned",
        "lib/ref",
        "lib/copy"
    );
    let all: Vec<&Measured> = rows.iter().collect();
    for row in worst_first(&all).into_iter().take(WORST) {
        say!(
            page,
            "    {:<42} {} {:>9.1} {:>9.1} {:>8.1} {} {} {}",
            row.label,
            shown(row.library, 9, 1),
            row.tuned,
            row.reference,
            row.copy,
            shown(row.against(|row| row.tuned), 9, 2),
            shown(row.against(|row| row.reference), 7, 2),
            shown(row.against(|row| row.copy), 8, 2),
        );
    }
}
