//! Times the calls of the library beside the reference and plain copies, all in one run.
//!
//! Needs the archive (`tools/build`). An argument sets the number of rounds. A round measures everything, each row in a few tries:
//! the reference and the library take turns, and the copies for the row follow at once. Every
//! time printed is the least of all. What is printed is Markdown, which `tools/benchmarks` puts
//! into docs/BENCHMARKS.md.

use bench::answers::{Axis, Device, Dim, MOST_DEVICES, MOST_ROOM, MOST_RUN, MOST_WORDS};
use bench::plans::{axes, Draft, Lists, Step};
use bench::random::Random;
use bench::{library, Implementation, Reference};
use std::env;
use std::fmt::Write;
use std::hint::black_box;
use std::process::ExitCode;
use std::time::Instant;

/// Writes a line of the page.
macro_rules! say {
    ($page:expr, $($text:tt)*) => {
        writeln!($page, $($text)*).expect("a text in memory")
    };
}

#[path = "speed/shapes.rs"]
mod shapes;

const ROUNDS: usize = 12;
const TRIES: usize = 3;
const RUNS: [usize; 4] = [1, 16, 256, 4096];
const GROUPS: [usize; 3] = [2, 16, 256];

/// How many devices hold how many words each: the largest state of a case.
#[derive(Clone, Copy)]
struct Extent {
    devices: usize,
    words: usize,
}

/// Where thousands of steps can be run: what a step costs whatever it moves, and by its words.
const SMALL: [Extent; 2] = [
    Extent {
        devices: 16,
        words: 256,
    },
    Extent {
        devices: 64,
        words: 1024,
    },
];

/// What is measured in a millisecond or less.
const MIDDLE: Extent = Extent {
    devices: 256,
    words: 4096,
};

/// What a plan can have at most.
const LARGEST: Extent = Extent {
    devices: MOST_DEVICES,
    words: MOST_WORDS,
};

impl Extent {
    const fn room(self) -> usize {
        self.devices * self.words
    }

    /// A mesh with groups of this size along axis 0.
    fn mesh(self, group: usize) -> Vec<u16> {
        vec![group as u16, (self.devices / group) as u16]
    }

    /// A table with rows of so many words.
    fn table(self, row: usize) -> Vec<u16> {
        vec![(self.words / row) as u16, row as u16]
    }
}

fn main() -> ExitCode {
    let given = env::args().nth(1);
    let rounds = given.map_or(Some(ROUNDS), |text| text.parse().ok());
    let Some(rounds @ 1..) = rounds else {
        eprintln!(
            "speed: the argument is not a number of rounds: give one from 1, or none for {ROUNDS}"
        );
        return ExitCode::FAILURE;
    };
    if library().is_none() {
        eprintln!("speed: target/staticlib/libcapi.a is not there: tools/build makes it");
        return ExitCode::FAILURE;
    }
    let mut bench = Bench::new();
    for _ in 0..rounds {
        bench.begin_round();
        preface(&mut bench.page, rounds);
        small_calls(&mut bench);
        placed_lists(&mut bench);
        one_step_runs(&mut bench);
        scattered_runs(&mut bench);
        steps_alone(&mut bench);
        shapes::every_shape(&mut bench);
        whole_runs(&mut bench);
        repeated_runs(&mut bench);
        ordered_runs(&mut bench);
        bench.limits.tell(&mut bench.page);
        largest_runs(&mut bench);
    }
    print!("{}", bench.page);
    ExitCode::SUCCESS
}

fn preface(page: &mut String, rounds: usize) {
    say!(
        page,
        "Times are in microseconds, the least of {rounds} rounds with {TRIES} tries in each."
    );
    say!(
        page,
        "Before each timing, outside it, work is filled with the same words and spare is"
    );
    say!(
        page,
        "cleared; both have been touched before. Buffers are as long as the plan's room."
    );
    say!(
        page,
        "`copy` is memcpy (copy_from_slice) of as many words as the steps write, between"
    );
    say!(page, "buffers of that length.");
}

/// A ratio that is to stay below some number, and what was seen of it.
struct Limit {
    ratio: &'static str,
    most: f64,
    seen: Vec<(f64, String)>,
}

/// The limits in the order that they are printed in.
struct Limits {
    long: Limit,
    middle: Limit,
    single: Limit,
    tuned_long: Limit,
    tuned_short: Limit,
    whole: Limit,
    reduction: Limit,
    scatter: Limit,
    scatter_in_two: Limit,
    order: Limit,
    repeated: Limit,
    placed_list: Limit,
    small_call: Limit,
    one_step_run: Limit,
    step: Limit,
    whole_run: Limit,
    repeated_run: Limit,
}

impl Limit {
    fn new(ratio: &'static str, most: f64) -> Limit {
        let seen = Vec::new();
        Limit { ratio, most, seen }
    }

    fn see(&mut self, time: Option<f64>, base: f64, label: &str) {
        let ratio = ratio(time, base);
        self.seen.extend(ratio.map(|ratio| (ratio, label.into())));
    }

    /// What was seen over the limit; a ratio that is shown as the limit itself is not over it.
    fn over(&self) -> impl Iterator<Item = &(f64, String)> {
        let over = |(ratio, _): &&(f64, String)| *ratio >= self.most + 0.005;
        self.seen.iter().filter(over)
    }

    fn tell(&self, page: &mut String) {
        let over = self.over().count();
        let largest = self.seen.iter().max_by(|one, two| one.0.total_cmp(&two.0));
        let label = largest.map_or("", |(_, label)| label);
        let verdict = match (largest, over) {
            (None, _) => "-",
            (_, 0) => "ok",
            _ => "over",
        };
        say!(
            page,
            "    {:<40} {:>5.1} {:>5} {over:>5} {}  {verdict:<5} {label}",
            self.ratio,
            self.most,
            self.seen.len(),
            shown(largest.map(|(ratio, _)| *ratio), 7, 2),
        );
    }
}

impl Limits {
    fn new() -> Limits {
        Limits {
            long: Limit::new("step / copy, runs of 256 words and more", 1.5),
            middle: Limit::new("step / copy, runs of 16 words", 4.0),
            single: Limit::new("step / copy, runs of 1 word", 10.0),
            tuned_long: Limit::new("step / tuned, runs of 16 words and more", 1.5),
            tuned_short: Limit::new("step / tuned, shorter runs", 2.0),
            whole: Limit::new("64 steps / copies, runs of 256 and more", 3.0),
            reduction: Limit::new("reduction / addition of shards", 1.5),
            scatter: Limit::new("run of a reduce-scatter / plain Rust", 1.5),
            scatter_in_two: Limit::new("reduce-scatter / all-reduce, all-slice", 1.0),
            order: Limit::new("an order's part / copies in and out", 2.0),
            repeated: Limit::new("step of a block / step of a flat file", 1.2),
            placed_list: Limit::new("list of devices / single placements", 1.0),
            small_call: Limit::new("small call / reference", 1.0),
            one_step_run: Limit::new("run of one step / reference", 1.0),
            step: Limit::new("step / reference", 1.0),
            whole_run: Limit::new("run of 64 steps / reference", 1.0),
            repeated_run: Limit::new("run of 4,096 steps / reference", 1.0),
        }
    }

    /// The limit of a step that only moves words, by its run along the last dimension.
    fn of_run(&mut self, run: usize) -> &mut Limit {
        match run {
            1 => &mut self.single,
            16 => &mut self.middle,
            _ => &mut self.long,
        }
    }

    fn tell(&self, page: &mut String) {
        say!(page, "\n### Limits\n");
        say!(
            page,
            "What the library's times are to stay within, and the largest ratio in the tables"
        );
        say!(
            page,
            "above. A step is taken as the run does it, with its part of what is copied back.\n"
        );
        say!(
            page,
            "    {:<40} {:>5} {:>5} {:>5} {:>7}  {:<5} where",
            "ratio",
            "limit",
            "cases",
            "over",
            "largest",
            ""
        );
        let beside_copies = [
            &self.long,
            &self.middle,
            &self.single,
            &self.whole,
            &self.order,
        ];
        let beside_others = [
            &self.tuned_long,
            &self.tuned_short,
            &self.reduction,
            &self.scatter,
            &self.scatter_in_two,
            &self.repeated,
            &self.placed_list,
        ];
        let beside_reference = [
            &self.small_call,
            &self.one_step_run,
            &self.step,
            &self.whole_run,
            &self.repeated_run,
        ];
        let groups: [&[&Limit]; 3] = [&beside_copies, &beside_others, &beside_reference];
        for limit in groups.concat() {
            limit.tell(page);
        }
        let slower = beside_reference.iter().map(|limit| limit.over().count());
        if slower.sum::<usize>() == 0 {
            return;
        }
        say!(page, "\nWhere the library is slower than the reference:\n");
        for limit in beside_reference {
            for (ratio, label) in limit.over() {
                say!(page, "    {:<40} {ratio:>5.2}  {label}", limit.ratio);
            }
        }
    }
}

/// Buffers that last over all timings, so that no page is new to any of them.
struct Bench {
    /// The least times of all rounds so far, in the order that a round measures them in.
    least: Vec<f64>,
    /// How many times this round has measured.
    measured: usize,
    limits: Limits,
    page: String,
    filled: Vec<u32>,
    work: Vec<u32>,
    spare: Vec<u32>,
}

/// Microseconds; the library's are missing when it is not linked.
#[derive(Clone, Copy)]
struct Times {
    library: Option<f64>,
    reference: f64,
}

impl Times {
    const NONE: Times = Times {
        library: None,
        reference: f64::INFINITY,
    };

    /// The lesser of these times and of new ones, the reference's first.
    fn least(self, mut time: impl FnMut(&dyn Implementation) -> f64) -> Times {
        let reference = self.reference.min(time(&Reference));
        let library = library().map(|one| time(one).min(self.library.unwrap_or(f64::INFINITY)));
        Times { library, reference }
    }

    fn with(self, other: Times, combine: impl Fn(f64, f64) -> f64) -> Times {
        let library = self.library.zip(other.library);
        Times {
            library: library.map(|(one, two)| combine(one, two)),
            reference: combine(self.reference, other.reference),
        }
    }
}

impl Bench {
    fn new() -> Bench {
        Bench {
            least: Vec::new(),
            measured: 0,
            limits: Limits::new(),
            page: String::new(),
            filled: Random::new(0).words(MOST_ROOM),
            work: vec![1; MOST_ROOM],
            spare: vec![1; MOST_ROOM],
        }
    }

    fn begin_round(&mut self) {
        self.measured = 0;
        self.limits = Limits::new();
        self.page.clear();
    }

    /// Measures a time, and answers the least that it has been in this and earlier rounds.
    fn least(&mut self, mut time: impl FnMut(&mut Bench) -> f64) -> f64 {
        let tries = (0..TRIES).map(|_| time(self));
        let least = tries.fold(f64::INFINITY, f64::min);
        self.kept(least)
    }

    fn kept(&mut self, time: f64) -> f64 {
        if self.measured == self.least.len() {
            self.least.push(time);
        }
        let least = &mut self.least[self.measured];
        *least = least.min(time);
        self.measured += 1;
        *least
    }

    /// Times one use of the buffers, after they have been made ready.
    fn time(&mut self, room: usize, act: impl FnOnce(&mut [u32], &mut [u32])) -> f64 {
        let (work, spare) = (&mut self.work[..room], &mut self.spare[..room]);
        work.copy_from_slice(&self.filled[..room]);
        spare.fill(0);
        let start = Instant::now();
        act(work, spare);
        let time = start.elapsed();
        black_box((work, spare));
        time.as_secs_f64() * 1e6
    }

    /// The least times of whole runs of some plans, by both implementations in turn.
    fn runs<const N: usize>(&mut self, files: [&[u8]; N]) -> [Times; N] {
        let mut least = [Times::NONE; N];
        for _ in 0..TRIES {
            for (file, least) in files.iter().zip(&mut least) {
                *least = least.least(|one| self.run(one, file));
            }
        }
        least.map(|times| self.kept_both(times))
    }

    fn kept_both(&mut self, times: Times) -> Times {
        Times {
            reference: self.kept(times.reference),
            library: times.library.map(|time| self.kept(time)),
        }
    }

    fn run(&mut self, one: &dyn Implementation, file: &[u8]) -> f64 {
        let checked = Reference.check(file).expect("a plan of the benchmark");
        self.time(checked.room as usize, |work, spare| {
            one.only_run(file, work, spare).expect("room enough");
        })
    }

    /// The least time of copying so many words, in buffers as long as those of the run.
    fn copy(&mut self, room: usize, words: usize) -> f64 {
        self.least(|bench| bench.copy_once(room, words))
    }

    fn copy_once(&mut self, room: usize, words: usize) -> f64 {
        self.time(room, |work, spare| {
            black_box(&mut spare[..words]).copy_from_slice(black_box(&work[..words]));
        })
    }

    /// The least time of adding up shards, group by group, over as many words as a reduction has.
    fn addition(&mut self, group: usize) -> f64 {
        self.least(|bench| {
            bench.time(MIDDLE.room(), |work, spare| {
                add_shards(black_box(work), black_box(spare), group);
            })
        })
    }
}

/// Shard-wise addition: the sum of each group's shards in place of its first shard, then copies
/// of it for the others. The devices of a group are as far apart as groups are many.
fn add_shards(old: &[u32], new: &mut [u32], group: usize) {
    let words = MIDDLE.words;
    let groups = MIDDLE.devices / group;
    for first in 0..groups {
        let sum = &mut new[first * words..][..words];
        sum.copy_from_slice(&old[first * words..][..words]);
        for member in 1..group {
            let shard = &old[(first + member * groups) * words..][..words];
            for (total, word) in sum.iter_mut().zip(shard) {
                *total = total.wrapping_add(*word);
            }
        }
        for member in 1..group {
            let place = (first + member * groups) * words;
            new.copy_within(first * words..(first + 1) * words, place);
        }
    }
}

/// A run of one reduce-scatter in plain Rust: the sum of each group's shards in place of its first
/// shard, each member's piece from there, and the pieces taken home, with zeros behind them.
fn scatter_shards(work: &mut [u32], spare: &mut [u32], case: &Case) {
    let (words, group) = (MIDDLE.words, case.group);
    let (groups, piece) = (MIDDLE.devices / group, words / group);
    let (sums, others) = work.split_at_mut(groups * words);
    for (first, sum) in sums.chunks_exact_mut(words).enumerate() {
        for member in 1..group {
            let shard = &others[(first + (member - 1) * groups) * words..][..words];
            for (total, word) in sum.iter_mut().zip(shard) {
                *total = total.wrapping_add(*word);
            }
        }
        let run = if case.on == "last" { case.run } else { piece };
        for member in 0..group {
            let new = &mut spare[(first + member * groups) * piece..][..piece];
            let rows = sum.chunks_exact(run * group);
            for (part, row) in new.chunks_exact_mut(run).zip(rows) {
                part.copy_from_slice(&row[member * run..][..run]);
            }
        }
    }
    let written = MIDDLE.devices * piece;
    work[..written].copy_from_slice(&spare[..written]);
    work[written..].fill(0);
    spare.fill(0);
}

/// A plan of one step at the largest state, or as near to it as the step's kind allows.
#[derive(Clone)]
struct Case {
    kind: &'static str,
    on: &'static str,
    run: usize,
    group: usize,
    draft: Draft,
    /// The step that undoes the plan's only step, where there is one.
    back: Option<Step>,
    /// The words that the step writes, and the ones that its undoing writes.
    words: usize,
    words_back: usize,
}

impl Case {
    fn label(&self, kind: &str) -> String {
        format!(
            "{kind}, {}, run {}, group {}",
            self.on, self.run, self.group
        )
    }

    /// The words of the larger of its two states.
    fn room(&self) -> usize {
        self.words.max(self.words_back)
    }

    /// The words of the state before the step.
    fn words_before(&self) -> usize {
        match self.back {
            Some(_) => self.words_back,
            None => self.words,
        }
    }

    /// The time of copying what the step and its undoing write.
    fn copies(&self, bench: &mut Bench) -> f64 {
        bench.copy(self.room(), self.words) + bench.copy(self.room(), self.words_back)
    }
}

/// Axis 0 on one of two dimensions.
fn axis_on(dim: usize) -> Lists {
    let mut lists = vec![Vec::new(); 2];
    lists[dim] = axes(&[0]);
    lists
}

/// Slices and gathers along the last dimension, with runs of so many words, and along the first,
/// with rows of so many words. A shard has at most 4,096 words here, so that a run of as many is
/// there in groups of one device only.
fn slices_and_gathers() -> Vec<(Case, Case)> {
    let most = MIDDLE.words;
    let mut cases = vec![slice_and_gather(MIDDLE, "last", most, 1)];
    for group in GROUPS {
        let mut runs: Vec<usize> = RUNS.map(|run| run.min(most / group)).to_vec();
        runs.dedup();
        for run in runs {
            cases.push(slice_and_gather(MIDDLE, "last", run, group));
        }
        for row in [16, 256].into_iter().filter(|row| row * group <= most) {
            cases.push(slice_and_gather(MIDDLE, "first", row, group));
        }
    }
    cases
}

fn slice_and_gather(extent: Extent, on: &'static str, run: usize, group: usize) -> (Case, Case) {
    let dim = usize::from(on == "last");
    let row = if on == "last" { run * group } else { run };
    let slice = Step::Slice(axis_on(dim));
    let gather = Step::Gather(axis_on(dim));
    let draft = |start: Lists, step: &Step| Draft {
        mesh: extent.mesh(group),
        table: extent.table(row),
        start,
        steps: vec![step.clone()],
        ..Draft::default()
    };
    let slicing = Case {
        kind: "slice",
        on,
        run,
        group,
        draft: draft(vec![Vec::new(); 2], &slice),
        back: Some(gather.clone()),
        words: extent.room() / group,
        words_back: extent.room(),
    };
    let gathering = Case {
        kind: "gather",
        draft: draft(axis_on(dim), &gather),
        back: Some(slice),
        words: extent.room(),
        words_back: extent.room() / group,
        ..slicing.clone()
    };
    (slicing, gathering)
}

/// A group of 256 would need 256 in both dimensions, and so more words than these tables have.
fn all_to_alls() -> Vec<Case> {
    let mut cases = Vec::new();
    for group in [2, 16, 64] {
        for run in RUNS
            .into_iter()
            .filter(|run| run * group * group <= MIDDLE.words)
        {
            cases.push(all_to_all(MIDDLE, run, group));
        }
    }
    cases
}

fn all_to_all(extent: Extent, run: usize, group: usize) -> Case {
    let step = |source, target| Step::AllToAll(Dim(source), Dim(target), axes(&[0]));
    let words = extent.room() / group;
    Case {
        kind: "all-to-all",
        on: "0 to 1",
        run,
        group,
        draft: Draft {
            mesh: extent.mesh(group),
            table: extent.table(run * group),
            start: axis_on(0),
            steps: vec![step(0, 1)],
            ..Draft::default()
        },
        back: Some(step(1, 0)),
        words,
        words_back: words,
    }
}

fn reductions() -> Vec<Case> {
    let mut cases = Vec::new();
    for group in GROUPS {
        for run in RUNS {
            cases.push(reduction(MIDDLE, run, group));
        }
    }
    cases
}

/// Axes 2, 3 and 4 have one device each: to reduce them changes no word.
fn reduction(extent: Extent, run: usize, group: usize) -> Case {
    Case {
        kind: "reduce",
        on: "all",
        run,
        group,
        draft: Draft {
            mesh: [extent.mesh(group), vec![1, 1, 1]].concat(),
            table: extent.table(run),
            start: vec![Vec::new(); 2],
            unreduced: axes(&[0, 2, 3, 4]),
            steps: vec![Step::Reduce(axes(&[0]))],
            ..Draft::default()
        },
        back: None,
        words: extent.room(),
        words_back: 0,
    }
}

/// The same plan with other steps.
fn with_steps(case: &Case, steps: Vec<Step>) -> Vec<u8> {
    let mut draft = case.draft.clone();
    draft.steps = steps;
    draft.encode()
}

/// An order of so many devices, the same in every round, that is not its own inverse.
fn any_order(devices: usize) -> Vec<Device> {
    let mut order: Vec<Device> = (0..devices as u16).map(Device).collect();
    Random::new(0).shuffle(&mut order);
    order
}

fn small_calls(bench: &mut Bench) {
    say!(bench.page, "\n### Small calls\n");
    say!(bench.page, "Each time is that of one call among many.\n");
    say!(
        bench.page,
        "    {:<42} {:>9} {:>9} {:>7}",
        "call",
        "library",
        "reference",
        "lib/ref"
    );
    for (steps, order) in [(1, 0), (8, 0), (64, 0), (8, 32)] {
        let file = steps_file(steps, order);
        let label = format!("check, {steps} steps, {} bytes", file.len());
        small_call(bench, &with_order(&label, order), |one| {
            black_box(one.accepts(black_box(&file)));
        });
    }
    for file in [repeated_file(128, 16), repeated_file(2, 500)] {
        let label = format!("check, blocks, {} bytes", file.len());
        small_call(bench, &label, |one| {
            black_box(one.accepts(black_box(&file)));
        });
    }
    for order in [0, 32] {
        let file = steps_file(8, order);
        small_call(bench, &with_order("placement, 8 steps", order), |one| {
            black_box(one.place(black_box(&file), 8, Device(3)).is_ok());
        });
    }
    let listings: [(&[u16], &[u8]); 3] = [
        (&[256], &[0]),
        (&[2, 4, 8, 4], &[3, 1]),
        (&[4, 4, 4, 4], &[]),
    ];
    for (mesh, list) in listings {
        let axes: Vec<Axis> = axes(list);
        let mut out = [Device(0); MOST_DEVICES];
        let label = format!("groups of {mesh:?} along {list:?}");
        small_call(bench, &label, |one| {
            let answer = one.groups(black_box(mesh), black_box(&axes), &mut out);
            black_box((answer.is_ok(), &mut out));
        });
        let order = any_order(MIDDLE.devices);
        small_call(bench, &with_order(&label, order.len()), |one| {
            let answer = one.groups_ordered(black_box(mesh), &order, black_box(&axes), &mut out);
            black_box((answer.is_ok(), &mut out));
        });
    }
}

fn with_order(label: &str, devices: usize) -> String {
    let order = if devices > 0 { ", order" } else { "" };
    format!("{label}{order}")
}

/// So many steps along axes 2 and 3, and back again.
fn of_several_kinds(steps: usize) -> Vec<Step> {
    let there_and_back = [
        Step::Slice(vec![axes(&[2]), axes(&[]), axes(&[3])]),
        Step::AllToAll(Dim(0), Dim(1), axes(&[2])),
        Step::Gather(vec![axes(&[]), axes(&[2]), axes(&[])]),
        Step::Gather(vec![axes(&[]), axes(&[]), axes(&[3])]),
    ];
    there_and_back.into_iter().cycle().take(steps).collect()
}

/// A plan of some steps of several kinds, on four axes and three dimensions. Its 32 devices have an
/// order, or none.
fn steps_file(steps: usize, order: usize) -> Vec<u8> {
    let draft = Draft {
        mesh: vec![2, 2, 4, 2],
        order: any_order(order),
        table: vec![16, 16, 16],
        start: vec![axes(&[0]), axes(&[1]), axes(&[])],
        steps: of_several_kinds(steps),
        ..Draft::default()
    };
    draft.encode()
}

/// The same plan with so many times two steps, in blocks that are run so many times.
fn repeated_file(count: u8, pairs: usize) -> Vec<u8> {
    let lists = vec![axes(&[2]), axes(&[]), axes(&[3])];
    let pair = vec![Step::Slice(lists.clone()), Step::Gather(lists)];
    let blocks = (0..pairs).step_by(100).map(|at| {
        let pairs = (pairs - at).min(100);
        Step::Repeat(count, vec![pair.clone(); pairs].concat())
    });
    let draft = Draft {
        mesh: vec![2, 2, 4, 2],
        table: vec![16, 16, 16],
        start: vec![axes(&[0]), axes(&[1]), axes(&[])],
        steps: blocks.collect(),
        ..Draft::default()
    };
    draft.encode()
}

/// The times of one call among so many.
fn call_times(calls: usize, mut call: impl FnMut(&dyn Implementation)) -> Times {
    Times::NONE.least(|one| {
        let start = Instant::now();
        (0..calls).for_each(|_| call(one));
        start.elapsed().as_secs_f64() * 1e6 / calls as f64
    })
}

fn small_call(bench: &mut Bench, label: &str, call: impl FnMut(&dyn Implementation)) {
    let times = bench.kept_both(call_times(2000, call));
    let limit = &mut bench.limits.small_call;
    limit.see(times.library, times.reference, label);
    say!(
        bench.page,
        "    {label:<42} {} {:>9.3} {}",
        shown(times.library, 9, 3),
        times.reference,
        shown(ratio(times.library, times.reference), 7, 2),
    );
}

fn placed_lists(bench: &mut Bench) {
    say!(bench.page, "\n### Placements of a list\n");
    say!(
        bench.page,
        "The first indexes of every device of a mesh, in a state of a plan of 8 steps: all in"
    );
    say!(
        bench.page,
        "one call, and with a single placement for each. `reference` is in one call.\n"
    );
    say!(
        bench.page,
        "    {:<20} {:>9} {:>9} {:>10} {:>9} {:>7}",
        "devices",
        "one call",
        "single",
        "one/single",
        "reference",
        "lib/ref"
    );
    for devices in [MIDDLE.devices, MOST_DEVICES] {
        for order in [0, devices] {
            placed_list(bench, devices, order);
        }
    }
}

fn placed_list(bench: &mut Bench, devices: usize, order: usize) {
    const CALLS: usize = 40;
    const STATE: u16 = 6;
    let file = placed_file(devices, order);
    let list: Vec<Device> = (0..devices as u16).map(Device).collect();
    let mut first = vec![0; 3 * devices];
    let at_once = call_times(CALLS, |one| {
        let answer = one.place_all(black_box(&file), STATE, &list, &mut first);
        answer.expect("devices of the benchmark");
        black_box(&mut first);
    });
    let single = call_times(CALLS, |one| {
        for &device in &list {
            black_box(one.place(black_box(&file), STATE, device).is_ok());
        }
    });
    let (at_once, single) = (bench.kept_both(at_once), bench.kept_both(single));
    let label = with_order(&format!("{devices} devices"), order);
    let against = at_once.with(single, |at_once, single| at_once / single);
    let limits = &mut bench.limits;
    limits.placed_list.see(against.library, 1.0, &label);
    limits
        .small_call
        .see(at_once.library, at_once.reference, &label);
    say!(
        bench.page,
        "    {:<20} {} {} {} {:>9.1} {}",
        with_order(&devices.to_string(), order),
        shown(at_once.library, 9, 1),
        shown(single.library, 9, 1),
        shown(against.library, 10, 3),
        at_once.reference,
        shown(ratio(at_once.library, at_once.reference), 7, 2),
    );
}

/// A plan of 8 steps, on four axes and three dimensions. Its devices have an order, or none.
fn placed_file(devices: usize, order: usize) -> Vec<u8> {
    let draft = Draft {
        mesh: vec![4, 4, 8, (devices / 128) as u16],
        order: any_order(order),
        table: vec![32, 64, 32],
        start: vec![axes(&[0]), axes(&[1]), axes(&[])],
        steps: of_several_kinds(8),
        ..Draft::default()
    };
    draft.encode()
}

fn one_step_runs(bench: &mut Bench) {
    say!(bench.page, "\n### Runs of one step\n");
    say!(
        bench.page,
        "The whole call: judging the file, the step, what the run copies back, and the"
    );
    say!(
        bench.page,
        "zeros in the rest of work and in all of spare. Beside it a copy of the words"
    );
    say!(
        bench.page,
        "that the step writes, and for a reduction the addition of shards in plain Rust."
    );
    columns(&mut bench.page, None);
    let moves = slices_and_gathers();
    let (slices, gathers): (Vec<Case>, Vec<Case>) = moves.into_iter().unzip();
    for case in slices.iter().chain(&gathers).chain(&all_to_alls()) {
        one_step_run(bench, case, None);
    }
    columns(&mut bench.page, Some("addition"));
    for case in &reductions() {
        let addition = bench.addition(case.group);
        one_step_run(bench, case, Some(addition));
    }
}

fn one_step_run(bench: &mut Bench, case: &Case, addition: Option<f64>) {
    let [times] = bench.runs([&case.draft.encode()]);
    let copy = bench.copy(case.room(), case.words);
    let limit = &mut bench.limits.one_step_run;
    limit.see(times.library, times.reference, &case.label(case.kind));
    let row = Row {
        kind: case.kind,
        case,
        words: case.words,
        times,
        copy,
        beside: addition,
    };
    row.tell(&mut bench.page);
}

/// The whole run of a reduce-scatter, beside that of an all-reduce and then an all-slice, and
/// beside one in plain Rust.
fn scattered_runs(bench: &mut Bench) {
    say!(bench.page, "\n### Runs of one reduce-scatter\n");
    say!(
        bench.page,
        "The whole call, as above; beside it that of an all-reduce and then an all-slice"
    );
    say!(
        bench.page,
        "(two), and the same run in plain Rust, which sums into the first member alone."
    );
    columns(&mut bench.page, Some("plain"));
    let slices = slices_and_gathers().into_iter().map(|(slice, _)| slice);
    for case in slices.filter(|case| case.group > 1) {
        scattered_run(bench, &case);
    }
}

fn scattered_run(bench: &mut Bench, case: &Case) {
    let lists = axis_on(usize::from(case.on == "last"));
    let mut case = case.clone();
    case.draft.unreduced = axes(&[0]);
    let one = with_steps(&case, vec![Step::Scatter(lists.clone())]);
    let two = [Step::Reduce(axes(&[0])), Step::Slice(lists)];
    let two = with_steps(&case, two.to_vec());
    let [once, twice] = bench.runs([&one, &two]);
    let copy = bench.copy(case.room(), case.words);
    let plain = bench.least(|bench| {
        bench.time(MIDDLE.room(), |work, spare| {
            scatter_shards(black_box(work), black_box(spare), &case);
        })
    });
    let label = case.label("scatter");
    let limits = &mut bench.limits;
    limits.scatter.see(once.library, plain, &label);
    if let Some(twice) = twice.library {
        limits.scatter_in_two.see(once.library, twice, &label);
    }
    limits
        .one_step_run
        .see(once.library, once.reference, &label);
    for (kind, times) in [("scatter", once), ("two", twice)] {
        let row = Row {
            kind,
            case: &case,
            words: case.words,
            times,
            copy,
            beside: Some(plain),
        };
        row.tell(&mut bench.page);
    }
}

/// What a step costs in a longer run, without what a run does only once.
fn steps_alone(bench: &mut Bench) {
    say!(bench.page, "\n### Steps alone\n");
    say!(
        bench.page,
        "What a step adds to a longer run, as the difference between runs that end in the"
    );
    say!(
        bench.page,
        "same state: three steps less the first alone, so that a slice and the gather"
    );
    say!(
        bench.page,
        "back, or an all-to-all and the one back, count together. A reduction is compared"
    );
    say!(
        bench.page,
        "with one over groups of one device, which changes no word: the reference copies"
    );
    say!(
        bench.page,
        "the state there, and the library, which reduces in place, leaves it. The addition"
    );
    say!(
        bench.page,
        "beside it writes its sums into another buffer, as the reference does."
    );
    columns(&mut bench.page, None);
    for (slice, _) in &slices_and_gathers() {
        there_and_back(bench, "slice, gather", slice);
    }
    for case in &all_to_alls() {
        there_and_back(bench, "all-to-all x2", case);
    }
    columns(&mut bench.page, Some("addition"));
    for case in &reductions() {
        reduction_alone(bench, case);
    }
}

fn there_and_back(bench: &mut Bench, kind: &str, case: &Case) {
    let Some(back) = case.back.clone() else {
        return;
    };
    let step = case.draft.steps[0].clone();
    let once = case.draft.encode();
    let thrice = with_steps(case, vec![step.clone(), back, step]);
    let [once, thrice] = bench.runs([&once, &thrice]);
    let times = thrice.with(once, |thrice, once| thrice - once);
    let copy = case.copies(bench);
    let (limits, label) = (&mut bench.limits, case.label(kind));
    limits.of_run(case.run).see(times.library, copy, &label);
    limits.step.see(times.library, times.reference, &label);
    let row = Row {
        kind,
        case,
        words: case.words + case.words_back,
        times,
        copy,
        beside: None,
    };
    row.tell(&mut bench.page);
}

fn reduction_alone(bench: &mut Bench, case: &Case) {
    let plan = |list: &[u8]| {
        let steps = list.iter().map(|&axis| Step::Reduce(axes(&[axis])));
        with_steps(case, steps.collect())
    };
    let (copied_once, copied, reduced) = (plan(&[2]), plan(&[2, 3, 4]), plan(&[2, 3, 0]));
    let [once, copied, reduced] = bench.runs([&copied_once, &copied, &reduced]);
    let one_copy = copied.with(once, |three, one| (three - one) / 2.0);
    let more = reduced.with(copied, |reduced, copied| reduced - copied);
    let times = one_copy.with(more, |copy, more| copy + more);
    let copy = bench.copy(case.room(), case.words);
    let addition = bench.addition(case.group);
    let (limits, label) = (&mut bench.limits, case.label(case.kind));
    limits.reduction.see(times.library, addition, &label);
    limits.step.see(times.library, times.reference, &label);
    let row = Row {
        kind: case.kind,
        case,
        words: case.words,
        times,
        copy,
        beside: Some(addition),
    };
    row.tell(&mut bench.page);
}

fn whole_runs(bench: &mut Bench) {
    say!(bench.page, "\n### Runs of 64 steps\n");
    say!(
        bench.page,
        "Slices and gathers in turn, with all that the run copies back and clears. `copy`"
    );
    say!(
        bench.page,
        "is a copy of what the steps write; `64 full` is 64 copies of {} words.",
        MIDDLE.room()
    );
    columns(&mut bench.page, Some("64 full"));
    let full = 64.0 * bench.copy(MIDDLE.room(), MIDDLE.room());
    for (case, _) in &slices_and_gathers() {
        let Some(back) = case.back.clone() else {
            continue;
        };
        let steps = vec![[case.draft.steps[0].clone(), back]; 32].concat();
        let [times] = bench.runs([&with_steps(case, steps)]);
        let copies = 32.0 * (case.copies(bench));
        let words = 32 * (case.words + case.words_back);
        let (limits, label) = (&mut bench.limits, case.label("64 steps"));
        if case.run >= 256 {
            limits.whole.see(times.library, copies, &label);
        }
        limits.whole_run.see(times.library, times.reference, &label);
        let row = Row {
            kind: "64 steps",
            case,
            words,
            times,
            copy: copies,
            beside: Some(full),
        };
        row.tell(&mut bench.page);
    }
}

/// What a step costs in a block that is run again and again, beside a file that has each step.
fn repeated_runs(bench: &mut Bench) {
    say!(bench.page, "\n### Runs of a block\n");
    say!(
        bench.page,
        "Two steps that undo each other in turn, at smaller states: 64 steps of a flat file,"
    );
    say!(
        bench.page,
        "and {MOST_RUN} from one block of 32 steps that is run 128 times. `room` is the words of"
    );
    say!(
        bench.page,
        "the larger state. Times are nanoseconds a step, of the whole call by its steps;"
    );
    say!(bench.page, "`lib/ref` is of the runs of the block.\n");
    say!(
        bench.page,
        "    {:<13} {:<6} {:>4} {:>5} {:>8} {:>9} {:>9} {:>10} {:>9} {:>7}",
        "kind",
        "dim",
        "run",
        "group",
        "room",
        "flat",
        "block",
        "block/flat",
        "reference",
        "lib/ref"
    );
    for extent in SMALL {
        for (run, group) in [(16, 2), (1, 4)] {
            let (slice, _) = slice_and_gather(extent, "last", run, group);
            repeated_run(bench, "slice, gather", &slice);
            repeated_run(bench, "all-to-all x2", &all_to_all(extent, run, group));
        }
    }
}

fn repeated_run(bench: &mut Bench, kind: &str, case: &Case) {
    let Some(back) = case.back.clone() else {
        return;
    };
    let pair = [case.draft.steps[0].clone(), back];
    let flat = with_steps(case, vec![pair.clone(); 32].concat());
    let block = Step::Repeat(128, vec![pair; 16].concat());
    let [flat, block] = bench.runs([&flat, &with_steps(case, vec![block])]);
    let by = |steps: usize, time: f64| time * 1e3 / steps as f64;
    let flat = flat.library.map(|time| by(64, time));
    let reference = by(MOST_RUN, block.reference);
    let block = block.library.map(|time| by(MOST_RUN, time));
    let label = format!("{}, room {}", case.label(kind), case.room());
    let limits = &mut bench.limits;
    let against = flat.zip(block).map(|(flat, block)| block / flat);
    limits.repeated.see(against, 1.0, &label);
    limits.repeated_run.see(block, reference, &label);
    say!(
        bench.page,
        "    {kind:<13} {:<6} {:>4} {:>5} {:>8} {} {} {} {reference:>9.0} {}",
        case.on,
        case.run,
        case.group,
        case.room(),
        shown(flat, 9, 0),
        shown(block, 9, 0),
        shown(against, 10, 2),
        shown(ratio(block, reference), 7, 2),
    );
}

/// What an order of the devices adds to a run: shards that lie by device number are put by place
/// before the first step, and back after the last.
fn ordered_runs(bench: &mut Bench) {
    say!(bench.page, "\n### Runs under an order\n");
    say!(
        bench.page,
        "Runs of one step again, plain and with the {} devices in another order, by the",
        MIDDLE.devices
    );
    say!(
        bench.page,
        "library. `more` is what the order adds; `copies` is a copy of all words of the"
    );
    say!(
        bench.page,
        "first state and one of the last, for shards are put by place once before the"
    );
    say!(
        bench.page,
        "first step and back once after the last, however many steps there are. `lib/ref`"
    );
    say!(bench.page, "is of the runs under the order.\n");
    say!(
        bench.page,
        "    {:<13} {:<6} {:>4} {:>5} {:>9} {:>9} {:>8} {:>8} {:>8} {:>9} {:>7}",
        "kind",
        "dim",
        "run",
        "group",
        "plain",
        "ordered",
        "more",
        "copies",
        "more/it",
        "reference",
        "lib/ref"
    );
    for case in &of_each_kind(MIDDLE) {
        ordered_run(bench, case);
    }
}

fn ordered_run(bench: &mut Bench, case: &Case) {
    let ordered = Draft {
        order: any_order(MIDDLE.devices),
        ..case.draft.clone()
    };
    let [plain, ordered] = bench.runs([&case.draft.encode(), &ordered.encode()]);
    let more = ordered
        .with(plain, |ordered, plain| ordered - plain)
        .library;
    let before = bench.copy(case.room(), case.words_before());
    let copies = before + bench.copy(case.room(), case.words);
    let (limits, label) = (&mut bench.limits, case.label(case.kind));
    limits.order.see(more, copies, &label);
    let label = with_order(&label, MIDDLE.devices);
    limits
        .one_step_run
        .see(ordered.library, ordered.reference, &label);
    say!(
        bench.page,
        "    {:<13} {:<6} {:>4} {:>5} {} {} {} {copies:>8.1} {} {:>9.1} {}",
        case.kind,
        case.on,
        case.run,
        case.group,
        shown(plain.library, 9, 1),
        shown(ordered.library, 9, 1),
        shown(more, 8, 1),
        shown(ratio(more, copies), 8, 2),
        ordered.reference,
        shown(ratio(ordered.library, ordered.reference), 7, 2),
    );
}

/// The same steps on a middle state and on the largest, as far as their kind allows, and what a
/// word costs in each.
fn largest_runs(bench: &mut Bench) {
    say!(bench.page, "\n### Runs at the largest room\n");
    say!(
        bench.page,
        "Runs of one step again, by the library alone: on {} devices with a table of {}",
        MIDDLE.devices,
        MIDDLE.words
    );
    say!(
        bench.page,
        "words, and the same on {} with {}, where a buffer has up to {} words ({} MiB).",
        LARGEST.devices,
        LARGEST.words,
        LARGEST.room(),
        (LARGEST.room() * size_of::<u32>()) >> 20
    );
    say!(
        bench.page,
        "One try in each round. `ns/word` is the time by the words that the step writes,"
    );
    say!(
        bench.page,
        "`against` that of the larger run by that of the smaller one, which is above it."
    );
    let [middle, largest] = [MIDDLE, LARGEST].map(|extent| copy_of_a_buffer(bench, extent));
    say!(
        bench.page,
        "A copy of a whole buffer takes {middle:.3} ns a word in the smaller, {largest:.3} in the larger: {:.2}",
        largest / middle
    );
    say!(
        bench.page,
        "times as much, for the smaller ones stand in the processor's caches.\n"
    );
    say!(
        bench.page,
        "    {:<13} {:<6} {:>4} {:>5} {:>8} {:>9} {:>8} {:>8} {:>7} {:>7}",
        "kind",
        "dim",
        "run",
        "group",
        "words",
        "library",
        "copy",
        "lib/copy",
        "ns/word",
        "against"
    );
    let [middle, largest] = [MIDDLE, LARGEST].map(of_each_kind);
    for (middle, largest) in middle.iter().zip(&largest) {
        let cost = run_with_cost(bench, middle, None);
        run_with_cost(bench, largest, cost);
    }
}

/// Nanoseconds a word.
fn copy_of_a_buffer(bench: &mut Bench, extent: Extent) -> f64 {
    let room = extent.room();
    let time = bench.copy_once(room, room);
    bench.kept(time) * 1e3 / room as f64
}

fn of_each_kind(extent: Extent) -> Vec<Case> {
    let mut cases = Vec::new();
    for (run, group) in [(256, 2), (16, 16)] {
        let (slice, gather) = slice_and_gather(extent, "last", run, group);
        let to_all = all_to_all(extent, run, group);
        cases.extend([slice, gather, to_all, reduction(extent, run, group)]);
    }
    cases
}

/// Prints a row, and answers the nanoseconds that a word costs.
fn run_with_cost(bench: &mut Bench, case: &Case, smaller: Option<f64>) -> Option<f64> {
    let file = case.draft.encode();
    let time = library().map(|one| bench.run(one, &file));
    let time = time.map(|time| bench.kept(time));
    let copy = bench.copy_once(case.room(), case.words);
    let copy = bench.kept(copy);
    let cost = time.map(|time| time * 1e3 / case.words as f64);
    let against = smaller.map(|smaller| format!(" {}", shown(ratio(cost, smaller), 7, 2)));
    say!(
        bench.page,
        "    {:<13} {:<6} {:>4} {:>5} {:>8} {} {copy:>8.1} {} {}{}",
        case.kind,
        case.on,
        case.run,
        case.group,
        case.words,
        shown(time, 9, 1),
        shown(ratio(time, copy), 8, 2),
        shown(cost, 7, 2),
        against.unwrap_or_default(),
    );
    cost
}

/// The last columns are for what else a kind of row is compared with.
fn columns(page: &mut String, beside: Option<&str>) {
    let beside = beside.map_or(String::new(), |name| format!(" {name:>8} {:>6}", "lib/it"));
    say!(
        page,
        "\n    {:<13} {:<6} {:>4} {:>5} {:>8} {:>9} {:>9} {:>8} {:>8} {:>7}{beside}",
        "kind",
        "dim",
        "run",
        "group",
        "words",
        "library",
        "reference",
        "copy",
        "lib/copy",
        "lib/ref",
    );
}

/// One row of a table: a case under a name, the words that it writes and what it is timed at.
struct Row<'a> {
    kind: &'a str,
    case: &'a Case,
    words: usize,
    times: Times,
    copy: f64,
    beside: Option<f64>,
}

impl Row<'_> {
    fn tell(&self, page: &mut String) {
        let library = self.times.library;
        let beside = |time: f64| format!(" {time:>8.1} {}", shown(ratio(library, time), 6, 2));
        say!(
            page,
            "    {:<13} {:<6} {:>4} {:>5} {:>8} {} {:>9.1} {:>8.1} {} {}{}",
            self.kind,
            self.case.on,
            self.case.run,
            self.case.group,
            self.words,
            shown(library, 9, 1),
            self.times.reference,
            self.copy,
            shown(ratio(library, self.copy), 8, 2),
            shown(ratio(library, self.times.reference), 7, 2),
            self.beside.map_or(String::new(), beside),
        );
    }
}

fn ratio(time: Option<f64>, base: f64) -> Option<f64> {
    time.map(|time| time / base)
}

/// A number of some width, or a dash for one that is missing.
fn shown(number: Option<f64>, width: usize, places: usize) -> String {
    match number {
        Some(number) => format!("{number:>width$.places$}"),
        None => format!("{:>width$}", "-"),
    }
}
