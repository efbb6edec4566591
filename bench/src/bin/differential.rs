//! Compares the library with the reference on random plans, and tries demand 3.
//!
//! Arguments: a seed, a number of files, a number of runs. Without the library demand 3 and the
//! planner's plans alone are tried, on the reference.

#[cfg_attr(library, path = "differential/boundary.rs")]
#[cfg_attr(not(library), path = "differential/no_boundary.rs")]
mod boundary;
#[path = "differential/lists.rs"]
mod lists;
#[path = "differential/records.rs"]
mod records;
#[path = "differential/routes.rs"]
mod routes;

use bench::answers::{
    Axis, Device, Refusal, MOST_BYTES, MOST_DEPTH, MOST_DEVICES, MOST_ROOM, MOST_RUN, MOST_STEPS,
    MOST_WORDS,
};
use bench::blocks;
use bench::plans::{self, Draft, Scale, Step, FILE_REFUSALS};
use bench::random::Random;
use bench::spreads::{product, Layout};
use bench::{hex, implementations, library, spoilt, Implementation, Reference};
use boundary::Boundary;
use std::collections::BTreeMap;
use std::fmt::Debug;
use std::process::ExitCode;
use std::{env, fmt};

/// A place where two answers, or a buffer and demand 3, do not agree.
struct Difference {
    call: String,
    file: Vec<u8>,
    told: String,
}

type Outcome = Result<(), Difference>;

/// What was tried.
#[derive(Default)]
struct Tally {
    accepted: usize,
    broken: usize,
    damaged: usize,
    accepted_though_damaged: usize,
    limits: usize,
    most_bytes: usize,
    /// Accepted plans with the most devices, with the most words, and of the most bytes.
    most_devices: usize,
    most_words: usize,
    accepted_of_most_bytes: usize,
    /// Accepted plans with repeats, with the deepest ones, and with the most plain steps.
    repeats: usize,
    deepest: usize,
    most_run: usize,
    /// Accepted plans of each edition, and how many of them were run.
    editions: [usize; 3],
    runs_of_editions: [usize; 3],
    /// Runs of plans with repeats, and of the most plain steps.
    runs_of_repeats: usize,
    runs_of_most_steps: usize,
    placements: usize,
    lists: lists::Tally,
    listings: usize,
    listings_by_order: usize,
    runs: usize,
    runs_at_a_limit: usize,
    runs_at_most_room: usize,
    /// Slices, gathers, reductions, all-to-alls.
    steps: [usize; 5],
    longer_buffers: usize,
    refused_runs: usize,
    faithful: usize,
    prefixes: usize,
    prefixes_inside_blocks: usize,
    /// Parts of plans that multiply the table by another factor than 1, and by one that leaves
    /// nothing of it.
    multiplied: usize,
    multiplied_by_0: usize,
    refusals: Met,
    records: records::Tally,
    routes: routes::Tally,
}

/// The numbers of the refusals of files, of buffers and of other numbers.
const REFUSALS: usize = FILE_REFUSALS.len() + 5;

/// With so many files each number that a call gives is met.
const ENOUGH_FILES: u64 = 20_000;

/// How often each refusal number was met.
#[derive(Default)]
struct Met(BTreeMap<u8, usize>);

impl Met {
    fn see<T>(&mut self, answer: &Result<T, Refusal>) {
        if let Err(refusal) = answer {
            *self.0.entry(refusal.number).or_default() += 1;
        }
    }

    /// Those of a call's numbers that were not met.
    fn missing(&self, call: &str, numbers: &[u8]) -> Vec<String> {
        let missing = numbers.iter().filter(|number| !self.0.contains_key(number));
        missing.map(|number| format!("{call} {number}")).collect()
    }
}

impl Tally {
    fn see<T>(&mut self, answer: &Result<T, Refusal>) {
        self.refusals.see(answer);
    }

    fn see_plan(&mut self, draft: &Draft) {
        self.most_devices += usize::from(product(&draft.mesh) == MOST_DEVICES);
        self.most_words += usize::from(product(&draft.table) == MOST_WORDS);
        self.accepted_of_most_bytes += usize::from(draft.encode().len() == MOST_BYTES);
        let depth = blocks::depth(&draft.steps);
        self.repeats += usize::from(depth > 0);
        self.deepest += usize::from(depth == MOST_DEPTH);
        self.most_run += usize::from(draft.runs() == MOST_RUN);
        self.editions[draft.edition() - 1] += 1;
    }

    /// Sees a plan that is run.
    fn see_run(&mut self, draft: &Draft) {
        self.runs_of_editions[draft.edition() - 1] += 1;
        self.runs_of_repeats += usize::from(blocks::depth(&draft.steps) > 0);
        self.runs_of_most_steps += usize::from(draft.runs() == MOST_RUN);
        for step in blocks::unrolled(&draft.steps) {
            match step {
                Step::Slice(_) => self.steps[0] += 1,
                Step::Gather(_) => self.steps[1] += 1,
                Step::Reduce(_) => self.steps[2] += 1,
                Step::AllToAll(..) => self.steps[3] += 1,
                Step::Scatter(_) => self.steps[4] += 1,
                Step::Repeat(..) | Step::Bytes(_) => {}
            }
        }
    }
}

fn main() -> ExitCode {
    let arguments: Vec<u64> = env::args()
        .skip(1)
        .map_while(|text| text.parse().ok())
        .collect();
    let [seed, files, runs] = arguments[..] else {
        eprintln!("usage: differential SEED FILES RUNS; three numbers, such as 1 20000 2000");
        return ExitCode::FAILURE;
    };
    if library().is_none() {
        println!("The library is not linked: the reference alone is tried, on demand 3 and plans.");
    }
    let mut tally = Tally::default();
    let outcome = compare(&mut Random::new(seed), files, runs, &mut tally);
    println!("seed {seed}\n{tally}");
    let missing = [tally.lists.missing(), tally.records.missing()].concat();
    match outcome {
        Ok(()) if files >= ENOUGH_FILES && library().is_some() && !missing.is_empty() => {
            println!("refusals that were not met: {}", missing.join(", "));
            ExitCode::FAILURE
        }
        Ok(()) => {
            println!("no difference");
            ExitCode::SUCCESS
        }
        Err(difference) => {
            println!("first difference: {difference}");
            ExitCode::FAILURE
        }
    }
}

fn compare(random: &mut Random, files: u64, runs: u64, tally: &mut Tally) -> Outcome {
    if let Some(library) = library() {
        for _ in 0..files {
            let file = random_file(random, tally);
            compare_file(random, library, &file, tally)?;
            lists::compare_place_all(random, library, &file, &mut tally.lists)?;
            compare_groups(random, library, tally)?;
            records::compare_read(random, library, &file, &mut tally.records)?;
            records::compare_write(random, library, &mut tally.records)?;
        }
    }
    for _ in 0..files / 4 {
        records::compare_plan(random, library(), &mut tally.records)?;
    }
    for _ in 0..runs {
        compare_run(random, tally)?;
    }
    for faithful in [true, false] {
        compare_most_room(random, faithful, tally)?;
    }
    for _ in 0..runs {
        let draft = random_draft(random);
        routes::compare_routes(random, &draft, &mut tally.routes)?;
    }
    Ok(())
}

fn random_file(random: &mut Random, tally: &mut Tally) -> Vec<u8> {
    match random.below(30) {
        0..10 => {
            tally.accepted += 1;
            let draft = random_draft(random);
            tally.see_plan(&draft);
            draft.encode()
        }
        10..20 => {
            tally.broken += 1;
            let number = random.pick(&FILE_REFUSALS);
            plans::broken(random, number).0
        }
        20..29 => {
            tally.damaged += 1;
            let file = random_draft(random).encode();
            let file = plans::damaged(random, &file);
            tally.accepted_though_damaged += usize::from(Reference.check(&file).is_ok());
            file
        }
        _ => {
            tally.limits += 1;
            let draft = draft_at_a_limit(random);
            tally.see_plan(&draft);
            draft.encode()
        }
    }
}

/// A plan with the most devices, words and steps, with the most plain steps, or of the most bytes.
fn draft_at_a_limit(random: &mut Random) -> Draft {
    match random.below(3) {
        0 => plans::filling(random, Scale::MOST),
        1 => blocks::running_most(random, random_draft),
        _ => blocks::longest(random, random_draft, MOST_BYTES),
    }
}

fn random_draft(random: &mut Random) -> Draft {
    let scale = plans::random_scale(random);
    plans::accepted(random, scale)
}

fn compare_file(
    random: &mut Random,
    library: &dyn Implementation,
    file: &[u8],
    tally: &mut Tally,
) -> Outcome {
    let answer = Reference.check(file);
    tally.see(&answer);
    tally.most_bytes += usize::from(file.len() == MOST_BYTES);
    same("check", file, &answer, &library.check(file))?;
    same_at_boundary(file, "check", |raw| raw.check(file, answer))?;
    let (steps, devices) = answer.map_or((3, 4), |checked| (checked.steps, checked.devices));
    for _ in 0..4 {
        // Sometimes one too many, sometimes far too many.
        let state = number_up_to(random, steps + 1);
        let device = Device(number_up_to(random, devices));
        let call = format!("place of device {device:?} in state {state}");
        let answer = Reference.place(file, state, device);
        tally.placements += 1;
        tally.see(&answer);
        same(&call, file, &answer, &library.place(file, state, device))?;
        same_at_boundary(file, &call, |raw| raw.place(file, state, device, answer))?;
    }
    Ok(())
}

fn number_up_to(random: &mut Random, last: u16) -> u16 {
    match random.once_in(20) {
        true => random.draw() as u16,
        false => random.between(0, last.into()) as u16,
    }
}

fn same_at_boundary(
    file: &[u8],
    call: &str,
    compare: impl FnOnce(Boundary) -> Option<String>,
) -> Outcome {
    match compare(Boundary) {
        None => Ok(()),
        Some(told) => Err(Difference {
            call: format!("{call}, at the boundary"),
            file: file.to_vec(),
            told,
        }),
    }
}

/// Both answers as text, when they differ.
fn shown<T: PartialEq + Debug + ?Sized>(reference: &T, library: &T) -> Option<String> {
    let told = || format!("reference {reference:?}\nlibrary   {library:?}");
    (reference != library).then(told)
}

fn same<T: PartialEq + Debug + ?Sized>(
    call: &str,
    file: &[u8],
    reference: &T,
    library: &T,
) -> Outcome {
    match shown(reference, library) {
        None => Ok(()),
        Some(told) => Err(Difference {
            call: call.into(),
            file: file.to_vec(),
            told,
        }),
    }
}

fn compare_groups(random: &mut Random, library: &dyn Implementation, tally: &mut Tally) -> Outcome {
    let (mesh, axes) = random_listing(random);
    let devices = product(&mesh).min(MOST_DEVICES);
    let order = listed_order(random, devices);
    let length = (devices + random.below(4)).saturating_sub(random.below(2));
    let untouched = vec![Device(random.draw() as u16); length];
    let (mut ours, mut theirs) = (untouched.clone(), untouched);
    let listed = |one: &dyn Implementation, out: &mut [Device]| match &order {
        None => one.groups(&mesh, &axes, out),
        Some(order) => one.groups_ordered(&mesh, order, &axes, out),
    };
    let answer = listed(&Reference, &mut ours);
    let other = listed(library, &mut theirs);
    tally.listings += 1;
    tally.listings_by_order += usize::from(order.is_some());
    tally.see(&answer);
    let call =
        format!("groups of mesh {mesh:?} along {axes:?} into {length} places, order {order:?}");
    same(&call, &[], &(answer, ours), &(other, theirs))
}

/// An order for half of the listings, sound most of the time.
fn listed_order(random: &mut Random, devices: usize) -> Option<Vec<Device>> {
    if random.once_in(2) {
        return None;
    }
    let mut order = plans::random_order(random, devices.max(1));
    if random.once_in(2) {
        spoilt::order(random, &mut order);
    }
    Some(order)
}

/// A mesh and an axis list, each sound most of the time.
fn random_listing(random: &mut Random) -> (Vec<u16>, Vec<Axis>) {
    let mut mesh = random_draft(random).mesh;
    let mut axes: Vec<Axis> = (0..mesh.len() as u8).map(Axis).collect();
    random.shuffle(&mut axes);
    axes.truncate(random.below(axes.len() + 1));
    if random.once_in(6) {
        let at = random.below(mesh.len());
        let most = MOST_DEVICES as u16;
        mesh[at] = random.pick(&[0, most, most + 1, u16::MAX]);
    }
    if random.once_in(12) {
        mesh.resize(random.pick(&[0, 7, 8]), 1);
    }
    while random.once_in(4) {
        let at = random.below(axes.len() + 1);
        axes.insert(at, Axis(random.byte() % 8));
    }
    (mesh, axes)
}

/// One plan, run on one pair of buffers.
fn compare_run(random: &mut Random, tally: &mut Tally) -> Outcome {
    tally.runs += 1;
    let faithful = random.once_in(2);
    match library() {
        // A file that is no plan.
        Some(library) if !faithful && random.once_in(4) => {
            let file = spoilt_file(random);
            compare_any_words(random, library, &file, tally)
        }
        library => {
            let draft = random_run(random, tally);
            match library {
                Some(library) if !faithful => {
                    compare_any_words(random, library, &draft.encode(), tally)
                }
                _ => {
                    tally.faithful += 1;
                    try_demand_3(random, &draft, tally)
                }
            }
        }
    }
}

/// A plan to be run, now and then one with the most devices, the most words or the most plain steps.
fn random_run(random: &mut Random, tally: &mut Tally) -> Draft {
    let limit = random.below(100);
    let draft = match limit {
        0 | 1 => {
            let scale = plans::scale_at_a_limit(random);
            plans::filling(random, scale)
        }
        2 => blocks::running_most(random, small_draft),
        3 => blocks::longest(random, small_draft, MOST_BYTES),
        _ => random_draft(random),
    };
    tally.runs_at_a_limit += usize::from(limit < 4);
    tally.see_plan(&draft);
    tally.see_run(&draft);
    draft
}

/// A plan of few words, so that thousands of steps can be run.
fn small_draft(random: &mut Random) -> Draft {
    let steps = random.between(1, MOST_STEPS / 4);
    let scale = Scale {
        devices: 16,
        words: 64,
        steps,
        run: 2 * steps,
    };
    plans::accepted(random, scale)
}

/// A run that needs the most room, of few steps; on any words only where there is a library.
fn compare_most_room(random: &mut Random, faithful: bool, tally: &mut Tally) -> Outcome {
    let steps = 4;
    let draft = plans::filling(
        random,
        Scale {
            steps,
            run: steps,
            ..Scale::MOST
        },
    );
    if faithful {
        tally.faithful += 1;
        try_demand_3(random, &draft, tally)?;
    } else if let Some(library) = library() {
        let (work, spare) = (random.words(MOST_ROOM), random.words(MOST_ROOM));
        let answer = same_run(library, &draft.encode(), &work, &spare)?;
        answer.map_err(|refusal| refused("a run with the most room", &draft.encode(), refusal))?;
    } else {
        return Ok(());
    }
    tally.runs += 1;
    tally.runs_at_most_room += 1;
    tally.see_plan(&draft);
    tally.see_run(&draft);
    Ok(())
}

/// A run on words that spread no table, in buffers of any length.
fn compare_any_words(
    random: &mut Random,
    library: &dyn Implementation,
    file: &[u8],
    tally: &mut Tally,
) -> Outcome {
    let room = room_of(file);
    let work = random_length(random, room);
    let work = random.words(work);
    let spare = random_length(random, room);
    let spare = random.words(spare);
    tally.longer_buffers += usize::from(work.len() > room || spare.len() > room);
    let answer = same_run(library, file, &work, &spare)?;
    tally.refused_runs += usize::from(answer.is_err());
    tally.see(&answer);
    Ok(())
}

fn spoilt_file(random: &mut Random) -> Vec<u8> {
    if random.once_in(2) {
        let number = random.pick(&FILE_REFUSALS);
        return plans::broken(random, number).0;
    }
    let file = random_draft(random).encode();
    plans::damaged(random, &file)
}

/// The room of a plan; for a file that is refused any length will do.
fn room_of(file: &[u8]) -> usize {
    let checked = Reference.check(file);
    checked.map_or(64, |checked| checked.room as usize)
}

/// A length around the room: just enough, more, or too little.
fn random_length(random: &mut Random, room: usize) -> usize {
    match random.below(8) {
        0 => room - random.between(1, room),
        1 => room - 1,
        2..5 => room,
        _ => room + random.between(1, 1 + room / 2),
    }
}

/// Compares the runs of a file on copies of the buffers, and answers how they ended.
fn same_run(
    library: &dyn Implementation,
    file: &[u8],
    work: &[u32],
    spare: &[u32],
) -> Result<Result<u64, Refusal>, Difference> {
    let after = |one: &dyn Implementation| {
        let (mut work, mut spare) = (work.to_vec(), spare.to_vec());
        let answer = one.run(file, &mut work, &mut spare);
        (answer, work, spare)
    };
    let (answer, our_work, our_spare) = after(&Reference);
    let (other, their_work, their_spare) = after(library);
    let lengths = format!("work of {} and spare of {} words", work.len(), spare.len());
    same(&format!("run with {lengths}"), file, &answer, &other)?;
    same_at_boundary(file, "run", |raw| raw.run(file, work, spare, answer))?;
    if let (Ok(moved), Ok(checked)) = (other, library.check(file)) {
        same("words moved by a run, and by the check", file, &checked.moved, &moved)?;
    }
    same_words(
        &format!("work after a run with {lengths}"),
        file,
        &our_work,
        &their_work,
    )?;
    same_words(
        &format!("spare after a run with {lengths}"),
        file,
        &our_spare,
        &their_spare,
    )?;
    Ok(answer)
}

/// Compares buffers; only the first word that differs is told.
fn same_words(call: &str, file: &[u8], reference: &[u32], library: &[u32]) -> Outcome {
    let at = reference
        .iter()
        .zip(library)
        .position(|(one, other)| one != other);
    match at {
        None => Ok(()),
        Some(at) => same(
            &format!("{call}, word {at}"),
            file,
            &reference[at],
            &library[at],
        ),
    }
}

/// Demand 3 on a random table: after the steps up to any step, the buffer is a faithful spread,
/// under the sharding announced for that state, of the table multiplied by these steps' factor.
fn try_demand_3(random: &mut Random, draft: &Draft, tally: &mut Tally) -> Outcome {
    let file = draft.encode();
    let table = random.words(product(&draft.table));
    let mut work = start_layout(draft, &file, |layout| layout.spread(&table, random))?;
    let room = room_of(&file);
    // The words behind the start are none of the run's business.
    let rest = room - work.len() + random.below(3);
    work.extend(random.words(rest));
    let spare = room + random.below(3);
    let spare = random.words(spare);
    if let Some(library) = library() {
        let answer = same_run(library, &file, &work, &spare)?;
        answer.map_err(|refusal| refused("a run of an accepted plan", &file, refusal))?;
    }
    for (part, state) in random_parts(random, draft, room, tally) {
        let factor = part.factor();
        tally.multiplied += usize::from(factor != 1);
        tally.multiplied_by_0 += usize::from(factor == 0);
        let multiplied = table.iter().map(|word| word.wrapping_mul(factor));
        let table: Vec<u32> = multiplied.collect();
        for one in implementations() {
            let trial = Trial {
                one,
                announced: state.map_or(&part, |_| draft),
                state: state.unwrap_or(part.steps.len()),
                part: &part,
                table: &table,
            };
            trial.run(random, work.clone(), spare.clone())?;
        }
    }
    Ok(())
}

fn start_layout<T>(
    draft: &Draft,
    file: &[u8],
    then: impl FnOnce(Layout) -> T,
) -> Result<T, Difference> {
    let placed = Reference.place(file, 0, Device(0));
    let placed = placed.map_err(|refusal| refused("an accepted plan", file, refusal))?;
    Ok(then(Layout {
        mesh: &draft.mesh,
        order: &draft.order,
        table: &draft.table,
        sharding: &placed.sharding,
    }))
}

fn refused(call: &str, file: &[u8], refusal: Refusal) -> Difference {
    Difference {
        call: call.into(),
        file: file.to_vec(),
        told: format!("refused: {refusal}"),
    }
}

/// Plans that run a part of this one: up to a state that it announces, with the number of the
/// state, and up to some plain step inside a block. All states, or some where all would take long.
fn random_parts(
    random: &mut Random,
    draft: &Draft,
    room: usize,
    tally: &mut Tally,
) -> Vec<(Draft, Option<usize>)> {
    let steps = draft.steps.len();
    let mut states: Vec<usize> = (0..=steps).collect();
    if steps * draft.runs() * room > 1 << 24 {
        random.shuffle(&mut states[..steps]);
        states.drain(..steps.saturating_sub(4));
    }
    tally.prefixes += states.len();
    let mut parts: Vec<(Draft, Option<usize>)> = states
        .into_iter()
        .map(|state| (draft.prefix(state), Some(state)))
        .collect();
    for _ in 0..if draft.runs() > steps { 3 } else { 0 } {
        let part = draft.cut(random.between(1, draft.runs()));
        // The steps of a pass that is cut short stand among the outermost ones.
        if part.steps.len() <= MOST_STEPS {
            tally.prefixes_inside_blocks += 1;
            parts.push((part, None));
        }
    }
    parts
}

/// One implementation, run on a part of a plan that ends in a state which a plan announces.
struct Trial<'a> {
    one: &'a dyn Implementation,
    announced: &'a Draft,
    state: usize,
    part: &'a Draft,
    /// What the words are a faithful spread of then.
    table: &'a [u32],
}

impl Trial<'_> {
    fn run(&self, random: &mut Random, mut work: Vec<u32>, mut spare: Vec<u32>) -> Outcome {
        let (whole, part) = (self.announced.encode(), self.part.encode());
        let runs = self.part.runs();
        let call = format!("demand 3, {}, {runs} plain steps", self.one.name());
        let device = Device(random.below(product(&self.part.mesh)) as u16);
        let placed = self.one.place(&whole, self.state as u16, device);
        let placed = placed.map_err(|refusal| refused(&call, &whole, refusal))?;
        let ran = self.one.run(&part, &mut work, &mut spare);
        ran.map_err(|refusal| refused(&call, &part, refusal))?;
        let layout = Layout {
            mesh: &self.part.mesh,
            order: &self.part.order,
            table: &self.part.table,
            sharding: &placed.sharding,
        };
        let first = |dim| layout.first_index(device, dim) as u16;
        let firsts: Vec<u16> = (0..self.part.table.len()).map(first).collect();
        let told = match layout.try_spread(self.table, &work) {
            Err(told) => told,
            Ok(()) if *placed.first != firsts => format!("device {device:?} begins elsewhere"),
            Ok(()) if product(&placed.shard) != layout.words() => "another shard size".into(),
            Ok(()) if !is_cleared(&layout, &work, &spare) => "something is not cleared".into(),
            Ok(()) => return Ok(()),
        };
        Err(Difference {
            call,
            file: part,
            told,
        })
    }
}

fn is_cleared(layout: &Layout, work: &[u32], spare: &[u32]) -> bool {
    let rest = &work[layout.devices() * layout.words()..];
    rest.iter().chain(spare).all(|&word| word == 0)
}

impl fmt::Display for Tally {
    fn fmt(&self, f: &mut fmt::Formatter) -> fmt::Result {
        let files = self.accepted + self.broken + self.damaged + self.limits;
        let [slices, gathers, reductions, all_to_alls, scatters] = self.steps;
        writeln!(f, "{files} files checked")?;
        writeln!(f, "    {} accepted", self.accepted)?;
        writeln!(f, "    {} broken in a chosen way", self.broken)?;
        let still = self.accepted_though_damaged;
        writeln!(f, "    {} damaged, {still} still accepted", self.damaged)?;
        writeln!(f, "    {} at the limits", self.limits)?;
        writeln!(f, "    {} of {MOST_BYTES} bytes", self.most_bytes)?;
        let (devices, words) = (self.most_devices, self.most_words);
        writeln!(
            f,
            "{devices} plans with {MOST_DEVICES} devices, {words} with {MOST_WORDS} words"
        )?;
        let (repeats, deepest) = (self.repeats, self.deepest);
        writeln!(
            f,
            "{repeats} plans with repeats, {deepest} of them {MOST_DEPTH} deep"
        )?;
        let (most_run, long) = (self.most_run, self.accepted_of_most_bytes);
        writeln!(
            f,
            "{most_run} plans of {MOST_RUN} plain steps, {long} of {MOST_BYTES} bytes"
        )?;
        for (at, (plans, runs)) in self.editions.iter().zip(self.runs_of_editions).enumerate() {
            let edition = at + 1;
            writeln!(f, "{plans} plans of edition {edition}, {runs} of them run")?;
        }
        let met = self.refusals.0.len();
        writeln!(f, "{} placements", self.placements)?;
        writeln!(f, "{}", self.lists)?;
        let by_order = self.listings_by_order;
        writeln!(
            f,
            "{} group listings, {by_order} by an order",
            self.listings
        )?;
        writeln!(
            f,
            "{} runs, {} at a limit, {} with room for {MOST_ROOM} words",
            self.runs, self.runs_at_a_limit, self.runs_at_most_room
        )?;
        let (repeats, most) = (self.runs_of_repeats, self.runs_of_most_steps);
        writeln!(
            f,
            "    {repeats} with repeats, {most} of {MOST_RUN} plain steps"
        )?;
        writeln!(f, "    {slices} slices, {gathers} gathers")?;
        writeln!(
            f,
            "    {reductions} reductions, {all_to_alls} all-to-alls, {scatters} reduce-scatters"
        )?;
        let any = self.runs - self.faithful;
        let (refused, longer) = (self.refused_runs, self.longer_buffers);
        writeln!(
            f,
            "    {any} on any words, {refused} refused, {longer} in longer buffers"
        )?;
        let (spreads, prefixes) = (self.faithful, self.prefixes);
        writeln!(
            f,
            "    {spreads} on spreads of tables, demand 3 tried {prefixes} times, and {} times inside a block",
            self.prefixes_inside_blocks
        )?;
        let (multiplied, by_0) = (self.multiplied, self.multiplied_by_0);
        writeln!(
            f,
            "    {multiplied} of these with a factor other than 1, {by_0} with 0"
        )?;
        writeln!(f, "{}", self.routes)?;
        writeln!(
            f,
            "{met} of {REFUSALS} refusal numbers met: {}",
            self.refusals
        )?;
        write!(f, "{}", self.records)
    }
}

impl fmt::Display for Met {
    fn fmt(&self, f: &mut fmt::Formatter) -> fmt::Result {
        let one = |(number, times): (&u8, &usize)| format!("{times} with {number}");
        let all: Vec<String> = self.0.iter().map(one).collect();
        match all.is_empty() {
            true => f.write_str("none"),
            false => f.write_str(&all.join(", ")),
        }
    }
}

impl fmt::Display for Difference {
    fn fmt(&self, f: &mut fmt::Formatter) -> fmt::Result {
        writeln!(f, "{}\n{}", self.call, self.told)?;
        write!(
            f,
            "file of {} bytes:\n{}",
            self.file.len(),
            hex::dump(&self.file)
        )
    }
}
