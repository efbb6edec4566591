//! The writer of document 02, Ask 2, the way back, and the planner of Ask 10: the bytes, the order of
//! the refusals, what is left of the lent lists, and the steps from one sharding to another.

use bench::answers::{Device, Dim, Refusal, MOST_BYTES};
#[cfg(library)]
use bench::library;
use bench::plans::{self, accepted, axes, devices, lists, random_scale, Draft, Step};
use bench::random::Random;
use bench::records::{MeshAndTable, Opened, Records, ShardingRecord, StepRecord, RECORD_BYTES};
use bench::{blocks, hex, implementations, spoilt, Implementation};
use std::collections::BTreeMap;

fn refusal<T>(number: u8, step: u16) -> Result<T, Refusal> {
    Err(Refusal { number, step })
}

/// What each implementation answers.
fn answers<T>(call: impl Fn(&dyn Implementation) -> T) -> Vec<T> {
    implementations().into_iter().map(call).collect()
}

/// What a write into so many bytes answers and leaves. The bytes are no part of any file.
fn write(records: &Records, room: usize) -> Vec<(Result<usize, Refusal>, Vec<u8>)> {
    answers(|one| {
        let mut out = vec![0xa5; room];
        let answer = one.write(records, &mut out);
        (answer, out)
    })
}

/// Into exactly enough bytes, into more and into one too few.
fn assert_written(records: &Records, file: &[u8]) {
    for more in [0, 3] {
        for (answer, out) in write(records, file.len() + more) {
            assert_eq!(answer, Ok(file.len()), "{records:?}");
            assert_eq!(out[..file.len()], *file, "{records:?}");
            assert_eq!(out[file.len()..], vec![0xa5; more]);
        }
    }
    for (answer, out) in write(records, file.len() - 1) {
        assert_eq!(answer, refusal(35, 0));
        assert_eq!(out, vec![0xa5; file.len() - 1]);
    }
}

/// Whether there is room or none, and nothing is written.
fn assert_refused(records: &Records, number: u8, step: u16) {
    for room in [0, 2 * MOST_BYTES] {
        for (answer, out) in write(records, room) {
            assert_eq!(answer, refusal(number, step), "{records:?}");
            assert_eq!(out, vec![0xa5; room]);
        }
    }
}

fn sharding(dims: &[&[u8]], unreduced: &[u8], replicated: &[u8]) -> ShardingRecord {
    ShardingRecord {
        dims: lists(dims),
        unreduced: axes(unreduced),
        replicated: axes(replicated),
    }
}

fn on(mesh: &[u16], order: &[u16], table: &[u16]) -> MeshAndTable {
    MeshAndTable {
        mesh: mesh.to_vec(),
        order: devices(order),
        table: table.to_vec(),
    }
}

fn records(on: MeshAndTable, start: ShardingRecord, steps: Vec<StepRecord>) -> Records {
    Records { on, start, steps }
}

/// A mesh of 2x2 and a table of 4x3 with these steps, nothing named at the start.
fn small(steps: Vec<StepRecord>) -> Records {
    let start = sharding(&[&[], &[]], &[], &[]);
    records(on(&[2, 2], &[], &[4, 3]), start, steps)
}

fn slice() -> StepRecord {
    StepRecord::Slice(lists(&[&[0], &[]]))
}

fn gather() -> StepRecord {
    StepRecord::Gather(lists(&[&[0], &[]]))
}

fn repeat(count: u8, steps: u8) -> StepRecord {
    StepRecord::Repeat { count, steps }
}

/// A slice and the gather back, so many times.
fn pairs(times: usize) -> Vec<StepRecord> {
    vec![[slice(), gather()]; times].concat()
}

fn bytes(text: &str) -> Vec<u8> {
    hex::parse(text).expect("hex")
}

#[test]
fn w1_is_written() {
    let start = sharding(&[&[0], &[1]], &[], &[]);
    let gather = StepRecord::Gather(lists(&[&[], &[1]]));
    let w1 = bytes(
        "01 00 02 00 02 00 01 00 12 00 16 00 1a 00 1f 00 23 00 | 02 00 02 00 | 04 00 04 00 | \
         01 00 01 01 00 | 02 00 01 01",
    );
    assert_written(
        &records(on(&[2, 2], &[], &[4, 4]), start, vec![gather]),
        &w1,
    );
}

#[test]
fn the_edition_is_the_least_that_holds_the_plan() {
    let of = |order: &[u16], replicated: &[u8]| {
        let start = sharding(&[&[]], &[], replicated);
        records(on(&[2], order, &[4]), start, Vec::new())
    };
    let first = "0100 0100 0100 0000 1200 1400 1600 1800 1800 | 0200 | 0400 | 00 00";
    let second = "0200 0100 0100 0000 1200 1400 1600 1a00 1a00 | 0200 | 0400 | 00 00 01 00";
    let third = "0300 0100 0100 0000 1200 1800 1a00 1d00 1d00 | 0200 0100 0000 | 0400 | 00 00 00";
    let both = "0300 0100 0100 0000 1200 1800 1a00 1e00 1e00 | 0200 0100 0000 | 0400 | 00 00 01 00";
    assert_written(&of(&[], &[]), &bytes(first));
    assert_written(&of(&[], &[0]), &bytes(second));
    assert_written(&of(&[1, 0], &[]), &bytes(third));
    assert_written(&of(&[1, 0], &[0]), &bytes(both));
}

#[test]
fn accepted_plans_are_written_as_their_files() {
    let mut random = Random::new(21);
    let mut nested = 0;
    for _ in 0..2000 {
        let scale = random_scale(&mut random);
        let draft = accepted(&mut random, scale);
        nested += usize::from(blocks::depth(&draft.steps) > 1);
        assert_written(&Records::from(&draft), &draft.encode());
    }
    assert!(nested > 100, "{nested}");
}

#[test]
fn spoilt_records_get_the_refusal_of_the_check() {
    let mut random = Random::new(22);
    let mut seen: BTreeMap<u8, usize> = BTreeMap::new();
    for _ in 0..20000 {
        let mut draft = plans::small(&mut random);
        for _ in 0..random.between(1, 3) {
            spoilt::spoil(&mut random, &mut draft);
        }
        let (records, file) = (Records::from(&draft), draft.encode());
        for one in implementations() {
            match one.check(&file) {
                Ok(_) => assert_written(&records, &file),
                Err(refused) => {
                    *seen.entry(refused.number).or_default() += 1;
                    assert_refused(&records, refused.number, refused.step);
                }
            }
        }
    }
    let wanted = (8..=28).chain(41..=44).filter(|n| ![9, 18].contains(n));
    let missing: Vec<u8> = wanted.filter(|number| !seen.contains_key(number)).collect();
    assert!(missing.is_empty(), "{missing:?} {seen:?}");
}

#[test]
fn the_outermost_records_are_counted_first() {
    assert_refused(&small([pairs(32), vec![slice()]].concat()), 5, 0);
    // Those of blocks do not count; a block that the records end in does.
    let block = [repeat(1, 2), slice(), gather()];
    assert_written_length(&small(vec![block; 33].concat()));
    assert_refused(
        &small([pairs(32), vec![repeat(1, 3), slice()]].concat()),
        5,
        0,
    );
    let last = vec![slice(), repeat(1, 3), gather(), slice()];
    assert_refused(&small([pairs(31), last].concat()), 7, 0);
    // Before the mesh; repeats of nothing and unknown kinds are steps too.
    let mut many = small(vec![StepRecord::Unknown(0); 65]);
    many.on.mesh = vec![0];
    assert_refused(&many, 5, 0);
    assert_refused(&small(vec![repeat(0, 0); 65]), 5, 0);
    assert_refused(&small(vec![repeat(1, 0); 64]), 44, 1);
    assert_refused(&small(vec![repeat(1, 1); 65]), 42, 5);
    for (mesh, table) in [(0, 1), (7, 1), (1, 0), (1, 5)] {
        let on = on(&vec![0; mesh], &[], &vec![1; table]);
        let start = sharding(&vec![&[][..]; table], &[], &[]);
        assert_refused(&records(on, start, Vec::new()), 5, 0);
    }
}

fn assert_written_length(records: &Records) {
    for (answer, out) in write(records, MOST_BYTES) {
        let length = answer.expect("accepted");
        assert!(implementations()
            .iter()
            .all(|one| one.check(&out[..length]).is_ok()));
    }
}

#[test]
fn records_that_end_inside_a_block_get_7() {
    let mut random = Random::new(23);
    let mut inside = 0;
    for _ in 0..300 {
        let draft = plans::small(&mut random);
        let whole = Records::from(&draft);
        // Where each outermost step begins.
        let ends: Vec<usize> = (0..=draft.steps.len())
            .map(|steps| blocks::kinds(&draft.steps[..steps]))
            .collect();
        for count in 0..whole.steps.len() {
            let mut cut = whole.clone();
            cut.steps.truncate(count);
            match ends.binary_search(&count) {
                Ok(steps) => assert_written(&cut, &draft.prefix(steps).encode()),
                Err(_) => {
                    inside += 1;
                    assert_refused(&cut, 7, 0);
                }
            }
        }
    }
    assert!(inside > 300, "{inside}");
}

#[test]
fn the_order_is_judged_between_mesh_and_table() {
    let of = |mesh: &[u16], order: &[u16], table: &[u16]| {
        let start = sharding(&[&[]], &[], &[]);
        records(on(mesh, order, table), start, Vec::new())
    };
    assert_refused(&of(&[1025], &[0], &[0]), 11, 0);
    // Another length, the plain order, a number twice, a number that no device has.
    for order in [&[1, 0][..], &[1, 0, 2, 3, 4], &[0, 1, 2, 3]] {
        assert_refused(&of(&[2, 2], order, &[0]), 19, 0);
    }
    assert_refused(&of(&[2, 2], &[0, 0, 1, 2], &[0]), 19, 0);
    assert_refused(&of(&[2, 2], &[1, 0, 2, 4], &[0]), 19, 0);
    assert_refused(&of(&[2, 2], &[1, 0, 2, 3], &[0]), 12, 0);
}

#[test]
fn all_counts_of_the_start_are_judged_before_its_axes() {
    let of = |start: ShardingRecord| records(on(&[2, 2], &[], &[4, 3]), start, Vec::new());
    assert_refused(&of(sharding(&[&[7], &[0, 1, 0]], &[], &[])), 8, 0);
    assert_refused(&of(sharding(&[&[7], &[]], &[0, 1, 0], &[])), 8, 0);
    assert_refused(&of(sharding(&[&[7], &[]], &[], &[0, 1, 0])), 8, 0);
    assert_refused(&of(sharding(&[&[7], &[]], &[1, 0], &[])), 14, 0);
}

#[test]
fn a_file_past_the_limit_gets_2_before_35() {
    let mut random = Random::new(24);
    for _ in 0..5 {
        let longest = blocks::longest(&mut random, plans::small, MOST_BYTES);
        assert_written(&Records::from(&longest), &longest.encode());
        let longer = blocks::longest(&mut random, plans::small, MOST_BYTES + 1);
        let mut records = Records::from(&longer);
        assert_refused(&records, 2, 0);
        // The refusal of the records themselves comes first.
        let last = records.steps.len() as u16;
        *records.steps.last_mut().expect("a step") = StepRecord::Unknown(6);
        assert_refused(&records, 20, last);
    }
}

#[test]
fn records_past_the_last_step_number_are_judged() {
    assert_refused(&small(vec![repeat(1, 1); 65536]), 42, 5);
    let many = spoilt::more_than_numbers();
    assert_eq!(many.steps.len(), 69378);
    assert_refused(&many, 43, 1);
    let with = |change: &dyn Fn(&mut Vec<StepRecord>)| {
        let mut records = many.clone();
        change(&mut records.steps);
        records
    };
    // The first block is judged to its end, wherever that is.
    let ends_inside = with(&|steps| steps.truncate(65540));
    assert_refused(&ends_inside, 7, 0);
    let comes_elsewhere = with(&|steps| {
        steps[0] = repeat(1, 18);
        steps.push(StepRecord::Slice(lists(&[&[0]])));
    });
    assert_refused(&comes_elsewhere, 41, 1);
    // A record's own refusal up to the last number, past it that of a file too long.
    let unknown = |at: usize| with(&|steps| steps[at] = StepRecord::Unknown(6));
    assert_refused(&unknown(65533), 20, 65534);
    assert_refused(&unknown(65534), 20, 65535);
    assert_refused(&unknown(65535), 2, 0);
    assert_refused(&unknown(69000), 2, 0);
}

// ---- the way back

/// What a read into lists of these lengths answers and leaves, in each implementation.
type ReadBack = (Result<Opened, Refusal>, Vec<Device>, Vec<u8>);

fn read(file: &[u8], order: usize, steps: usize) -> Vec<ReadBack> {
    answers(|one| {
        let (mut order, mut steps) = (vec![Device(0xa5a5); order], vec![0xa5; steps]);
        let answer = one.read(file, &mut order, &mut steps);
        (answer, order, steps)
    })
}

/// Into lists that are just long enough, into longer ones, and into one that is too short.
fn assert_read(records: &Records, file: &[u8]) {
    let (devices, bytes) = (records.on.order.len(), RECORD_BYTES * records.steps.len());
    for more in [0, 2] {
        for (answer, order, steps) in read(file, devices + more, bytes + more) {
            let opened = answer.expect("an accepted file");
            assert_eq!((opened.order, opened.steps), (devices, bytes));
            assert_eq!(
                Records::opened(&opened, &order, &steps).as_ref(),
                Some(records)
            );
            assert_eq!(order[devices..], vec![Device(0xa5a5); more]);
            assert_eq!(steps[bytes..], vec![0xa5; more]);
        }
    }
    let short = [
        (devices.checked_sub(1), Some(bytes)),
        (Some(devices), bytes.checked_sub(1)),
    ];
    for (devices, bytes) in short {
        if let (Some(devices), Some(bytes)) = (devices, bytes) {
            assert_not_read(file, devices, bytes, 33, 0);
        }
    }
}

fn assert_not_read(file: &[u8], devices: usize, bytes: usize, number: u8, step: u16) {
    for (answer, order, steps) in read(file, devices, bytes) {
        assert_eq!(answer, refusal(number, step));
        assert_eq!(order, vec![Device(0xa5a5); devices]);
        assert_eq!(steps, vec![0xa5; bytes]);
    }
}

#[test]
fn files_are_read_as_the_records_that_they_are_written_of() {
    let mut random = Random::new(26);
    for _ in 0..1000 {
        let scale = random_scale(&mut random);
        let draft = accepted(&mut random, scale);
        let records = Records::from(&draft);
        assert_read(&records, &draft.encode());
        let steps = records.nested().expect("no block is open");
        assert_eq!(
            Records::new(records.on.clone(), records.start.clone(), &steps),
            records
        );
    }
    let longest = blocks::longest(&mut random, plans::small, MOST_BYTES);
    assert_read(&Records::from(&longest), &longest.encode());
}

#[test]
fn every_byte_of_a_record_that_is_read_is_fixed() {
    let start = sharding(&[&[0], &[1]], &[2], &[]);
    let steps = vec![
        repeat(7, 2),
        StepRecord::Gather(lists(&[&[], &[1]])),
        StepRecord::Slice(lists(&[&[], &[1]])),
        StepRecord::AllToAll(Dim(1), Dim(0), axes(&[1])),
        StepRecord::Reduce(axes(&[2])),
    ];
    let record = |head: [u8; 3], counts: [u8; 5], place: usize, axis: u8| {
        let mut axes = [0; 30];
        axes[place] = axis;
        [&head[..], &counts, &axes].concat()
    };
    let expected = [
        record([9, 7, 2], [0; 5], 0, 0),
        record([2, 0, 0], [0, 1, 0, 0, 0], 6, 1),
        record([1, 0, 0], [0, 1, 0, 0, 0], 6, 1),
        record([4, 1, 0], [0, 0, 0, 0, 1], 24, 1),
        record([3, 0, 0], [0, 0, 0, 0, 1], 24, 2),
    ]
    .concat();
    let records = records(on(&[2, 2, 2], &[], &[4, 4]), start, steps);
    let mut file = vec![0; MOST_BYTES];
    let length = implementations()[0].write(&records, &mut file);
    file.truncate(length.expect("accepted"));
    for (answer, _, steps) in read(&file, 0, expected.len()) {
        assert!(answer.is_ok());
        assert_eq!(steps, expected);
    }
}

#[test]
fn a_file_is_judged_before_the_lists() {
    let mut file = Draft::default().encode();
    assert_not_read(&file, 0, 0, 5, 0);
    file.truncate(17);
    assert_not_read(&file, 3, 38, 1, 0);
    let records = small(vec![slice(), slice()]);
    let mut draft = Draft {
        mesh: records.on.mesh,
        table: records.on.table,
        start: records.start.dims,
        steps: vec![Step::Slice(lists(&[&[0], &[]])); 2],
        ..Draft::default()
    };
    assert_not_read(&draft.encode(), 0, 0, 23, 2);
    draft.steps.pop();
    assert_not_read(&draft.encode(), 0, 0, 33, 0);
}

// ---- the planner

fn assert_planned(
    on: &MeshAndTable,
    start: &ShardingRecord,
    goal: &ShardingRecord,
    expected: Result<Vec<StepRecord>, Refusal>,
) {
    for answer in answers(|one| one.plan(on, start, goal)) {
        assert_eq!(answer, expected, "{start:?} {goal:?}");
    }
}

/// The steps between shardings of a table of 8x4x4 on a mesh of five axes of 2.
fn assert_steps(start: &ShardingRecord, goal: &ShardingRecord, steps: Vec<StepRecord>) {
    assert_planned(&on(&[2; 5], &[], &[8, 4, 4]), start, goal, Ok(steps));
}

#[test]
fn plans_reduce_then_gather_then_slice() {
    let of = |dims: &[&[u8]], unreduced: &[u8]| sharding(dims, unreduced, &[4]);
    let reduce = |list: &[u8]| StepRecord::Reduce(axes(list));
    let gather = |dims: &[&[u8]]| StepRecord::Gather(lists(dims));
    let slice = |dims: &[&[u8]]| StepRecord::Slice(lists(dims));
    let here = of(&[&[0, 1], &[], &[2]], &[3]);
    assert_steps(&here, &here, Vec::new());
    // Alone.
    let whole = of(&[&[], &[], &[]], &[]);
    let parts = of(&[&[], &[], &[]], &[0, 1, 2]);
    assert_steps(&parts, &of(&[&[], &[], &[]], &[1]), vec![reduce(&[0, 2])]);
    let one = of(&[&[0, 1], &[], &[2]], &[]);
    assert_steps(&one, &whole, vec![gather(&[&[0, 1], &[], &[2]])]);
    assert_steps(&whole, &one, vec![slice(&[&[0, 1], &[], &[2]])]);
    // From one dimension to another, and from unreduced into a dimension.
    let moved = vec![gather(&[&[1], &[], &[]]), slice(&[&[], &[1], &[]])];
    assert_steps(&one, &of(&[&[0], &[1], &[2]], &[]), moved);
    let scattered = vec![reduce(&[0]), slice(&[&[], &[0], &[]])];
    assert_steps(&parts, &of(&[&[], &[0], &[]], &[1, 2]), scattered);
    // Common beginnings of two axes, of one and of none, where the lists end alike.
    let from = of(&[&[0, 1, 2], &[3], &[]], &[]);
    let back = vec![gather(&[&[2], &[], &[]]), slice(&[&[], &[], &[2]])];
    assert_steps(&from, &of(&[&[0, 1], &[3], &[2]], &[]), back);
    let inner = vec![gather(&[&[1, 2], &[3], &[]]), slice(&[&[3, 2], &[], &[]])];
    assert_steps(&from, &of(&[&[0, 3, 2], &[], &[]], &[]), inner);
    let turned = vec![
        gather(&[&[0, 1, 2], &[], &[]]),
        slice(&[&[2, 1, 0], &[], &[]]),
    ];
    assert_steps(&from, &of(&[&[2, 1, 0], &[3], &[]], &[]), turned);
}

#[test]
fn plans_are_refused_in_order() {
    let of = |dim: &[u8], unreduced: &[u8], replicated: &[u8]| {
        sharding(&[dim, &[]], unreduced, replicated)
    };
    let whole = of(&[], &[], &[]);
    let assert_no = |on: &MeshAndTable, start: &ShardingRecord, goal: &ShardingRecord, number| {
        assert_planned(on, start, goal, refusal(number, 0));
    };
    let long = of(&[0, 1, 0], &[], &[]);
    let table = &[4, 3];
    assert_no(&on(&[], &[0], table), &long, &long, 5);
    assert_no(&on(&[0; 7], &[0], table), &long, &long, 5);
    let five = sharding(&[&[0, 1, 0][..]; 5], &[], &[]);
    assert_no(&on(&[0], &[0], &[0; 5]), &five, &five, 5);
    assert_no(&on(&[2, 0], &[0], &[0, 3]), &long, &long, 10);
    assert_no(&on(&[1025], &[0], &[0, 3]), &long, &long, 11);
    assert_no(&on(&[2, 2], &[0, 1], &[0, 3]), &long, &long, 19);
    assert_no(&on(&[2, 2], &[], &[4, 0]), &long, &long, 12);
    assert_no(&on(&[2, 2], &[], &[256, 257]), &long, &long, 13);
    let on = on(&[2, 2], &[], table);
    // The start whole before the goal.
    let bad = [
        (long, 8),
        (of(&[2], &[], &[]), 14),
        (of(&[0], &[0], &[]), 15),
        (of(&[], &[1, 0], &[]), 16),
        (sharding(&[&[], &[0]], &[], &[]), 17),
    ];
    for (start, number) in &bad {
        bad.iter()
            .for_each(|(goal, _)| assert_no(&on, start, goal, *number));
        // The goal's own before 40.
        assert_no(&on, &of(&[], &[], &[1]), start, *number);
    }
    // Unreduced axes that the start lacks, and lists that differ, either way.
    assert_no(&on, &of(&[], &[0], &[]), &of(&[], &[0, 1], &[]), 40);
    assert_no(&on, &of(&[0], &[], &[]), &of(&[], &[0], &[]), 40);
    assert_no(&on, &of(&[], &[], &[0]), &whole, 40);
    assert_no(&on, &whole, &of(&[], &[], &[0]), 40);
}

#[test]
fn plans_are_accepted_and_end_at_the_goal() {
    let mut random = Random::new(25);
    let mut of_length = [0; 4];
    for _ in 0..2000 {
        let draft = plans::small(&mut random);
        let Records { on, start, .. } = Records::from(&draft);
        for one in implementations() {
            let goal = one.check(&draft.encode()).expect("accepted").sharding;
            let answer = one.plan(&on, &start, &ShardingRecord::from(&goal));
            let steps = answer.expect("a plan");
            of_length[steps.len()] += 1;
            let mut file = vec![0; MOST_BYTES];
            let planned = records(on.clone(), start.clone(), steps);
            let length = one.write(&planned, &mut file).expect("written");
            let checked = one.check(&file[..length]);
            assert_eq!(checked.expect("accepted").sharding, goal);
        }
    }
    assert!(of_length.iter().all(|&plans| plans > 20), "{of_length:?}");
}

// ---- the safe calls of the library

/// The lines of README.md.
#[cfg(library)]
#[test]
fn a_plan_is_made_of_values() -> Result<(), Refusal> {
    let on = MeshAndTable {
        mesh: vec![2, 2],
        table: vec![4, 4],
        ..MeshAndTable::default()
    };
    let start = ShardingRecord {
        dims: lists(&[&[0], &[1]]),
        ..ShardingRecord::default()
    };
    let block = vec![
        Step::Gather(lists(&[&[], &[1]])),
        Step::Slice(lists(&[&[], &[1]])),
    ];
    let file = library::write(&Records::new(on, start, &[Step::Repeat(3, block)]))?;
    let again = library::read(&file)?;
    assert_eq!(library::write(&again), Ok(file));
    assert!(
        matches!(&again.nested().expect("steps")[..], [Step::Repeat(3, block)] if block.len() == 2)
    );
    Ok(())
}

#[cfg(library)]
#[test]
fn what_is_written_is_read_as_the_same_records() {
    let mut random = Random::new(27);
    for _ in 0..500 {
        let draft = plans::small(&mut random);
        let (records, file) = (Records::from(&draft), draft.encode());
        assert_eq!(library::write(&records).as_ref(), Ok(&file));
        assert_eq!(library::read(&file).as_ref(), Ok(&records));
        let goal = ShardingRecord::from(&library::check(&file).expect("accepted").sharding);
        let steps = library::plan(&records.on, &records.start, &goal).expect("a plan");
        let planned = library::write(&Records { steps, ..records }).expect("accepted");
        assert_eq!(
            ShardingRecord::from(&library::check(&planned).expect("accepted").sharding),
            goal
        );
    }
    let longest = blocks::longest(&mut random, plans::small, MOST_BYTES);
    assert_eq!(
        library::read(&longest.encode()),
        Ok(Records::from(&longest))
    );
    assert_eq!(library::write(&small(vec![gather()])), refusal(24, 1));
    assert_eq!(library::read(&[0; 17]), refusal(1, 0));
}

#[cfg(library)]
#[test]
#[should_panic(expected = "give a list for each dimension")]
fn a_step_has_a_list_for_each_dimension() {
    let _ = library::write(&small(vec![StepRecord::Slice(lists(&[&[0]]))]));
}
