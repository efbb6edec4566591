//! The worked plans of document 01, the cases at the limits, those in its ledger's last line, as
//! document 02 moves them, the replicated list of edition 2, the order of edition 3, the placement of
//! a list of devices and the all-reduces of axes that nothing names, with their factors.

use bench::answers::{Device, Dim, NotPlaced, Refusal};
use bench::plans::{axes, devices, lists, mend_length, Draft, Step};
use bench::{hex, implementations, Implementation};

const W1: &str = "01 00 02 00 02 00 01 00 12 00 16 00 1a 00 1f 00 23 00 | 02 00 02 00 \
                  | 04 00 04 00 | 01 00 01 01 00 | 02 00 01 01";

fn refusal<T>(number: u8, step: u16) -> Result<T, Refusal> {
    Err(Refusal { number, step })
}

fn w1() -> Vec<u8> {
    hex::parse(W1).expect("hex")
}

/// W4 with these steps.
fn w4(steps: Vec<Step>) -> Vec<u8> {
    let draft = Draft {
        mesh: vec![2, 2],
        table: vec![4],
        start: lists(&[&[1, 0]]),
        steps,
        ..Draft::default()
    };
    draft.encode()
}

/// W7 with these unreduced axes.
fn w7(unreduced: &[u8]) -> Draft {
    Draft {
        mesh: vec![2],
        table: vec![2],
        start: lists(&[&[]]),
        unreduced: axes(unreduced),
        steps: vec![Step::Reduce(axes(&[0]))],
        ..Draft::default()
    }
}

/// Mesh 2x3, a table of 6 with this start, and all-reduces along these lists.
fn reducing(start: &[u8], unreduced: &[u8], replicated: &[u8], reduced: &[&[u8]]) -> Draft {
    Draft {
        mesh: vec![2, 3],
        table: vec![6],
        start: lists(&[start]),
        unreduced: axes(unreduced),
        replicated: axes(replicated),
        steps: lists(reduced).into_iter().map(Step::Reduce).collect(),
        ..Draft::default()
    }
}

/// A plan without steps.
fn resting(mesh: u16, table: u16, start: &[u8]) -> Draft {
    Draft {
        mesh: vec![mesh],
        table: vec![table],
        start: lists(&[start]),
        ..Draft::default()
    }
}

/// The whole of work after a run in buffers that are longer than the room.
fn run(one: &dyn Implementation, file: &[u8], words: &[u32]) -> Vec<u32> {
    let room = one.check(file).expect("accepted").room as usize;
    let mut work = vec![7; room + 3];
    work[..words.len()].copy_from_slice(words);
    let mut spare = vec![9; room + 1];
    one.run(file, &mut work, &mut spare).expect("a run");
    assert!(spare.iter().all(|&word| word == 0));
    work
}

/// Runs and compares the state; all words behind it have to be 0.
fn assert_run(one: &dyn Implementation, file: &[u8], words: &[u32], state: &[u32]) {
    let work = run(one, file, words);
    assert_eq!(work[..state.len()], *state, "{}", one.name());
    assert!(work[state.len()..].iter().all(|&word| word == 0));
}

#[test]
fn w1_is_accepted_with_its_shard_sizes() {
    for one in implementations() {
        assert_eq!(w1().len(), 35);
        let checked = one.check(&w1()).expect("accepted");
        assert_eq!((checked.room, checked.devices, checked.steps), (32, 4, 1));
        assert_eq!(*checked.shard, [2, 4]);
        assert_eq!(*checked.sharding.dims[0], axes(&[0]));
        assert!(checked.sharding.dims[1].is_empty());
        let shards = one.shards(&w1()).expect("accepted");
        assert_eq!(shards.len(), 2);
        assert_eq!((&*shards[0], &*shards[1]), (&[2, 2][..], &[2, 4][..]));
    }
}

#[test]
fn w1_is_the_file_of_its_plan() {
    let draft = Draft {
        mesh: vec![2, 2],
        table: vec![4, 4],
        start: lists(&[&[0], &[1]]),
        steps: vec![Step::Gather(lists(&[&[], &[1]]))],
        ..Draft::default()
    };
    assert_eq!(draft.encode(), w1());
}

#[test]
fn w2_joins_the_shards_of_a_row() {
    let upper = [1, 2, 5, 6, 3, 4, 7, 8];
    let lower = upper.map(|word| word + 8);
    let words: Vec<u32> = (1..=16).collect();
    for one in implementations() {
        assert_run(one, &w1(), &words, &[upper, upper, lower, lower].concat());
    }
}

#[test]
fn w3_lists_groups_by_the_order_of_the_list() {
    for one in implementations() {
        let mut out = [Device(999); 121];
        one.groups(&[2, 3, 4, 5], &axes(&[3, 1]), &mut out)
            .expect("a listing");
        assert_eq!(out[..6], [0, 20, 40, 1, 21, 41].map(Device));
        assert_eq!(out[120], Device(999));
        // Eight groups of fifteen: each holds one value of device / 60 and of device / 5 % 4.
        for (number, group) in out[..120].chunks(15).enumerate() {
            let key = |device: &Device| (device.0 / 60, device.0 / 5 % 4);
            assert!(group.iter().all(|device| key(device) == key(&group[0])));
            assert_eq!(key(&group[0]), (number as u16 / 4, number as u16 % 4));
        }
        let mut sorted = out[..120].to_vec();
        sorted.sort();
        assert_eq!(sorted, (0..120).map(Device).collect::<Vec<_>>());
    }
}

#[test]
fn w4_places_by_the_order_of_the_list() {
    for one in implementations() {
        let first = |device| {
            let placed = one.place(&w4(vec![]), 0, Device(device)).expect("placed");
            placed.first[0]
        };
        assert_eq!([0, 1, 2, 3].map(first), [0, 2, 1, 3]);
        assert_eq!(one.place(&w4(vec![]), 1, Device(4)), refusal(34, 0));
        assert_eq!(one.place(&w4(vec![]), 0, Device(4)), refusal(32, 0));
    }
}

/// A list is placed, or refused, into an output that is filled before, and it has these numbers after.
fn assert_list(
    one: &dyn Implementation,
    (file, state, list): (&[u8], u16, &[u16]),
    length: usize,
    answer: Result<&[u16], NotPlaced>,
) {
    let mut first = vec![9999; length];
    let mut after = first.clone();
    let told = one.place_all(file, state, &devices(list), &mut first);
    assert_eq!(told, answer.map(|_| ()), "{}", one.name());
    let written = answer.unwrap_or(&[]);
    after[..written.len()].copy_from_slice(written);
    assert_eq!(first, after, "{}", one.name());
}

fn not_placed<T>(number: u8, step: u16, place: Option<usize>) -> Result<T, NotPlaced> {
    let refusal = Refusal { number, step };
    Err(NotPlaced { refusal, place })
}

#[test]
fn w4_places_a_list_in_one_call() {
    let file = &w4(vec![]);
    for one in implementations() {
        assert_list(one, (file, 0, &[0, 1, 2, 3]), 4, Ok(&[0, 2, 1, 3]));
        assert_list(one, (file, 0, &[1, 3, 1]), 7, Ok(&[2, 3, 2]));
        assert_list(one, (file, 0, &[]), 0, Ok(&[]));
        assert_list(one, (file, 0, &[]), 2, Ok(&[]));
        assert_list(one, (&w1(), 0, &[3, 1]), 5, Ok(&[2, 2, 0, 2]));
        assert_list(one, (&w1(), 1, &[3, 1]), 4, Ok(&[2, 0, 0, 0]));
    }
}

#[test]
fn a_list_is_refused_at_the_first_device_that_is_not_there() {
    let file = &w4(vec![]);
    let outer = &w4(vec![Step::Gather(lists(&[&[1]]))]);
    for one in implementations() {
        assert_list(one, (file, 0, &[4]), 1, not_placed(32, 0, Some(0)));
        let two = (&file[..], 0, &[0, 3, 65535, 1, 4][..]);
        assert_list(one, two, 9, not_placed(32, 0, Some(2)));
        // A short output before that, then the state, then the file.
        assert_list(one, two, 4, not_placed(33, 0, None));
        assert_list(one, (&w1(), 0, &[0, 1]), 3, not_placed(33, 0, None));
        assert_list(one, (file, 1, two.2), 4, not_placed(34, 0, None));
        assert_list(one, (file, 1, &[]), 0, not_placed(34, 0, None));
        assert_list(one, (outer, 9, two.2), 0, not_placed(24, 1, None));
    }
}

#[test]
fn w5_gathers_by_the_order_of_the_list() {
    let file = w4(vec![Step::Gather(lists(&[&[1, 0]]))]);
    for one in implementations() {
        let state = [10, 20, 30, 40].repeat(4);
        assert_run(one, &file, &[10, 30, 20, 40], &state);
    }
}

#[test]
fn w6_gathers_only_the_tail() {
    let inner = w4(vec![Step::Gather(lists(&[&[0]]))]);
    let outer = w4(vec![Step::Gather(lists(&[&[1]]))]);
    for one in implementations() {
        let state = [10, 20, 30, 40, 10, 20, 30, 40];
        assert_run(one, &inner, &[10, 30, 20, 40], &state);
        assert_eq!(one.check(&outer), refusal(24, 1));
        let (mut work, mut spare) = ([5; 16], [6; 16]);
        assert_eq!(one.run(&outer, &mut work, &mut spare), refusal(24, 1));
        assert_eq!((work, spare), ([5; 16], [6; 16]));
    }
}

#[test]
fn two_gathers_after_each_other_are_one() {
    let steps = [[0], [1]].map(|axis| Step::Gather(lists(&[&axis])));
    let file = w4(steps.to_vec());
    for one in implementations() {
        assert_run(one, &file, &[10, 30, 20, 40], &[10, 20, 30, 40].repeat(4));
    }
}

#[test]
fn w7_adds_the_shards_of_a_group() {
    for one in implementations() {
        let file = w7(&[0]).encode();
        assert_run(one, &file, &[1, 2, 5, 6], &[6, 8, 6, 8]);
        assert_run(one, &file, &[u32::MAX, 0, 2, 0], &[1, 0, 1, 0]);
    }
    assert_eq!(w7(&[0]).factor(), 1);
}

#[test]
fn w8_moves_an_axis_between_dimensions() {
    let draft = Draft {
        mesh: vec![2],
        table: vec![2, 2],
        start: lists(&[&[0], &[]]),
        steps: vec![Step::AllToAll(Dim(0), Dim(1), axes(&[0]))],
        ..Draft::default()
    };
    for one in implementations() {
        assert_run(one, &draft.encode(), &[1, 2, 3, 4], &[1, 3, 2, 4]);
    }
}

#[test]
fn w9_divides_the_dimension() {
    for one in implementations() {
        assert_eq!(one.check(&resting(4, 6, &[0]).encode()), refusal(17, 0));
        assert!(one.check(&resting(4, 8, &[0]).encode()).is_ok());
    }
}

#[test]
fn w10_passes_and_doubles_the_table() {
    let draft = w7(&[]);
    for one in implementations() {
        let checked = one.check(&draft.encode()).expect("accepted");
        assert_eq!((checked.room, checked.steps), (4, 1));
        assert!(checked.sharding.unreduced.is_empty());
        assert_run(one, &draft.encode(), &[1, 2, 1, 2], &[2, 4, 2, 4]);
        // Words that are no faithful spread are added as they are.
        assert_run(one, &draft.encode(), &[1, 2, 5, 6], &[6, 8, 6, 8]);
    }
    assert_eq!(draft.factor(), 2);
}

#[test]
fn every_reduction_along_a_replicated_axis_multiplies() {
    let one_word = Draft {
        table: vec![1],
        ..w7(&[])
    };
    let twice = one_word.with_steps(vec![Step::Reduce(axes(&[0])); 2]);
    for one in implementations() {
        assert_run(one, &one_word.encode(), &[7, 7], &[14, 14]);
        assert_run(one, &twice.encode(), &[7, 7], &[28, 28]);
        // The factor counts modulo 2^32, as the words do.
        assert_run(one, &twice.encode(), &[1 << 30, 1 << 30], &[0, 0]);
    }
    assert_eq!((one_word.factor(), twice.factor()), (2, 4));
}

#[test]
fn an_all_reduce_names_no_axis_that_splits_or_is_to_stay_replicated() {
    let refused = [
        (reducing(&[1], &[], &[], &[&[1]]), 1),
        (reducing(&[], &[], &[1], &[&[1]]), 1),
        // Beside an axis that may be reduced, before it and behind it.
        (reducing(&[1], &[], &[], &[&[0, 1]]), 1),
        (reducing(&[1], &[0], &[], &[&[0, 1]]), 1),
        (reducing(&[], &[1], &[0], &[&[0, 1]]), 1),
        // In a later step.
        (reducing(&[0], &[1], &[], &[&[1], &[1], &[0, 1]]), 3),
    ];
    for (draft, step) in refused {
        for one in implementations() {
            assert_eq!(one.check(&draft.encode()), refusal(27, step));
        }
    }
    // The order is judged first.
    for one in implementations() {
        let unsorted = reducing(&[1], &[], &[], &[&[1, 0]]);
        assert_eq!(one.check(&unsorted.encode()), refusal(26, 1));
    }
}

#[test]
fn unreduced_axes_and_axes_that_nothing_names_are_reduced_together() {
    for one in implementations() {
        let both = reducing(&[], &[0], &[], &[&[0, 1]]).encode();
        let checked = one.check(&both).expect("accepted");
        assert!(checked.sharding.unreduced.is_empty());
        let other = reducing(&[], &[0], &[], &[&[1]]).encode();
        let checked = one.check(&other).expect("accepted");
        assert_eq!(*checked.sharding.unreduced, axes(&[0]));
        // The word of a column is 1 and 4: parts of 5, three times.
        let words = [[1; 18], [4; 18]].concat();
        assert_run(one, &both, &words, &[15; 36]);
        assert_run(one, &other, &words, &[[3; 18], [12; 18]].concat());
    }
}

#[test]
fn the_factor_counts_the_axes_that_were_replicated_just_before() {
    let factor = |unreduced: &[u8], reduced: &[&[u8]]| {
        let draft = reducing(&[], unreduced, &[], reduced);
        draft.factor()
    };
    assert_eq!(factor(&[], &[&[0, 1]]), 6);
    assert_eq!(factor(&[0], &[&[0, 1]]), 3);
    assert_eq!(factor(&[1], &[&[0, 1]]), 2);
    assert_eq!(factor(&[0, 1], &[&[0, 1]]), 1);
    // Unreduced at the first of three, replicated at the others.
    assert_eq!(factor(&[1], &[&[1], &[1], &[0, 1]]), 18);
    assert_eq!(factor(&[0, 1], &[&[0], &[1]]), 1);
    // An axis that was gathered is replicated, and so is one that was scattered and gathered.
    let gather = Step::Gather(lists(&[&[1]]));
    let reduce = Step::Reduce(axes(&[1]));
    let split = reducing(&[1], &[], &[], &[]);
    let gathered = split.with_steps(vec![gather.clone(), reduce.clone()]);
    let scatter = Step::Scatter(lists(&[&[1]]));
    let owed = reducing(&[], &[1], &[], &[]);
    let scattered = owed.with_steps(vec![scatter, gather, reduce]);
    assert_eq!((gathered.factor(), scattered.factor()), (3, 3));
}

#[test]
fn the_largest_mesh_and_table_pass() {
    let square = |mesh, rows, columns| {
        let mut draft = resting(mesh, rows, &[]);
        draft.table.push(columns);
        draft.start.push(vec![]);
        draft
    };
    for one in implementations() {
        let room = |draft: Draft| one.check(&draft.encode()).map(|checked| checked.room);
        assert_eq!(room(resting(256, 4096, &[])), Ok(1_048_576));
        assert_eq!(room(resting(257, 4097, &[])), Ok(257 * 4097));
        assert_eq!(room(resting(1024, 65535, &[])), Ok(1024 * 65535));
        assert_eq!(room(square(1024, 256, 256)), Ok(67_108_864));
        assert_eq!(room(resting(1025, 4096, &[])), refusal(11, 0));
        assert_eq!(room(square(256, 256, 257)), refusal(13, 0));
        assert_eq!(room(square(256, 65535, 2)), refusal(13, 0));
    }
}

#[test]
fn the_longest_file_is_read_to_its_end() {
    for (bytes, number) in [(8192, 9), (8193, 2)] {
        let mut file = w1();
        file.resize(bytes, 0);
        mend_length(&mut file);
        for one in implementations() {
            assert_eq!(one.check(&file), refusal(number, 0));
        }
    }
}

#[test]
fn sixty_four_steps_pass() {
    let slice = Step::Slice(lists(&[&[0]]));
    let gather = Step::Gather(lists(&[&[0]]));
    let mut draft = resting(2, 2, &[]);
    draft.steps = vec![[slice.clone(), gather]; 32].concat();
    for one in implementations() {
        assert_eq!(one.check(&draft.encode()).expect("accepted").steps, 64);
        let mut longer = draft.clone();
        longer.steps.push(slice.clone());
        assert_eq!(one.check(&longer.encode()), refusal(5, 0));
    }
}

#[test]
fn an_unreduced_axis_is_not_sliced() {
    let mut draft = resting(2, 2, &[]);
    draft.unreduced = axes(&[0]);
    draft.steps = vec![Step::Slice(lists(&[&[0]]))];
    for one in implementations() {
        assert_eq!(one.check(&draft.encode()), refusal(23, 1));
    }
}

/// A mesh of 2x2x2x2 and a table of 16 with this start.
fn on_mesh_2x2x2x2(start: &[u8], unreduced: &[u8], replicated: &[u8]) -> Draft {
    Draft {
        mesh: vec![2; 4],
        table: vec![16],
        start: lists(&[start]),
        unreduced: axes(unreduced),
        replicated: axes(replicated),
        ..Draft::default()
    }
}

#[test]
fn no_step_changes_the_replicated_list() {
    let mut draft = on_mesh_2x2x2x2(&[2], &[3], &[0, 1]);
    draft.steps = vec![
        Step::Gather(lists(&[&[2]])),
        Step::Reduce(axes(&[3])),
        Step::Slice(lists(&[&[3, 2]])),
    ];
    for one in implementations() {
        for state in 0..=3 {
            let placed = one.place(&draft.encode(), state, Device(15));
            assert_eq!(*placed.expect("placed").sharding.replicated, axes(&[0, 1]));
        }
    }
}

#[test]
fn an_axis_that_is_to_stay_replicated_is_in_no_step() {
    let mut draft = on_mesh_2x2x2x2(&[2], &[3], &[0, 1]);
    let steps = [
        (Step::Slice(lists(&[&[1]])), 23),
        (Step::Gather(lists(&[&[1]])), 24),
        (Step::Reduce(axes(&[1])), 27),
    ];
    for (step, number) in steps {
        draft.steps = vec![step];
        for one in implementations() {
            assert_eq!(one.check(&draft.encode()), refusal(number, 1));
        }
    }
}

#[test]
fn the_replicated_list_is_judged_axis_by_axis() {
    let cases: [([&[u8]; 3], u8); 9] = [
        ([&[2], &[], &[0, 2]], 15),
        ([&[], &[2], &[0, 2]], 15),
        ([&[], &[], &[2, 2]], 15),
        ([&[3], &[], &[2, 3, 1]], 15),
        ([&[], &[], &[2, 1]], 16),
        ([&[3], &[], &[2, 1, 3]], 16),
        ([&[], &[1, 0], &[4]], 16),
        ([&[], &[], &[4]], 14),
        ([&[], &[], &[1, 4, 0]], 14),
    ];
    for one in implementations() {
        for ([start, unreduced, replicated], number) in cases {
            let draft = on_mesh_2x2x2x2(start, unreduced, replicated);
            assert_eq!(one.check(&draft.encode()), refusal(number, 0));
        }
        // Each list begins anew.
        let draft = on_mesh_2x2x2x2(&[3], &[2], &[0, 1]);
        assert!(one.check(&draft.encode()).is_ok());
    }
}

#[test]
fn a_plan_has_one_edition() {
    let free = on_mesh_2x2x2x2(&[0], &[], &[]);
    let kept = on_mesh_2x2x2x2(&[0], &[], &[1]);
    let mut uneven = free.clone();
    uneven.table = vec![3];
    for one in implementations() {
        let answer = |draft: &Draft, edition| one.check(&draft.encode_as(edition)).map(|_| ());
        assert_eq!(answer(&free, 1), Ok(()));
        assert_eq!(answer(&free, 2), refusal(18, 0));
        assert_eq!(answer(&uneven, 2), refusal(17, 0));
        assert_eq!(answer(&kept, 2), Ok(()));
        for edition in [0, 4, 257, 258, 259] {
            assert_eq!(answer(&kept, edition), refusal(3, 0));
        }
        // The list stands before the steps, whose offset tells whether it was to be there.
        let mut file = kept.encode();
        file[0] = 1;
        assert_eq!(one.check(&file), refusal(6, 0));
    }
}

/// The order of document 02's case, on a mesh of 3x2.
const CABLED: [u16; 6] = [0, 2, 4, 1, 3, 5];

/// Document 02's mesh and order, a table of 6x2 with this start, and a step.
fn on_mesh_3x2(start: &[&[u8]], unreduced: &[u8], step: Step) -> Draft {
    Draft {
        mesh: vec![3, 2],
        order: devices(&CABLED),
        table: vec![6, 2],
        start: lists(start),
        unreduced: axes(unreduced),
        steps: vec![step],
        ..Draft::default()
    }
}

#[test]
fn a_listing_by_an_order_has_its_numbers() {
    let cases: [(&[u8], [u16; 6]); 4] = [
        (&[1], [0, 2, 4, 1, 3, 5]),
        (&[0], [0, 4, 3, 2, 1, 5]),
        (&[1, 0], [0, 4, 3, 2, 1, 5]),
        (&[], [0, 2, 4, 1, 3, 5]),
    ];
    for one in implementations() {
        for (list, listed) in cases {
            let mut out = [Device(77); 7];
            let answer = one.groups_ordered(&[3, 2], &devices(&CABLED), &axes(list), &mut out);
            assert_eq!((answer, &out[..6]), (Ok(()), &listed.map(Device)[..]));
            assert_eq!(out[6], Device(77));
        }
    }
}

#[test]
fn a_listing_by_an_order_judges_it_after_the_mesh() {
    // Refused before the axes, of which there is none with this number.
    let cases: [(&[u16], &[u16], u8); 11] = [
        (&[], &[], 5),
        (&[1; 7], &[], 5),
        (&[3, 0], &[], 10),
        (&[1025], &[], 11),
        (&[3, 2], &[], 19),
        (&[3, 2], &[0, 2, 4, 1, 3], 19),
        (&[3, 2], &[0, 2, 4, 1, 3, 5, 6], 19),
        (&[3, 2], &[0, 1, 2, 3, 4, 5], 19),
        (&[3, 2], &[0, 2, 4, 1, 3, 4], 19),
        (&[3, 2], &[0, 2, 4, 1, 3, 6], 19),
        (&[1], &[0], 19),
    ];
    let cases = cases.map(|(mesh, order, number)| (mesh, order, &[9][..], 0, number));
    let after: [(&[u8], usize, u8); 3] = [(&[1, 2, 1], 0, 14), (&[1, 1, 2], 0, 15), (&[1], 5, 33)];
    let after =
        after.map(|(list, length, number)| (&[3, 2][..], &CABLED[..], list, length, number));
    for one in implementations() {
        for (mesh, order, list, length, number) in cases.into_iter().chain(after) {
            let mut out = vec![Device(77); length];
            let answer = one.groups_ordered(mesh, &devices(order), &axes(list), &mut out);
            assert_eq!(answer, refusal(number, 0), "{order:?}");
            assert!(out.iter().all(|&entry| entry == Device(77)));
        }
    }
}

#[test]
fn a_device_is_placed_where_the_order_lists_it() {
    let mut draft = on_mesh_3x2(&[&[0], &[1]], &[], Step::Gather(lists(&[&[0], &[]])));
    let firsts = |one: &dyn Implementation, draft: &Draft, state| {
        [0, 1, 2, 3, 4, 5].map(|device| {
            let placed = one.place(&draft.encode(), state, Device(device));
            let first = placed.expect("placed").first;
            (first[0], first[1])
        })
    };
    for one in implementations() {
        let start = [(0, 0), (2, 1), (0, 1), (4, 0), (2, 0), (4, 1)];
        assert_eq!(firsts(one, &draft, 0), start);
        let after = [(0, 0), (0, 1), (0, 1), (0, 0), (0, 0), (0, 1)];
        assert_eq!(firsts(one, &draft, 1), after);
        assert_eq!(one.place(&draft.encode(), 0, Device(6)), refusal(32, 0));
        let list = (&draft.encode()[..], 0, &[5, 1, 4, 1, 6][..]);
        assert_list(one, list, 10, not_placed(32, 0, Some(4)));
        let list = (list.0, 0, &list.2[..4]);
        assert_list(one, list, 9, Ok(&[4, 1, 2, 1, 2, 0, 2, 1]));
    }
    // W4's mesh with an order that is not its own inverse.
    draft.mesh = vec![2, 2];
    draft.order = devices(&[2, 0, 3, 1]);
    draft.table = vec![4];
    draft.start = lists(&[&[1, 0]]);
    draft.steps.clear();
    for one in implementations() {
        let first = |device| {
            one.place(&draft.encode(), 0, Device(device))
                .map(|at| at.first[0])
        };
        assert_eq!([0, 1, 2, 3].map(first), [2, 3, 0, 1].map(Ok));
    }
}

#[test]
fn shards_lie_by_device_number() {
    let words: Vec<u32> = (1..=72).collect();
    let of = |device: u32, words: u32| device * words + 1..=(device + 1) * words;
    let joined = |group: &[u32]| -> Vec<u32> { group.iter().flat_map(|&d| of(d, 4)).collect() };
    let (left, right) = (joined(&[0, 4, 3]), joined(&[2, 1, 5]));
    let gather = on_mesh_3x2(&[&[0], &[]], &[], Step::Gather(lists(&[&[0], &[]])));
    let gathered = [&left, &right, &right, &left, &left, &right].map(|shard| shard.clone());
    // Devices 0 and 2, 4 and 1, 3 and 5 are in one row.
    let reduce = on_mesh_3x2(&[&[], &[]], &[1], Step::Reduce(axes(&[1])));
    let sum = |one: u32, other: u32| of(one, 12).zip(of(other, 12)).map(|(a, b)| a + b);
    let rows = [(0, 2), (4, 1), (0, 2), (3, 5), (4, 1), (3, 5)];
    let reduced = rows.map(|(one, other)| sum(one, other).collect::<Vec<u32>>());
    // Device 4 is in row 1, column 0: it keeps rows 2 and 3 of the table, and column 0 of them.
    let slice = on_mesh_3x2(&[&[], &[]], &[], Step::Slice(lists(&[&[0], &[1]])));
    let sliced = vec![1, 3, 18, 20, 26, 28, 45, 47, 53, 55, 70, 72];
    let to_all = Draft {
        mesh: vec![3],
        order: devices(&[1, 2, 0]),
        table: vec![3, 3],
        start: lists(&[&[0], &[]]),
        steps: vec![Step::AllToAll(Dim(0), Dim(1), axes(&[0]))],
        ..Draft::default()
    };
    for one in implementations() {
        assert_run(one, &gather.encode(), &words[..24], &gathered.concat());
        assert_run(one, &reduce.encode(), &words, &reduced.concat());
        assert_run(one, &slice.encode(), &words, &sliced);
        let columns = [6, 9, 3, 4, 7, 1, 5, 8, 2];
        assert_run(one, &to_all.encode(), &words[..9], &columns);
        assert_run(one, &to_all.prefix(0).encode(), &words[..9], &words[..9]);
    }
}

#[test]
fn an_order_is_a_rearrangement_and_not_the_plain_one() {
    let mut draft = on_mesh_3x2(&[&[0], &[]], &[], Step::Bytes(vec![0]));
    for one in implementations() {
        draft.order = devices(&CABLED);
        assert_eq!(one.check(&draft.encode()), refusal(20, 1));
        for order in [
            [0, 1, 2, 3, 4, 5],
            [0, 2, 4, 1, 3, 3],
            [0, 2, 4, 1, 3, 6],
            [0, 2, 4, 1, 3, 256],
            [6, 5, 4, 3, 2, 1],
        ] {
            draft.order = devices(&order);
            let mut file = draft.encode();
            assert_eq!(one.check(&file), refusal(19, 0));
            // Before the table's offset and its bytes, and after its own.
            file[10] ^= 1;
            assert_eq!(one.check(&file), refusal(19, 0));
            file.truncate(34);
            mend_length(&mut file);
            assert_eq!(one.check(&file), refusal(19, 0));
            file.truncate(33);
            mend_length(&mut file);
            assert_eq!(one.check(&file), refusal(7, 0));
            file[20] = 0;
            assert_eq!(one.check(&file), refusal(10, 0));
        }
        let mut alone = resting(1, 4, &[]);
        alone.order = devices(&[0]);
        assert_eq!(one.check(&alone.encode()), refusal(19, 0));
    }
}

#[test]
fn the_replicated_list_of_edition_3_may_be_empty() {
    let mut draft = on_mesh_3x2(&[&[0], &[]], &[], Step::Gather(lists(&[&[0], &[]])));
    for one in implementations() {
        for replicated in [vec![], axes(&[1])] {
            draft.replicated = replicated.clone();
            assert_eq!(draft.encode()[0], 3);
            let checked = one.check(&draft.encode()).expect("accepted");
            assert_eq!((checked.devices, checked.room), (6, 72));
            assert_eq!(*checked.sharding.replicated, replicated);
        }
        for edition in [1, 2] {
            let mut file = draft.encode();
            file[0] = edition;
            assert_eq!(one.check(&file), refusal(6, 0));
        }
    }
}

#[test]
fn the_present_shard_size_has_to_divide() {
    // The dimension, 4, could be divided by 4, but its shards of 2 cannot.
    let draft = Draft {
        mesh: vec![2, 4],
        table: vec![4],
        start: lists(&[&[0]]),
        steps: vec![Step::Slice(lists(&[&[1]]))],
        ..Draft::default()
    };
    for one in implementations() {
        assert_eq!(one.check(&draft.encode()), refusal(25, 1));
    }
}

#[test]
fn a_run_without_steps_only_clears() {
    let file = resting(2, 2, &[0]).encode();
    for one in implementations() {
        assert_run(one, &file, &[3, 4], &[3, 4]);
    }
}

#[test]
fn short_buffers_are_refused_and_stay() {
    for one in implementations() {
        let (mut work, mut spare) = (vec![1; 31], vec![2; 31]);
        assert_eq!(one.run(&w1(), &mut work, &mut spare), refusal(30, 0));
        assert_eq!((&work, &spare), (&vec![1; 31], &vec![2; 31]));
        work.push(1);
        assert_eq!(one.run(&w1(), &mut work, &mut spare), refusal(31, 0));
        assert_eq!((&work, &spare), (&vec![1; 32], &vec![2; 31]));
    }
}

#[test]
fn a_listing_judges_sizes_and_axes_in_turn() {
    let cases: [(&[u16], &[u8], usize, u8); 7] = [
        (&[], &[9], 0, 5),
        (&[1; 7], &[], 0, 5),
        (&[1025, 0], &[9], 0, 11),
        (&[0, 1025], &[9], 0, 10),
        (&[2, 3], &[0, 2, 0], 0, 14),
        (&[2, 3], &[0, 0, 2], 0, 15),
        (&[2, 3], &[1], 5, 33),
    ];
    for one in implementations() {
        for (mesh, list, length, number) in cases {
            let mut out = vec![Device(77); length];
            let answer = one.groups(mesh, &axes(list), &mut out);
            assert_eq!(answer, refusal(number, 0));
            assert!(out.iter().all(|&entry| entry == Device(77)));
        }
    }
}
