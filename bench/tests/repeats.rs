//! The repeats of document 02, Ask 11: their bytes, the order of their refusals, step and state
//! numbers, the room, the limits and the runs.

use bench::answers::{Device, Dim, Refusal};
use bench::plans::{axes, devices, lists, mend_length, Draft, Step};
use bench::reference::{self, Limits};
use bench::{blocks, hex, implementations, Implementation};

fn refusal<T>(number: u8, step: u16) -> Result<T, Refusal> {
    Err(Refusal { number, step })
}

/// A mesh of 2 and a table of 2 that no axis splits, with these steps.
fn plan(steps: Vec<Step>) -> Draft {
    Draft {
        mesh: vec![2],
        table: vec![2],
        start: lists(&[&[]]),
        steps,
        ..Draft::default()
    }
}

/// A mesh of 2x2 and a table of 4 with this start and these steps.
fn square(start: &[u8], unreduced: &[u8], steps: Vec<Step>) -> Draft {
    Draft {
        mesh: vec![2, 2],
        table: vec![4],
        start: lists(&[start]),
        unreduced: axes(unreduced),
        steps,
        ..Draft::default()
    }
}

fn slice(list: &[u8]) -> Step {
    Step::Slice(lists(&[list]))
}

fn gather(list: &[u8]) -> Step {
    Step::Gather(lists(&[list]))
}

fn bytes(bytes: &[u8]) -> Step {
    Step::Bytes(bytes.to_vec())
}

fn repeat(count: u8, block: Vec<Step>) -> Step {
    Step::Repeat(count, block)
}

/// A slice by axis 0 and the gather back, so many times after each other.
fn pairs(times: usize) -> Vec<Step> {
    vec![[slice(&[0]), gather(&[0])]; times].concat()
}

/// A gather of axis 0 and the slice back, so many times after each other.
fn pairs_back(times: usize) -> Vec<Step> {
    vec![[gather(&[0]), slice(&[0])]; times].concat()
}

/// Repeats in each other, so deep, around these steps.
fn nested(depth: usize, innermost: Vec<Step>) -> Vec<Step> {
    (0..depth).fold(innermost, |block, _| vec![repeat(1, block)])
}

/// A block that runs so many plain steps, which is even.
fn even(runs: usize) -> Step {
    if runs <= 510 {
        return repeat((runs / 2) as u8, pairs(1));
    }
    let block = repeat((runs / 32) as u8, pairs(1));
    repeat(16, vec![block])
}

fn assert_refused(draft: &Draft, number: u8, step: u16) {
    for one in implementations() {
        let answer = one.check(&draft.encode());
        assert_eq!(answer, refusal(number, step), "{}", one.name());
        let (mut work, mut spare) = ([5; 64], [6; 64]);
        let ran = one.run(&draft.encode(), &mut work, &mut spare);
        assert_eq!(ran, refusal(number, step), "{}", one.name());
        assert_eq!((work, spare), ([5; 64], [6; 64]));
        let placed = one.place(&draft.encode(), 0, Device(0));
        assert_eq!(placed, refusal(number, step), "{}", one.name());
    }
}

fn assert_accepted(draft: &Draft, steps: u16) {
    for one in implementations() {
        let checked = one.check(&draft.encode());
        assert_eq!(checked.map(|at| at.steps), Ok(steps), "{}", one.name());
    }
}

/// Runs in buffers longer than the room and compares the state; all words behind it have to be 0.
fn assert_run(draft: &Draft, words: &[u32], state: &[u32]) {
    let file = draft.encode();
    for one in implementations() {
        let room = one.check(&file).expect("accepted").room as usize;
        let (mut work, mut spare) = (vec![7; room + 3], vec![9; room + 1]);
        work[..words.len()].copy_from_slice(words);
        one.run(&file, &mut work, &mut spare).expect("a run");
        assert_eq!(work[..state.len()], *state, "{}", one.name());
        let rest = work[state.len()..].iter().chain(&spare);
        assert!(rest.into_iter().all(|&word| word == 0), "{}", one.name());
    }
}

#[test]
fn the_bytes_of_a_repeat() {
    let file = "01 00 01 00 01 00 01 00 12 00 14 00 16 00 18 00 21 00 | 02 00 | 02 00 | 00 00 \
                | 09 03 02 | 01 01 00 | 02 01 00";
    let draft = plan(vec![repeat(3, pairs(1))]);
    assert_eq!(draft.encode(), hex::parse(file).expect("hex"));
    for one in implementations() {
        let checked = one.check(&draft.encode()).expect("accepted");
        assert_eq!((checked.room, checked.devices, checked.steps), (4, 2, 1));
        let shards = one.shards(&draft.encode()).expect("accepted");
        let shards: Vec<u16> = shards.iter().map(|shard| shard[0]).collect();
        assert_eq!(shards, [2, 2]);
    }
}

#[test]
fn a_count_or_number_of_0_is_judged_when_its_byte_is_read() {
    let cases: [(&[u8], u8); 8] = [
        (&[9, 0], 44),
        (&[9, 0, 0], 44),
        (&[9, 0, 1, 1, 1, 0], 44),
        (&[9, 1, 0], 44),
        (&[9, 255, 0, 77], 44),
        (&[9], 7),
        (&[9, 1], 7),
        (&[9, 1, 1], 7),
    ];
    for (repeat, number) in cases {
        let step = if number == 44 { 1 } else { 0 };
        assert_refused(&plan(vec![bytes(repeat)]), number, step);
        // Inside blocks down to a depth of 4, behind two steps.
        for depth in 1..=3 {
            let inner = [pairs(1), vec![bytes(repeat)]].concat();
            let at = step * (depth as u16 + 3);
            assert_refused(&plan(nested(depth, inner)), number, at);
        }
    }
}

#[test]
fn repeats_nest_to_a_depth_of_4() {
    for depth in 1..=4 {
        assert_accepted(&plan(nested(depth, pairs(1))), 1);
    }
    assert_refused(&plan(nested(5, pairs(1))), 42, 5);
    assert_refused(&plan(nested(6, pairs(1))), 42, 5);
    let behind = [pairs(1), nested(1, pairs(1))].concat();
    assert_refused(&plan(nested(4, behind)), 42, 7);
    // Repeats after each other are not deeper.
    let beside = vec![repeat(1, pairs(1)); 5];
    assert_accepted(&plan(nested(3, beside.clone())), 1);
    assert_refused(&plan(nested(4, beside)), 42, 5);
}

#[test]
fn depth_is_tested_after_both_bytes_and_before_the_inner_steps() {
    let cases: [(&[u8], u8, u16); 9] = [
        (&[9], 7, 0),
        (&[9, 1], 7, 0),
        (&[9, 0], 44, 5),
        (&[9, 0, 1], 44, 5),
        (&[9, 1, 0], 44, 5),
        (&[9, 1, 1], 42, 5),
        (&[9, 255, 255], 42, 5),
        (&[9, 1, 1, 77], 42, 5),
        (&[9, 1, 1, 9, 0], 42, 5),
    ];
    for (fifth, number, step) in cases {
        assert_refused(&plan(nested(4, vec![bytes(fifth)])), number, step);
    }
}

#[test]
fn a_block_ends_in_the_sharding_that_it_begins_with() {
    assert_refused(&plan(vec![repeat(1, vec![slice(&[0])])]), 41, 1);
    // At the repeat's number, after its inner steps.
    let behind = [pairs(1), vec![repeat(2, vec![slice(&[0])])]].concat();
    assert_refused(&plan(behind), 41, 3);
    let inner = vec![repeat(1, vec![slice(&[0])]), gather(&[0])];
    assert_refused(&plan(vec![repeat(1, inner)]), 41, 2);
    let outer = vec![repeat(1, pairs(1)), slice(&[0])];
    assert_refused(&plan(vec![repeat(1, outer)]), 41, 1);
    // An inner step that is refused comes first, and so do bytes that are missing.
    let refused = vec![slice(&[0]), slice(&[0])];
    assert_refused(&plan(vec![repeat(1, refused)]), 23, 3);
    let cut = bytes(&[9, 1, 2, 1, 1, 0]);
    assert_refused(&plan(vec![cut]), 7, 0);
}

#[test]
fn shardings_are_compared_list_for_list() {
    // The same axes and shard sizes in another order.
    let turned = vec![gather(&[0, 1]), slice(&[1, 0])];
    assert_refused(
        &square(&[0, 1], &[], vec![repeat(1, turned.clone())]),
        41,
        1,
    );
    // Turned twice in one pass they are as before.
    let back = vec![gather(&[1, 0]), slice(&[0, 1])];
    let twice = [turned, back].concat();
    assert_accepted(&square(&[0, 1], &[], vec![repeat(1, twice)]), 1);
    // On another dimension.
    let to_all = Draft {
        table: vec![4, 4],
        start: lists(&[&[0], &[]]),
        ..square(&[], &[], vec![])
    };
    let there = Step::AllToAll(Dim(0), Dim(1), axes(&[0]));
    assert_refused(&to_all.with_steps(vec![repeat(2, vec![there])]), 41, 1);
    // Only the unreduced list changes, and no step puts an axis back there.
    let reduce = vec![repeat(1, vec![Step::Reduce(axes(&[1]))])];
    assert_refused(&square(&[0], &[1], reduce), 41, 1);
    // The first pass alone could be run, and the second too.
    let once = vec![repeat(2, vec![Step::Reduce(axes(&[0]))])];
    assert_refused(&square(&[], &[0, 1], once.clone()), 41, 1);
    assert_accepted(&square(&[], &[1], once), 1);
}

#[test]
fn a_repeat_alone_runs_at_most_4096_plain_steps() {
    let rounds = |outer, inner| plan(vec![repeat(outer, vec![repeat(inner, pairs(1))])]);
    assert_eq!(rounds(16, 128).runs(), 4096);
    assert_accepted(&rounds(16, 128), 1);
    assert_refused(&rounds(17, 128), 43, 1);
    assert_refused(&rounds(16, 129), 43, 1);
    assert_accepted(&rounds(128, 16), 1);
    assert_refused(&rounds(129, 16), 43, 1);
    // One block of 32 plain steps.
    assert_accepted(&plan(vec![repeat(128, pairs(16))]), 1);
    assert_refused(&plan(vec![repeat(129, pairs(16))]), 43, 1);
    // More than 16 bits could count.
    assert_refused(&plan(vec![repeat(255, vec![repeat(255, pairs(8))])]), 43, 1);
    assert_refused(&plan(vec![repeat(64, vec![repeat(64, pairs(8))])]), 43, 1);
    let deep = |last| {
        repeat(
            4,
            vec![repeat(8, vec![repeat(8, vec![repeat(last, pairs(4))])])],
        )
    };
    assert_accepted(&plan(vec![deep(2)]), 1);
    assert_refused(&plan(vec![deep(3)]), 43, 1);
}

#[test]
fn an_inner_repeat_is_counted_alone_first() {
    // The inner block has 32 plain steps.
    let inner = |count, last| {
        let block = repeat(count, pairs_back(16));
        plan(vec![repeat(1, vec![slice(&[0]), block, last])])
    };
    assert_refused(&inner(129, gather(&[0])), 43, 3);
    // 4,096 in the inner one alone: the outer one runs two more.
    assert_refused(&inner(128, gather(&[0])), 43, 1);
    assert_accepted(&inner(127, gather(&[0])), 1);
    // The inner one is refused before the steps after it are read.
    assert_refused(&inner(129, bytes(&[77])), 43, 3);
    // 65,536, which 16 bits count as 0.
    let wide = repeat(64, vec![repeat(64, pairs_back(8))]);
    let around = repeat(1, vec![slice(&[0]), wide, gather(&[0])]);
    assert_refused(&plan(vec![around]), 43, 3);
}

#[test]
fn the_sharding_is_compared_before_the_steps_are_counted() {
    let elsewhere = [pairs(16), vec![slice(&[0])]].concat();
    assert_refused(&plan(vec![repeat(255, elsewhere)]), 41, 1);
    let both = vec![repeat(255, vec![repeat(255, pairs(1)), slice(&[0])])];
    assert_refused(&plan(both), 41, 1);
}

#[test]
fn the_plan_so_far_runs_at_most_4096_plain_steps() {
    let full = even(4096);
    assert_eq!((full.runs(), full.kinds()), (4096, 4));
    assert_accepted(&plan(vec![full.clone()]), 1);
    // At a plain step, and at a repeat, whose number is not that of its last inner step.
    assert_refused(&plan(vec![full.clone(), slice(&[0])]), 43, 5);
    assert_refused(&plan(vec![full.clone(), repeat(1, pairs(1))]), 43, 5);
    assert_refused(&plan(vec![slice(&[0]), gather(&[0]), full.clone()]), 43, 3);
    let nearly = even(4064);
    assert_accepted(&plan(vec![nearly.clone(), repeat(16, pairs(1))]), 2);
    assert_refused(&plan(vec![nearly.clone(), repeat(17, pairs(1))]), 43, 5);
    let room_for_two = [vec![nearly, repeat(15, pairs(1))], pairs(1)].concat();
    assert_accepted(&plan(room_for_two.clone()), 4);
    assert_refused(&plan([room_for_two, pairs(1)].concat()), 43, 10);
    // Each step is judged before it is counted, and counted before the next is read.
    assert_refused(&plan(vec![full.clone(), gather(&[0])]), 24, 5);
    assert_refused(&plan(vec![full.clone(), slice(&[0]), bytes(&[77])]), 43, 5);
    let elsewhere = repeat(1, vec![slice(&[0])]);
    assert_refused(&plan(vec![full, elsewhere]), 41, 5);
}

#[test]
fn step_numbers_count_kind_bytes() {
    let inner = repeat(2, pairs_back(1));
    let block = repeat(3, vec![slice(&[0]), inner, gather(&[0])]);
    assert_eq!(block.kinds(), 6);
    let after = |step: Step| plan(vec![slice(&[0]), gather(&[0]), block.clone(), step]);
    assert_refused(&after(bytes(&[0])), 20, 9);
    assert_refused(&after(gather(&[0])), 24, 9);
    assert_refused(&after(slice(&[])), 21, 9);
    assert_refused(&after(repeat(1, vec![slice(&[1])])), 22, 10);
    assert_refused(
        &after(repeat(1, vec![repeat(1, vec![slice(&[0])])])),
        41,
        10,
    );
    assert_refused(&after(bytes(&[9, 0])), 44, 9);
    assert_accepted(&after(slice(&[0])), 4);
    // Kinds next to a repeat's are none, inside a block too.
    for kind in [0, 6, 8, 10, 255] {
        assert_refused(&plan(vec![bytes(&[kind])]), 20, 1);
        assert_refused(&plan(vec![repeat(1, vec![bytes(&[kind])])]), 20, 2);
    }
}

#[test]
fn step_numbers_pass_a_byte() {
    let full = repeat(1, pairs(127));
    assert_eq!(full.kinds(), 255);
    let behind = |step| plan(vec![full.clone(), full.clone(), full.clone(), step]);
    assert_refused(&behind(gather(&[0])), 24, 766);
    assert_refused(&behind(bytes(&[9, 1, 0])), 44, 766);
    assert_refused(&behind(repeat(1, vec![slice(&[0])])), 41, 766);
    assert_refused(&behind(repeat(255, pairs(16))), 43, 766);
    assert_refused(
        &plan(nested(2, vec![repeat(1, pairs(127)), bytes(&[0])])),
        20,
        258,
    );
}

#[test]
fn states_count_outermost_steps() {
    let block = vec![slice(&[0]), slice(&[1]), gather(&[0, 1])];
    let steps = vec![repeat(5, block), slice(&[1]), repeat(2, pairs(1))];
    let draft = square(&[], &[], steps);
    for one in implementations() {
        let file = draft.encode();
        assert_eq!(file[6], 3);
        assert_eq!(one.check(&file).map(|checked| checked.steps), Ok(3));
        let shard = |state| one.place(&file, state, Device(3)).map(|at| at.shard[0]);
        assert_eq!([0, 1, 2, 3].map(shard), [4, 4, 2, 2].map(Ok));
        assert_eq!(shard(4), refusal(34, 0));
        let first = |state| one.place(&file, state, Device(3)).map(|at| at.first[0]);
        assert_eq!([0, 1, 2, 3].map(first), [0, 0, 2, 2].map(Ok));
    }
}

#[test]
fn sixty_four_outermost_steps_pass() {
    let blocks = vec![repeat(2, pairs(1)); 64];
    assert_accepted(&plan(blocks.clone()), 64);
    let more = [blocks, vec![slice(&[0])]].concat();
    assert_refused(&plan(more), 5, 0);
    // A block of as many inner steps as a byte counts, which the header does not count.
    let three = vec![slice(&[0]), slice(&[1]), gather(&[0, 1])];
    let block = [three, pairs(126)].concat();
    assert_eq!(block.len(), 255);
    assert_accepted(&square(&[], &[], vec![repeat(16, block)]), 1);
}

#[test]
fn the_room_counts_states_inside_blocks() {
    let whole = |count| repeat(count, vec![gather(&[0, 1]), slice(&[0, 1])]);
    let inside = |count| square(&[0, 1], &[], vec![whole(count)]);
    let inner = repeat(1, pairs_back(1));
    let deep = vec![repeat(1, vec![gather(&[1]), inner, slice(&[1])])];
    for one in implementations() {
        let room = |draft: &Draft| one.check(&draft.encode()).map(|checked| checked.room);
        assert_eq!(room(&inside(1)), Ok(16));
        assert_eq!(room(&inside(255)), Ok(16));
        assert_eq!(room(&square(&[0, 1], &[], deep.clone())), Ok(16));
        assert_eq!(room(&square(&[0, 1], &[], vec![])), Ok(4));
        let (mut work, mut spare) = ([5; 15], [6; 16]);
        let answer = one.run(&inside(1).encode(), &mut work, &mut spare);
        assert_eq!((answer, work, spare), (refusal(30, 0), [5; 15], [6; 16]));
        let answer = one.run(&inside(1).encode(), &mut spare, &mut work);
        assert_eq!((answer, work, spare), (refusal(31, 0), [5; 15], [6; 16]));
    }
}

#[test]
fn bytes_left_after_the_last_block() {
    let mut file = plan(vec![repeat(2, pairs(1))]).encode();
    file.push(9);
    mend_length(&mut file);
    for one in implementations() {
        assert_eq!(one.check(&file), refusal(9, 0));
    }
    // One inner step fewer than there are makes a step of the last one.
    let mut file = plan(vec![repeat(1, [pairs(1), pairs(1)].concat())]).encode();
    file[26] = 2;
    for one in implementations() {
        assert_eq!(one.check(&file), refusal(9, 0));
    }
    file[6] = 3;
    for one in implementations() {
        assert_eq!(one.check(&file).map(|checked| checked.steps), Ok(3));
    }
}

#[test]
fn blocks_are_run() {
    // Shards that are not equal: a slice keeps the piece of each device, and the gather joins these.
    for count in [1, 2, 3, 255] {
        let draft = plan(vec![repeat(count, pairs(1))]);
        assert_run(&draft, &[1, 2, 3, 4], &[1, 4, 1, 4]);
    }
    let (first, second) = (vec![1, 2, 3, 4], vec![5, 6, 7, 8]);
    let (third, fourth) = (vec![9, 10, 11, 12], vec![13, 14, 15, 16]);
    let words = [first, second, third, fourth].concat();
    // Three moves in a block: after an odd number of passes the words stand in the other buffer.
    for count in [1, 2, 3, 4] {
        let block = vec![slice(&[1]), slice(&[0]), gather(&[1, 0])];
        let draft = square(&[], &[], vec![repeat(count, block)]);
        assert_run(&draft, &words, &[1, 10, 7, 16].repeat(4));
    }
    // By axis 0 alone: devices 0 and 2 are a group, and 1 and 3.
    let draft = square(&[], &[], vec![repeat(3, pairs(1))]);
    let (even, odd) = ([1, 2, 11, 12], [5, 6, 15, 16]);
    assert_run(&draft, &words, &[even, odd, even, odd].concat());
}

#[test]
fn a_block_reduces_in_every_pass() {
    let reduce = Step::Reduce(axes(&[0]));
    for (count, factor) in [(1, 2), (2, 4), (3, 8), (31, 1 << 31), (32, 0), (255, 0)] {
        let draft = plan(vec![repeat(count, vec![reduce.clone()])]);
        let words = [7, 8, 7, 8].map(|word: u32| word.wrapping_mul(factor));
        assert_run(&draft, &[7, 8, 7, 8], &words);
        assert_eq!(draft.factor(), factor);
    }
    // Between a slice by one axis and the gather back, in a block inside a block.
    let inner = repeat(2, vec![slice(&[1]), reduce, gather(&[1])]);
    let draft = square(&[], &[], vec![repeat(3, vec![inner])]);
    assert_run(
        &draft,
        &[1, 2, 3, 4].repeat(4),
        &[64, 128, 192, 256].repeat(4),
    );
    assert_eq!(draft.factor(), 64);
}

#[test]
fn what_follows_a_block_is_run_once() {
    let reduce = Step::Reduce(axes(&[1]));
    let block = |count| repeat(count, pairs_back(1));
    let steps = vec![block(2), reduce, block(3), gather(&[0])];
    let draft = square(&[0], &[1], steps);
    let words = [1, 2, 10, 20, 3, 4, 30, 40];
    assert_run(&draft, &words, &[11, 22, 33, 44].repeat(4));
}

#[test]
fn nested_blocks_are_run() {
    let three = Draft {
        mesh: vec![2],
        table: vec![2, 2, 2],
        start: lists(&[&[0], &[], &[]]),
        ..Draft::default()
    };
    let to = |from, to| Step::AllToAll(Dim(from), Dim(to), axes(&[0]));
    let round = vec![to(0, 1), to(1, 2), to(2, 0)];
    let words: Vec<u32> = (1..=8).collect();
    for (outer, inner) in [(1, 1), (1, 2), (3, 1), (3, 5)] {
        let steps = vec![repeat(outer, vec![repeat(inner, round.clone())])];
        assert_run(&three.with_steps(steps), &words, &words);
    }
    // Behind an odd number of moves the last step meets the shards where the block left them.
    let steps = vec![repeat(3, round), to(0, 1)];
    assert_run(&three.with_steps(steps), &words, &[1, 2, 5, 6, 3, 4, 7, 8]);
}

#[test]
fn a_run_of_4096_plain_steps() {
    let full = even(4096);
    assert_run(&plan(vec![full]), &[1, 2, 3, 4], &[1, 4, 1, 4]);
    let three = vec![slice(&[0]), slice(&[1]), gather(&[0, 1])];
    let odd = vec![repeat(13, vec![repeat(105, three)]), slice(&[1])];
    let draft = square(&[], &[], odd);
    assert_eq!(draft.runs(), 4096);
    let words: Vec<u32> = (1..=16).collect();
    assert_run(&draft, &words, &[1, 6, 11, 16, 1, 6, 11, 16]);
}

#[test]
fn blocks_of_devices_in_an_order() {
    let draft = Draft {
        order: devices(&[2, 0, 3, 1]),
        ..square(&[], &[], vec![repeat(3, pairs(1))])
    };
    assert_eq!(draft.encode()[0], 3);
    // Devices 2 and 3 are a group along axis 0, and 0 and 1: each in that order.
    let words: Vec<u32> = (1..=16).collect();
    let (upper, lower) = ([1, 2, 7, 8], [9, 10, 15, 16]);
    assert_run(&draft, &words, &[upper, upper, lower, lower].concat());
}

#[test]
fn blocks_with_an_axis_that_stays_replicated() {
    let kept = |steps| Draft {
        replicated: axes(&[1]),
        ..square(&[], &[], steps)
    };
    assert_accepted(&kept(vec![repeat(2, pairs(1))]), 1);
    assert_refused(
        &kept(vec![repeat(2, vec![slice(&[1]), gather(&[1])])]),
        23,
        2,
    );
}

/// A mesh of 2 and a table of 2x1, whose steps have 4 bytes each: blocks of pairs that give a file
/// of so many bytes.
fn of_bytes(bytes: usize, blocks: usize) -> Draft {
    let lists = |list: &[u8]| vec![axes(list), axes(&[])];
    let pair = [Step::Slice(lists(&[0])), Step::Gather(lists(&[0]))];
    let empty = Draft {
        mesh: vec![2],
        table: vec![2, 1],
        start: lists(&[]),
        ..Draft::default()
    };
    let left = bytes - empty.encode().len() - 3 * blocks;
    assert_eq!(left % 8, 0);
    let block = |at: usize| {
        let more = usize::from(at < left / 8 % blocks);
        repeat(2, vec![pair.clone(); left / 8 / blocks + more].concat())
    };
    empty.with_steps((0..blocks).map(block).collect())
}

/// Accepted files of more than 4,096 bytes, which only blocks reach: the reader with document 01's
/// limits answers 2, and on one of 4,096 bytes what the present one answers.
#[test]
fn the_earlier_byte_limit_refuses_longer_files() {
    for (bytes, blocks) in [(4097, 10), (8192, 15)] {
        let draft = of_bytes(bytes, blocks);
        assert_accepted(&draft, blocks as u16);
        let earlier = reference::check_within(&draft.encode(), Limits::ORIGINAL);
        assert_eq!(earlier.map(|judged| judged.checked), refusal(2, 0));
    }
    let file = of_bytes(4096, 7).encode();
    let earlier = reference::check_within(&file, Limits::ORIGINAL).map(|judged| judged.checked);
    assert!(earlier.is_ok());
    assert_eq!(
        earlier,
        reference::check(&file).map(|judged| judged.checked)
    );
}

#[test]
fn the_longest_file_is_accepted() {
    for (bytes, blocks) in [(8192, 15), (4096, 7), (4097, 10)] {
        let draft = of_bytes(bytes, blocks);
        assert_eq!(draft.encode().len(), bytes);
        assert_accepted(&draft, blocks as u16);
        assert!((bytes / 4..=4096).contains(&draft.runs()));
        assert_run(&draft, &[1, 2, 3, 4], &[1, 4, 1, 4]);
    }
    let longer = of_bytes(8193, 10);
    assert_eq!(longer.encode().len(), 8193);
    assert_refused(&longer, 2, 0);
    // The last byte is read: it names an axis that is not there.
    let mut file = of_bytes(8192, 15).encode();
    let last = file.len() - 2;
    file[last] = 1;
    let number = blocks::kinds(&of_bytes(8192, 15).steps) as u16;
    for one in implementations() {
        assert_eq!(one.check(&file), refusal(22, number));
    }
    // The file ends before its last byte does.
    file.pop();
    mend_length(&mut file);
    for one in implementations() {
        assert_eq!(one.check(&file), refusal(7, 0));
    }
}

#[test]
fn a_block_is_its_steps_unrolled() {
    let draft = square(&[1], &[], vec![repeat(2, pairs(1)), gather(&[1])]);
    let unrolled = draft.with_steps([pairs(2), vec![gather(&[1])]].concat());
    let same = |one: &dyn Implementation| {
        let answers = [&draft, &unrolled].map(|draft| {
            let checked = one.check(&draft.encode()).expect("accepted");
            (checked.room, checked.sharding, checked.shard)
        });
        assert_eq!(answers[0], answers[1]);
    };
    implementations().into_iter().for_each(same);
    let words: Vec<u32> = (1..=8).collect();
    let joined = [1, 6, 3, 8].repeat(4);
    assert_run(&unrolled, &words, &joined);
    assert_run(&draft, &words, &joined);
}
