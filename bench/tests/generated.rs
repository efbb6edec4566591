//! What the generator makes is what it says: accepted, refused with the chosen number, faithful.
//! What a plan with repeats answers and does is what its plain steps in running order do.

use bench::answers::{Device, Refusal};
use bench::plans::{
    accepted, broken, damaged, filling, random_scale, scale_at_a_limit, small, Draft, Scale, Step,
    FILE_REFUSALS,
};
use bench::random::Random;
use bench::spreads::{product, Layout};
use bench::{blocks, implementations, Implementation};

#[test]
fn accepted_plans_are_accepted() {
    let mut random = Random::new(1);
    let mut of_edition = [0; 4];
    for _ in 0..3000 {
        let scale = random_scale(&mut random);
        let draft = accepted(&mut random, scale);
        of_edition[draft.edition()] += 1;
        for one in implementations() {
            let checked = one.check(&draft.encode()).expect("accepted");
            assert_eq!(usize::from(checked.steps), draft.steps.len());
            assert_eq!(*checked.sharding.replicated, draft.replicated);
        }
    }
    assert!(
        of_edition[1..].iter().all(|&plans| plans > 700),
        "{of_edition:?}"
    );
}

#[test]
fn repeats_are_of_many_kinds() {
    let mut random = Random::new(7);
    let (mut of_depth, mut odd, mut past_64) = ([0; 5], 0, 0);
    for _ in 0..3000 {
        let draft = small(&mut random);
        of_depth[blocks::depth(&draft.steps)] += 1;
        past_64 += usize::from(blocks::kinds(&draft.steps) > 64);
        let is_odd =
            |step: &Step| matches!(step, Step::Repeat(_, block) if blocks::runs(block) % 2 == 1);
        odd += usize::from(draft.steps.iter().any(is_odd));
    }
    assert!(of_depth.iter().all(|&plans| plans > 20), "{of_depth:?}");
    assert!(odd > 50 && past_64 > 0, "{odd} {past_64}");
}

fn is_reduction(step: &Step) -> bool {
    matches!(step, Step::Reduce(_))
}

#[test]
fn plans_multiply_the_table_in_blocks_too() {
    let mut random = Random::new(12);
    let (mut multiplied, mut in_blocks, mut to_nothing) = (0, 0, 0);
    for _ in 0..3000 {
        let draft = small(&mut random);
        let factor = draft.factor();
        multiplied += usize::from(factor != 1);
        to_nothing += usize::from(factor == 0);
        let in_a_block = |step: &Step| match step {
            Step::Repeat(_, block) => blocks::unrolled(block).iter().any(is_reduction),
            _ => false,
        };
        in_blocks += usize::from(draft.steps.iter().any(in_a_block));
        // Part by part it is the same number.
        let parts = draft.pieces(5);
        let product = parts
            .iter()
            .fold(1u32, |product, part| product.wrapping_mul(part.factor()));
        assert_eq!(product, factor);
    }
    let counts = (multiplied, in_blocks, to_nothing);
    assert!(multiplied > 600 && in_blocks > 150, "{counts:?}");
    assert!(to_nothing < multiplied / 4, "{counts:?}");
}

#[test]
fn plans_with_the_most_plain_steps_are_accepted() {
    let mut random = Random::new(8);
    for _ in 0..300 {
        let draft = blocks::running_most(&mut random, small);
        assert_eq!(draft.runs(), 4096);
        for one in implementations() {
            let checked = one.check(&draft.encode()).expect("accepted");
            assert_eq!(usize::from(checked.steps), draft.steps.len());
        }
    }
}

#[test]
fn plans_of_the_most_bytes_are_accepted() {
    let mut random = Random::new(9);
    for _ in 0..100 {
        for (bytes, answer) in [(8192, Ok(())), (8193, Err(Refusal::whole(2)))] {
            let file = blocks::longest(&mut random, small, bytes).encode();
            assert_eq!(file.len(), bytes);
            for one in implementations() {
                assert_eq!(one.check(&file).map(|_| ()), answer);
            }
        }
    }
}

/// Runs a plan on these words, and gives the words of its last state.
fn ran(one: &dyn Implementation, draft: &Draft, words: &[u32], room: usize) -> Vec<u32> {
    let file = draft.encode();
    let checked = one.check(&file).expect("accepted");
    let mut work = words.to_vec();
    work.resize(room, 7);
    one.run(&file, &mut work, &mut vec![9; room])
        .expect("a run");
    work.truncate(usize::from(checked.devices) * product(&checked.shard));
    work
}

#[test]
fn a_plan_with_repeats_does_what_its_plain_steps_do() {
    let mut random = Random::new(10);
    for _ in 0..300 {
        let draft = small(&mut random);
        let pieces = draft.pieces(64);
        for one in implementations() {
            let checked = one.check(&draft.encode()).expect("accepted");
            let rooms = pieces
                .iter()
                .map(|piece| one.check(&piece.encode()).expect("accepted").room);
            let alone = one.check(&draft.prefix(0).encode()).expect("accepted").room;
            assert_eq!(checked.room, rooms.max().unwrap_or(alone));
            let room = checked.room as usize;
            let mut words = random.words(alone as usize);
            let whole = ran(one, &draft, &words, room);
            for piece in &pieces {
                words = ran(one, piece, &words, room);
            }
            assert_eq!(whole, words, "{}", one.name());
            let last = pieces.last().map_or(&draft, |piece| piece);
            let last = one.check(&last.encode()).expect("accepted");
            assert_eq!(
                (checked.sharding, checked.shard),
                (last.sharding, last.shard)
            );
        }
    }
}

#[test]
fn states_are_those_after_outermost_steps() {
    let mut random = Random::new(11);
    for _ in 0..300 {
        let draft = small(&mut random);
        let file = draft.encode();
        for one in implementations() {
            for state in 0..=draft.steps.len() {
                let placed = one.place(&file, state as u16, Device(0)).expect("placed");
                let last = one.check(&draft.prefix(state).encode()).expect("accepted");
                assert_eq!((placed.sharding, placed.shard), (last.sharding, last.shard));
            }
            let none = one.place(&file, draft.steps.len() as u16 + 1, Device(0));
            assert_eq!(none, Err(Refusal::whole(34)));
        }
    }
}

#[test]
fn limits_are_reached() {
    let mut random = Random::new(2);
    for _ in 0..200 {
        let draft = filling(&mut random, Scale::MOST);
        assert_eq!(product(&draft.table), 65536);
        for one in implementations() {
            let checked = one.check(&draft.encode()).expect("accepted");
            let (devices, steps, room) = (checked.devices, checked.steps, checked.room);
            assert_eq!((devices, steps, room), (1024, 64, 67_108_864));
        }
    }
}

#[test]
fn one_limit_is_reached() {
    let mut random = Random::new(6);
    for _ in 0..200 {
        let scale = scale_at_a_limit(&mut random);
        let draft = filling(&mut random, scale);
        let (devices, words) = (product(&draft.mesh), product(&draft.table));
        assert!([(1024, 1024), (16, 65536)].contains(&(devices, words)));
        for one in implementations() {
            let checked = one.check(&draft.encode()).expect("accepted");
            assert_eq!((checked.steps, checked.room), (64, 1_048_576));
        }
    }
}

#[test]
fn broken_plans_are_refused_as_chosen() {
    let mut random = Random::new(3);
    for number in FILE_REFUSALS {
        for _ in 0..200 {
            let (file, refusal) = broken(&mut random, number);
            for one in implementations() {
                assert_eq!(one.check(&file), Err(refusal), "{file:02x?}");
            }
        }
    }
}

#[test]
fn damaged_files_are_judged_without_harm() {
    let mut random = Random::new(4);
    for _ in 0..5000 {
        let scale = random_scale(&mut random);
        let file = accepted(&mut random, scale).encode();
        let file = damaged(&mut random, &file);
        for one in implementations() {
            let answer = one.check(&file);
            assert_eq!(one.place(&file, 0, Device(0)).is_ok(), answer.is_ok());
        }
    }
}

#[test]
fn spreads_are_faithful_until_a_word_is_changed() {
    let mut random = Random::new(5);
    for _ in 0..300 {
        let scale = random_scale(&mut random);
        let draft = accepted(&mut random, scale);
        let placed = implementations()[0].place(&draft.encode(), 0, Device(0));
        let layout = Layout {
            mesh: &draft.mesh,
            order: &draft.order,
            table: &draft.table,
            sharding: &placed.expect("placed").sharding,
        };
        let table = random.words(product(&draft.table));
        let mut buffer = layout.spread(&table, &mut random);
        assert_eq!(buffer.len(), layout.devices() * layout.words());
        layout.try_spread(&table, &buffer).expect("faithful");
        let at = random.below(buffer.len());
        buffer[at] = buffer[at].wrapping_add(1);
        layout
            .try_spread(&table, &buffer)
            .expect_err("not faithful");
    }
}
