//! The words moved of document 02, Ask 7: of each kind of step, of a group of three, of a block in each
//! of its rounds, at the limits, and of runs that are refused.

use bench::answers::{Dim, Refusal};
use bench::plans::{axes, devices, lists, Draft, Step};
use bench::implementations;

/// A mesh of three devices with one step.
fn row(table: &[u16], start: &[&[u8]], unreduced: &[u8], step: Step) -> Draft {
    Draft {
        mesh: vec![3],
        table: table.to_vec(),
        start: lists(start),
        unreduced: axes(unreduced),
        steps: vec![step],
        ..Draft::default()
    }
}

/// The same number by the check and by the run.
fn assert_moved(draft: &Draft, moved: u64) {
    let file = draft.encode();
    for one in implementations() {
        let checked = one.check(&file).expect("accepted");
        assert_eq!(checked.moved, moved, "{}: the check", one.name());
        let room = checked.room as usize;
        let (mut work, mut spare) = (vec![7; room], vec![8; room]);
        let ran = one.run(&file, &mut work, &mut spare);
        assert_eq!(ran, Ok(moved), "{}: the run", one.name());
    }
}

#[test]
fn each_kind_in_a_group_of_three() {
    let slice = Step::Slice(lists(&[&[0]]));
    assert_moved(&row(&[6], &[&[]], &[], slice), 0);
    let gather = Step::Gather(lists(&[&[0]]));
    assert_moved(&row(&[6], &[&[0]], &[], gather), 3 * 2 * 2);
    let reduce = Step::Reduce(axes(&[0]));
    assert_moved(&row(&[2], &[&[]], &[0], reduce), 3 * 2 * 2);
    let to_all = Step::AllToAll(Dim(0), Dim(1), axes(&[0]));
    assert_moved(&row(&[3, 3], &[&[0], &[]], &[], to_all), 3 * 3 * 2 / 3);
    let scatter = Step::Scatter(lists(&[&[0]]));
    assert_moved(&row(&[3], &[&[]], &[0], scatter), 3 * 3 * 2 / 3);
}

#[test]
fn a_block_counts_in_each_round() {
    let there = Step::Slice(lists(&[&[1, 0]]));
    let back = Step::Gather(lists(&[&[1, 0]]));
    let mut draft = Draft {
        mesh: vec![2, 3],
        table: vec![6],
        start: lists(&[&[]]),
        ..Draft::default()
    };
    // One word on each of six devices goes to the five others.
    for (count, moved) in [(1, 30), (3, 90), (255, 7650)] {
        draft.steps = vec![Step::Repeat(count, vec![there.clone(), back.clone()])];
        assert_moved(&draft, moved);
    }
    let inner = Step::Repeat(3, vec![there.clone(), back.clone()]);
    draft.steps = vec![Step::Repeat(2, vec![inner]), there, back];
    assert_moved(&draft, 7 * 30);
    // Whatever the order of the devices.
    draft.order = devices(&[5, 3, 1, 0, 2, 4]);
    assert_moved(&draft, 7 * 30);
}

#[test]
fn the_most_that_a_step_moves() {
    let draft = Draft {
        mesh: vec![1024],
        table: vec![256, 256],
        start: lists(&[&[], &[]]),
        unreduced: axes(&[0]),
        steps: vec![Step::Reduce(axes(&[0]))],
        ..Draft::default()
    };
    for one in implementations() {
        let checked = one.check(&draft.encode()).expect("accepted");
        assert_eq!(checked.moved, 1023 * 67_108_864, "{}", one.name());
    }
}

#[test]
fn a_refused_run_says_nothing_else() {
    let draft = row(&[6], &[&[0]], &[], Step::Gather(lists(&[&[0]])));
    for one in implementations() {
        let (mut work, mut spare) = (vec![7; 17], vec![8; 18]);
        let refused = Err(Refusal::whole(30));
        assert_eq!(one.run(&draft.encode(), &mut work, &mut spare), refused);
    }
}
