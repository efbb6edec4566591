//! The pictures of source document 000. Each is drawn again from what a run leaves.

use bench::answers::Dim;
use bench::implementations;
use bench::plans::{axes, lists, Draft, Step};

/// The words of shards drawn side by side, one picture row per line, blanks between words and
/// bars between devices; the shards come in order of device number.
fn shards(picture: &str, across: usize) -> Vec<Vec<u32>> {
    let rows: Vec<Vec<Vec<u32>>> = picture
        .lines()
        .map(row)
        .filter(|row| !row.is_empty())
        .collect();
    let down = picture.split("---").count();
    let height = rows.len() / down;
    let shard = |index: usize| {
        let rows = &rows[index / across * height..][..height];
        rows.iter()
            .flat_map(|row| row[index % across].clone())
            .collect()
    };
    (0..down * across).map(shard).collect()
}

fn row(line: &str) -> Vec<Vec<u32>> {
    let words = |part: &str| {
        part.split_whitespace()
            .map_while(|word| word.parse().ok())
            .collect()
    };
    let parts = line.split('|').map(words);
    parts.filter(|part: &Vec<u32>| !part.is_empty()).collect()
}

const APART: &str = "
    |  1  2 |  5  6 |
    |  3  4 |  7  8 |
    ---
    |  9 10 | 13 14 |
    | 11 12 | 15 16 |";

const JOINED: &str = "
    |  1  2  5  6 |
    |  3  4  7  8 |
    ---
    |  9 10 13 14 |
    | 11 12 15 16 |";

fn joined() -> Vec<Vec<u32>> {
    let rows = shards(JOINED, 1);
    // Each row of the picture belongs to the two devices of a mesh row.
    rows.into_iter()
        .flat_map(|shard| [shard.clone(), shard])
        .collect()
}

fn on_mesh_2x2(start: &[&[u8]], step: Step) -> Draft {
    Draft {
        mesh: vec![2, 2],
        table: vec![4, 4],
        start: lists(start),
        steps: vec![step],
        ..Draft::default()
    }
}

fn assert_picture(draft: &Draft, before: &[Vec<u32>], after: &[Vec<u32>]) {
    let file = draft.encode();
    for one in implementations() {
        let room = one.check(&file).expect("accepted").room as usize;
        let mut work = before.concat();
        work.resize(room, 0);
        one.run(&file, &mut work, &mut vec![0; room])
            .expect("a run");
        let after = after.concat();
        assert_eq!(work[..after.len()], after, "{}", one.name());
        assert!(work[after.len()..].iter().all(|&word| word == 0));
    }
}

#[test]
fn all_gather_as_drawn() {
    let draft = on_mesh_2x2(&[&[0], &[1]], Step::Gather(lists(&[&[], &[1]])));
    assert_picture(&draft, &shards(APART, 2), &joined());
}

#[test]
fn all_slice_as_drawn() {
    let draft = on_mesh_2x2(&[&[0], &[]], Step::Slice(lists(&[&[], &[1]])));
    assert_picture(&draft, &joined(), &shards(APART, 2));
}

/// In 000 the pieces of one dimension are exchanged and joined along the same one. Here that is
/// a table of 3x3x2 whose first dimension is the device that holds a row and whose second is the
/// device that the row goes to.
#[test]
fn all_to_all_as_drawn() {
    let before = "
        | 11 12 | 21 22 | 31 32 |
        | 13 14 | 23 24 | 33 34 |
        | 15 16 | 25 26 | 35 36 |";
    let after = "
        | 11 12 | 13 14 | 15 16 |
        | 21 22 | 23 24 | 25 26 |
        | 31 32 | 33 34 | 35 36 |";
    let draft = Draft {
        mesh: vec![3],
        table: vec![3, 3, 2],
        start: lists(&[&[0], &[], &[]]),
        steps: vec![Step::AllToAll(Dim(0), Dim(1), axes(&[0]))],
        ..Draft::default()
    };
    assert_picture(&draft, &shards(before, 3), &shards(after, 3));
}

/// Its types do not match its picture, and it names max where its numbers are sums: document 02 goes
/// by the picture. The table is 4x2, rows split along axis 0 and parts of a sum along axis 1.
#[test]
fn reduce_scatter_as_drawn() {
    let after = "
        |  6  8 | 10 12 |
        ---
        | 22 24 | 26 28 |";
    let draft = Draft {
        table: vec![4, 2],
        unreduced: axes(&[1]),
        ..on_mesh_2x2(&[&[0], &[]], Step::Scatter(lists(&[&[1], &[]])))
    };
    assert_picture(&draft, &shards(APART, 2), &shards(after, 2));
}

/// 000's words on group order: with the list [3, 1], device (i, 1, k, 0) comes before both
/// (i, 0, k, 1) and (i, 2, k, 0).
#[test]
fn group_order_as_told() {
    use bench::answers::Device;
    for one in implementations() {
        let mut out = [Device(0); 120];
        one.groups(&[2, 3, 4, 5], &axes(&[3, 1]), &mut out)
            .expect("a listing");
        let device = |c: [u16; 4]| Device(((c[0] * 3 + c[1]) * 4 + c[2]) * 5 + c[3]);
        let place = |c| out.iter().position(|&entry| entry == device(c));
        for (i, k) in [(0, 0), (1, 2), (0, 3)] {
            assert!(place([i, 1, k, 0]) < place([i, 0, k, 1]));
            assert!(place([i, 1, k, 0]) < place([i, 2, k, 0]));
        }
    }
}
