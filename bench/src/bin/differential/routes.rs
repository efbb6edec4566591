//! Two routes from one start to one end: a random plan, and the one that the planner makes between
//! its ends. From one faithful spread they leave one last state, times the factor of the first: the
//! planner's plans have factor 1.

use super::{refused, start_layout, Difference, Outcome};
use bench::answers::{Refusal, MOST_BYTES};
use bench::plans::{Draft, Step};
use bench::random::Random;
use bench::records::{Records, ShardingRecord};
use bench::spreads::product;
use bench::{implementations, Implementation, Reference};
use std::fmt;

/// The most steps of a plan that the planner makes.
const MOST_PLANNED: usize = 3;

/// What was tried.
#[derive(Default)]
pub struct Tally {
    pairs: usize,
    /// Plans of more plain steps than the planner ever makes, with axes unreduced at the end, and
    /// with a factor other than 1.
    longer: usize,
    in_parts: usize,
    scaled: usize,
}

impl fmt::Display for Tally {
    fn fmt(&self, f: &mut fmt::Formatter) -> fmt::Result {
        let (longer, parts, scaled) = (self.longer, self.in_parts, self.scaled);
        write!(
            f,
            "{} pairs of routes, {longer} of more than {MOST_PLANNED} steps, {parts} with unreduced axes at the end, {scaled} with a factor",
            self.pairs
        )
    }
}

/// A random plan beside the planner's, on a spread of a random table.
pub fn compare_routes(random: &mut Random, draft: &Draft, tally: &mut Tally) -> Outcome {
    let file = draft.encode();
    let factor = factor(draft);
    let table = random.words(product(&draft.table));
    let words = start_layout(draft, &file, |layout| layout.spread(&table, random))?;
    let ends = Reference.check(&file);
    let ends = ends.map_err(|refusal| refused("an accepted plan", &file, refusal))?;
    tally.pairs += 1;
    tally.longer += usize::from(draft.runs() > MOST_PLANNED);
    tally.in_parts += usize::from(!ends.sharding.unreduced.is_empty());
    tally.scaled += usize::from(factor != 1);
    for one in implementations() {
        let call = format!("two routes, {}", one.name());
        let told = |refusal| refused(&call, &file, refusal);
        let (goal, last) = end(one, &file, random, &words).map_err(told)?;
        let planned = planned(one, draft, &goal).map_err(told)?;
        let (there, mut other) = end(one, &planned, random, &words).map_err(told)?;
        other
            .iter_mut()
            .for_each(|word| *word = word.wrapping_mul(factor));
        if (&goal, &last) != (&there, &other) {
            let told = format!(
                "factor {factor}; beside the planner's {}",
                first_apart(&last, &other)
            );
            return Err(Difference { call, file, told });
        }
    }
    Ok(())
}

/// The product of the sizes of all axes reduced that were replicated just before their own step.
fn factor(draft: &Draft) -> u32 {
    let mut factor: u32 = 1;
    for piece in draft.pieces(1) {
        if let [Step::Reduce(list)] = &piece.steps[..] {
            let replicated = list.iter().filter(|axis| !piece.unreduced.contains(axis));
            for axis in replicated {
                factor = factor.wrapping_mul(piece.mesh[axis.index()].into());
            }
        }
    }
    factor
}

/// The file of the planner's plan from the start of a plan to a goal.
fn planned(
    one: &dyn Implementation,
    draft: &Draft,
    goal: &ShardingRecord,
) -> Result<Vec<u8>, Refusal> {
    let Records { on, start, .. } = Records::from(draft);
    let steps = one.plan(&on, &start, goal)?;
    let mut file = vec![0; MOST_BYTES];
    let length = one.write(&Records { on, start, steps }, &mut file)?;
    file.truncate(length);
    Ok(file)
}

/// The sharding and the words that a plan ends with, from the words of its start in buffers that are
/// long enough.
fn end(
    one: &dyn Implementation,
    file: &[u8],
    random: &mut Random,
    words: &[u32],
) -> Result<(ShardingRecord, Vec<u32>), Refusal> {
    let checked = one.check(file)?;
    let room = checked.room as usize;
    let mut work = words.to_vec();
    let rest = room - work.len() + random.below(3);
    work.extend(random.words(rest));
    let spare = room + random.below(3);
    let mut spare = random.words(spare);
    one.run(file, &mut work, &mut spare)?;
    work.truncate(usize::from(checked.devices) * product(&checked.shard));
    Ok((ShardingRecord::from(&checked.sharding), work))
}

/// The first word that differs.
fn first_apart(one: &[u32], other: &[u32]) -> String {
    let at = one.iter().zip(other).position(|(one, other)| one != other);
    match at {
        Some(at) => format!("word {at} is {}, and not {}", one[at], other[at]),
        None => format!("{} words, and not {}", one.len(), other.len()),
    }
}
