//! Lists of devices that are placed in one call, beside single calls.

use super::{number_up_to, same, same_at_boundary, Met, Outcome};
use bench::answers::{Device, NotPlaced};
use bench::random::Random;
use bench::{Implementation, Reference};
use std::fmt;

/// The refusals that the call gives beside those of files.
const REFUSALS: [u8; 3] = [32, 33, 34];

/// What was tried.
#[derive(Default)]
pub struct Tally {
    lists: usize,
    /// Those that were placed: all, those under an order, of no device, and with a device twice.
    placed: usize,
    by_order: usize,
    empty: usize,
    repeated: usize,
    /// Those that were refused for the first of several devices.
    several_refused: usize,
    refusals: Met,
}

impl Tally {
    /// The numbers that this call gives and that were not met.
    pub fn missing(&self) -> Vec<String> {
        self.refusals.missing("place_all", &REFUSALS)
    }

    fn see(&mut self, call: &Call, devices: u16, answer: Result<(), NotPlaced>) {
        let list = &call.list;
        let is_repeat = |at: usize| list[..at].contains(&list[at]);
        let absent = list.iter().filter(|device| device.0 >= devices).count();
        self.lists += 1;
        self.refusals.see(&answer.map_err(|not| not.refusal));
        match answer {
            Ok(()) => {
                self.placed += 1;
                self.by_order += usize::from(call.file[0] == 3);
                self.empty += usize::from(list.is_empty());
                self.repeated += usize::from((0..list.len()).any(is_repeat));
            }
            Err(not) => self.several_refused += usize::from(not.place.is_some() && absent > 1),
        }
    }
}

impl fmt::Display for Tally {
    fn fmt(&self, f: &mut fmt::Formatter) -> fmt::Result {
        let (lists, placed, by_order) = (self.lists, self.placed, self.by_order);
        writeln!(
            f,
            "{lists} lists of devices, {placed} placed, {by_order} of them under an order"
        )?;
        let (empty, repeated, several) = (self.empty, self.repeated, self.several_refused);
        writeln!(
            f,
            "    {empty} of no device, {repeated} with a device twice; {several} refused for the first of several"
        )?;
        write!(f, "    refused: {}", self.refusals)
    }
}

/// A call of the placement of a list.
struct Call<'a> {
    file: &'a [u8],
    state: u16,
    list: Vec<Device>,
    before: Vec<u16>,
}

/// What it answers, and the entries after it.
type Answer = (Result<(), NotPlaced>, Vec<u16>);

impl Call<'_> {
    fn put_to(&self, one: &dyn Implementation) -> Answer {
        let mut first = self.before.clone();
        let answer = one.place_all(self.file, self.state, &self.list, &mut first);
        (answer, first)
    }

    /// What the single calls give, where there is room for all of their answers.
    fn one_by_one(&self, one: &dyn Implementation) -> Answer {
        let mut first = Vec::new();
        for (place, &device) in self.list.iter().enumerate() {
            match one.place(self.file, self.state, device) {
                Ok(placed) => first.extend(&*placed.first),
                Err(refusal) => {
                    let place = (refusal.number == 32).then_some(place);
                    return (Err(NotPlaced { refusal, place }), self.before.clone());
                }
            }
        }
        first.extend(&self.before[first.len()..]);
        (Ok(()), first)
    }
}

/// Places a list of devices, into an output that is too short by one, exact or longer.
pub fn compare_place_all(
    random: &mut Random,
    library: &dyn Implementation,
    file: &[u8],
    tally: &mut Tally,
) -> Outcome {
    let checked = Reference.check(file);
    let (steps, devices, rank) = checked.map_or((3, 4, 2), |checked| {
        (checked.steps, checked.devices, checked.rank())
    });
    let list = random_list(random, devices);
    let length = (rank * list.len() + random.below(4)).saturating_sub(random.below(2));
    let call = Call {
        file,
        state: match random.once_in(12) {
            true => number_up_to(random, steps + 1),
            false => random.between(0, steps.into()) as u16,
        },
        list,
        before: vec![random.draw() as u16; length],
    };
    let ours = call.put_to(&Reference);
    tally.see(&call, devices, ours.0);
    let Call { state, list, .. } = &call;
    let told = format!("place of devices {list:?} in state {state}, {length} entries");
    same(&told, file, &ours, &call.put_to(library))?;
    same_at_boundary(file, &told, |raw| {
        raw.place_all((file, *state, list), &call.before, (ours.0, &ours.1))
    })?;
    // A file and a state are refused whatever the list is, and a short output before any device.
    let is_short = matches!(ours.0, Err(not) if not.refusal.number == 33);
    if is_short || list.is_empty() {
        return Ok(());
    }
    let told = format!("{told}, one by one");
    same(&told, file, &call.one_by_one(library), &ours)
}

/// Devices in any order, some of them again and again, all of them now and then; in a third of the
/// lists some that are not there.
fn random_list(random: &mut Random, devices: u16) -> Vec<Device> {
    let mut list: Vec<Device> = (0..devices).map(Device).collect();
    random.shuffle(&mut list);
    if !random.once_in(8) {
        list.truncate(random.below(list.len().min(20) + 1));
    }
    while !list.is_empty() && random.once_in(2) {
        let again = random.pick(&list);
        list.insert(random.below(list.len() + 1), again);
    }
    while random.once_in(3) {
        let absent = random.pick(&[devices, devices + 1, u16::MAX]);
        list.insert(random.below(list.len() + 1), Device(absent));
    }
    list
}
