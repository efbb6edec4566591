//! Compares files of vectors with the reference, and with the library when it is linked.
//!
//! Each argument is a file of vectors, or a folder that holds some. The name of a file tells
//! what its cases are: `check.txt` or `plans.txt`, `run.txt` or `runs.txt`, `place.txt` or
//! `placements.txt`, `groups.txt`, `groups_ordered.txt`. Empty lines and lines that begin with `#`
//! are no cases. A file whose name ends with `-CALL.jsonl` has a JSON object in each line, as
//! `tools/json_cases` takes them, and is compared where it is named itself.

use bench::answers::{Axis, Device, Dim, NotPlaced, Refusal, Sharding};
use bench::json::Json;
use bench::records::{MeshAndTable, Records, ShardingRecord, StepRecord};
use bench::{hex, implementations, Implementation};
use std::path::{Path, PathBuf};
use std::process::ExitCode;
use std::{env, fs};

/// The files of a folder that are compared, and how each of their cases is.
const FILES: [(&str, Compare); 8] = [
    ("check.txt", compare_check),
    ("plans.txt", compare_check),
    ("run.txt", compare_run),
    ("runs.txt", compare_run),
    ("place.txt", compare_place),
    ("placements.txt", compare_place),
    ("groups.txt", compare_groups),
    ("groups_ordered.txt", compare_groups_ordered),
];

/// The same of files in JSON, by the end of their name.
const JSON_FILES: [(&str, CompareJson); 7] = [
    ("-check.jsonl", json_check),
    ("-run.jsonl", json_run),
    ("-place.jsonl", json_place),
    ("-place_all.jsonl", json_place_all),
    ("-groups.jsonl", json_groups),
    ("-write.jsonl", json_write),
    ("-plan.jsonl", json_plan),
];

/// Whether an implementation gives a case's answer; an error tells that the case is malformed.
type Compare = fn(&dyn Implementation, &[&str]) -> Result<bool, String>;

/// The same, where nothing tells that the case is malformed.
type CompareJson = fn(&dyn Implementation, &Json) -> Option<bool>;

fn main() -> ExitCode {
    let arguments: Vec<PathBuf> = env::args_os().skip(1).map(PathBuf::from).collect();
    if arguments.is_empty() {
        eprintln!("usage: vectors PATH ..; a file of vectors or a folder of some, such as tests");
        return ExitCode::FAILURE;
    }
    let mut sound = true;
    for path in &arguments {
        let files = files_at(path);
        if files.is_empty() {
            eprintln!(
                "{}: no vectors in this folder: name one such as tests",
                path.display()
            );
            sound = false;
        }
        for file in &files {
            sound &= report(compare_file(file));
        }
    }
    if sound {
        ExitCode::SUCCESS
    } else {
        ExitCode::FAILURE
    }
}

/// Prints how one file fared, and tells whether it did well.
fn report(outcome: Result<usize, String>) -> bool {
    match outcome {
        Ok(differences) => differences == 0,
        Err(message) => {
            eprintln!("{message}");
            false
        }
    }
}

fn files_at(path: &Path) -> Vec<PathBuf> {
    if !path.is_dir() {
        return vec![path.to_path_buf()];
    }
    let inside = FILES.iter().map(|(name, _)| path.join(name));
    inside.filter(|file| file.exists()).collect()
}

fn compare_file(path: &Path) -> Result<usize, String> {
    let name = path.file_name().unwrap_or_default().to_string_lossy();
    let by_name = FILES.iter().find(|(known, _)| *known == name);
    let by_end = JSON_FILES.iter().find(|(end, _)| name.ends_with(end));
    let compare = |implementation: &dyn Implementation, line: &str| match (by_name, by_end) {
        (Some((_, compare)), _) => {
            let fields: Vec<&str> = line.split('|').collect();
            compare(implementation, &fields)
        }
        (_, Some((_, compare))) => Json::parse(line)
            .and_then(|case| compare(implementation, &case))
            .ok_or_else(|| "not a case".into()),
        _ => Err("not a case of any call".into()),
    };
    if by_name.is_none() && by_end.is_none() {
        let names = FILES.map(|(name, _)| name).join(", ");
        let ends = JSON_FILES.map(|(end, _)| format!("*{end}")).join(", ");
        return Err(format!("{}: name one of {names}, {ends}", path.display()));
    }
    let text = fs::read_to_string(path).map_err(|error| {
        let path = path.display();
        format!("{path}: {error}: name a file of vectors, such as tests/plans.txt")
    })?;
    let mut all = 0;
    for implementation in implementations() {
        let (cases, different) = tally(&name, &text, |line| compare(implementation, line))?;
        let implementation = implementation.name();
        println!("{name}: {implementation}: {cases} cases, {different} differences");
        all += different;
    }
    Ok(all)
}

/// Goes through the cases of a file, and names those that are different. Answers how many there
/// are, and how many of them are different.
fn tally(
    name: &str,
    text: &str,
    compare: impl Fn(&str) -> Result<bool, String>,
) -> Result<(usize, usize), String> {
    let (mut cases, mut different) = (0, 0);
    for (number, line) in text.lines().enumerate() {
        if line.is_empty() || line.starts_with('#') {
            continue;
        }
        let at = format!("{name}, line {}", number + 1);
        cases += 1;
        if !compare(line).map_err(|message| format!("{at}: {message}"))? {
            different += 1;
            println!("{at}: different");
        }
    }
    Ok((cases, different))
}

fn compare_check(implementation: &dyn Implementation, fields: &[&str]) -> Result<bool, String> {
    let [file, printed] = fields else {
        return Err("two fields are wanted".into());
    };
    let file = bytes(file)?;
    Ok(outcome_lines(implementation, &file) == *printed)
}

/// What the program of document 01 prints, its lines divided by `/`.
fn outcome_lines(implementation: &dyn Implementation, file: &[u8]) -> String {
    let shards = match implementation.shards(file) {
        Ok(shards) => shards,
        Err(refusal) => return refusal.to_string(),
    };
    let mut lines = format!("ok {}", shards.len() - 1);
    for (state, shard) in shards.iter().enumerate() {
        lines += &format!("/{state} {}", joined(shard));
    }
    lines
}

fn compare_run(implementation: &dyn Implementation, fields: &[&str]) -> Result<bool, String> {
    let [file, work, spare, outcome, work_after, spare_after] = fields else {
        return Err("six fields are wanted".into());
    };
    let file = bytes(file)?;
    let (mut work, mut spare) = (words(work)?, words(spare)?);
    let answer = implementation.run(&file, &mut work, &mut spare);
    Ok(printed(answer, |_| "ok".into()) == *outcome
        && work == words(work_after)?
        && spare == words(spare_after)?)
}

fn compare_place(implementation: &dyn Implementation, fields: &[&str]) -> Result<bool, String> {
    let [file, state, device, outcome] = fields else {
        return Err("four fields are wanted".into());
    };
    let file = bytes(file)?;
    let answer = implementation.place(&file, number(state)?, Device(number(device)?));
    let line = printed(answer, |placed| {
        let lists = printed_lists(&placed.sharding);
        let (shard, first) = (placed.shard, placed.first);
        format!("ok lists {lists} sizes {shard:?} first {first:?}")
    });
    Ok(line == *outcome)
}

/// The lists of the dimensions, the unreduced list, and the replicated list where it has axes.
fn printed_lists(sharding: &Sharding) -> String {
    let lists = format!("{:?} {:?}", sharding.dims, sharding.unreduced);
    match &*sharding.replicated {
        [] => lists,
        replicated => format!("{lists} {replicated:?}"),
    }
}

fn compare_groups(implementation: &dyn Implementation, fields: &[&str]) -> Result<bool, String> {
    let [mesh, axes, length, outcome] = fields else {
        return Err("four fields are wanted".into());
    };
    let (mesh, axes) = (numbers(mesh)?, named(axes)?);
    Ok(same_listing(number(length)?, outcome, |out| {
        implementation.groups(&mesh, &axes, out)
    }))
}

fn compare_groups_ordered(
    implementation: &dyn Implementation,
    fields: &[&str],
) -> Result<bool, String> {
    let [mesh, order, axes, length, outcome] = fields else {
        return Err("five fields are wanted".into());
    };
    let (mesh, axes) = (numbers(mesh)?, named(axes)?);
    let order: Vec<Device> = numbers(order)?.into_iter().map(Device).collect();
    Ok(same_listing(number(length)?, outcome, |out| {
        implementation.groups_ordered(&mesh, &order, &axes, out)
    }))
}

/// Whether a listing into so many places is answered as printed.
fn same_listing(
    length: usize,
    outcome: &str,
    list: impl FnOnce(&mut [Device]) -> Result<(), Refusal>,
) -> bool {
    // No device has this number, so an entry that was written can be told from one that was not.
    let untouched = Device(u16::MAX);
    let mut out = vec![untouched; length];
    let answer = list(&mut out);
    let written = out.partition_point(|entry| *entry != untouched);
    let (listed, rest) = out.split_at(written);
    let line = printed(answer, |()| {
        let numbers: Vec<u16> = listed.iter().map(|device| device.0).collect();
        format!("ok {}", joined(&numbers))
    });
    let refused = answer.is_err();
    line == outcome && rest.iter().all(|entry| *entry == untouched) && !(refused && written > 0)
}

// ---- cases in JSON: what is given, and under the call's name what it answers

fn json_check(implementation: &dyn Implementation, case: &Json) -> Option<bool> {
    let file = json_file(case)?;
    let answer = implementation.check(&file).and_then(|checked| {
        let states: Result<Vec<Json>, Refusal> = (0..=checked.steps)
            .map(|state| {
                let placed = implementation.place(&file, state, Device(0))?;
                Ok(object([
                    ("sharding", json_sharding(&placed.sharding)),
                    ("shard", json_numbers(&placed.shard)),
                ]))
            })
            .collect();
        Ok(object([
            ("room", Json::Number(checked.room.into())),
            ("devices", Json::Number(checked.devices.into())),
            ("states", Json::List(states?)),
        ]))
    });
    same_json(case, "check", answer)
}

fn json_run(implementation: &dyn Implementation, case: &Json) -> Option<bool> {
    let (before, spare_before) = (case.get("work")?, case.get("spare")?);
    let mut work: Vec<u32> = before.numbers()?;
    let mut spare: Vec<u32> = spare_before.numbers()?;
    let answer = implementation.run(&json_file(case)?, &mut work, &mut spare);
    let (work, spare) = (json_numbers(&work), json_numbers(&spare));
    let stayed = work == *before && spare == *spare_before;
    // The vectors of the asks before the count do not have it.
    let counted = case
        .get("run")
        .is_some_and(|run| run.get("moved").is_some());
    let answered = answer.map(|moved| match counted {
        true => object([
            ("work", work),
            ("spare", spare),
            ("moved", Json::Number(moved)),
        ]),
        false => object([("work", work), ("spare", spare)]),
    });
    Some(same_json(case, "run", answered)? && (answer.is_ok() || stayed))
}

fn json_place(implementation: &dyn Implementation, case: &Json) -> Option<bool> {
    let (state, device) = (case.get("state")?.number()?, case.get("device")?.number()?);
    let placed = implementation.place(&json_file(case)?, state, Device(device));
    let answer = placed.map(|placed| {
        object([
            ("sharding", json_sharding(&placed.sharding)),
            ("shard", json_numbers(&placed.shard)),
            ("first", json_numbers(&placed.first)),
        ])
    });
    same_json(case, "place", answer)
}

fn json_place_all(implementation: &dyn Implementation, case: &Json) -> Option<bool> {
    let state = case.get("state")?.number()?;
    let devices = case.get("devices")?.list(|id| id.number().map(Device))?;
    // No shard begins at this index, so an entry that was written can be told from one that was not.
    let before = vec![u16::MAX; case.get("room")?.number()?];
    let mut first = before.clone();
    let answer = implementation.place_all(&json_file(case)?, state, &devices, &mut first);
    let written = first.partition_point(|index| *index != u16::MAX);
    let stayed = first[written..] == before[written..] && (answer.is_ok() || written == 0);
    let answered = match answer {
        Ok(()) => json_numbers(&first[..written]),
        Err(NotPlaced { refusal, place }) => object([
            ("no", json_refusal(refusal)),
            ("place", Json::Number(place.unwrap_or(0) as u64)),
        ]),
    };
    Some(*case.get("place_all")? == answered && stayed)
}

fn json_groups(implementation: &dyn Implementation, case: &Json) -> Option<bool> {
    let mesh: Vec<u16> = case.get("mesh")?.numbers()?;
    let order = case.get("order")?.list(|id| id.number().map(Device))?;
    let axes = case.get("axes")?.list(|axis| axis.number().map(Axis))?;
    let answer = case.get("groups")?;
    let outcome = match answer.get("no") {
        Some(refusal) => format!("no {}", joined(&refusal.numbers()?)),
        None => format!("ok {}", joined(&answer.numbers()?)),
    };
    Some(same_listing(case.get("room")?.number()?, &outcome, |out| {
        implementation.groups_ordered(&mesh, &order, &axes, out)
    }))
}

fn json_write(implementation: &dyn Implementation, case: &Json) -> Option<bool> {
    let records = Records {
        on: json_mesh_and_table(case)?,
        start: json_sharding_record(case.get("start")?)?,
        steps: case.get("steps")?.list(json_step)?,
    };
    let before = vec![0xa5; case.get("room")?.number()?];
    let mut out = before.clone();
    let answer = implementation.write(&records, &mut out);
    let written = answer.unwrap_or(0);
    let stayed = out.get(written..)? == before.get(written..)?;
    let answered = answer.map(|length| Json::Text(printed_hex(&out[..length])));
    Some(same_json(case, "write", answered)? && stayed)
}

fn json_plan(implementation: &dyn Implementation, case: &Json) -> Option<bool> {
    let on = json_mesh_and_table(case)?;
    let start = json_sharding_record(case.get("start")?)?;
    let goal = json_sharding_record(case.get("goal")?)?;
    let answer = implementation.plan(&on, &start, &goal);
    Some(match case.get("plan")?.get("no") {
        Some(refusal) => {
            let [number, step] = refusal.numbers::<u16>()?[..] else {
                return None;
            };
            let number = u8::try_from(number).ok()?;
            answer == Err(Refusal { number, step })
        }
        None => answer == Ok(case.get("plan")?.list(json_step)?),
    })
}

fn json_mesh_and_table(case: &Json) -> Option<MeshAndTable> {
    Some(MeshAndTable {
        mesh: case.get("mesh")?.numbers()?,
        order: case.get("order")?.list(|id| id.number().map(Device))?,
        table: case.get("table")?.numbers()?,
    })
}

fn json_axes(list: &Json) -> Option<Vec<Axis>> {
    list.list(|axis| axis.number().map(Axis))
}

fn json_sharding_record(sharding: &Json) -> Option<ShardingRecord> {
    Some(ShardingRecord {
        dims: sharding.get("dims")?.list(json_axes)?,
        unreduced: json_axes(sharding.get("unreduced")?)?,
        replicated: json_axes(sharding.get("replicated")?)?,
    })
}

/// A step record: its kind, then what its kind has.
fn json_step(step: &Json) -> Option<StepRecord> {
    let parts = step.list(|part| Some(part.clone()))?;
    let kind: u8 = parts.first()?.number()?;
    let dim = |part: &Json| part.number().map(Dim);
    match (kind, &parts[1..]) {
        (1, [lists]) => Some(StepRecord::Slice(lists.list(json_axes)?)),
        (2, [lists]) => Some(StepRecord::Gather(lists.list(json_axes)?)),
        (3, [axes]) => Some(StepRecord::Reduce(json_axes(axes)?)),
        (4, [source, target, axes]) => {
            let (source, target) = (dim(source)?, dim(target)?);
            Some(StepRecord::AllToAll(source, target, json_axes(axes)?))
        }
        (5, [lists]) => Some(StepRecord::Scatter(lists.list(json_axes)?)),
        (9, [count, steps]) => {
            let (count, steps) = (count.number()?, steps.number()?);
            Some(StepRecord::Repeat { count, steps })
        }
        (1..=5 | 9, _) => None,
        _ => Some(StepRecord::Unknown(kind)),
    }
}

fn same_json(case: &Json, call: &str, answer: Result<Json, Refusal>) -> Option<bool> {
    let answer = answer.unwrap_or_else(|refusal| object([("no", json_refusal(refusal))]));
    Some(*case.get(call)? == answer)
}

fn json_refusal(refusal: Refusal) -> Json {
    json_numbers(&[refusal.number.into(), refusal.step])
}

fn json_file(case: &Json) -> Option<Vec<u8>> {
    hex::parse(case.get("file")?.text()?)
}

fn object<const N: usize>(fields: [(&str, Json); N]) -> Json {
    Json::Object(fields.map(|(name, value)| (name.into(), value)).into())
}

fn json_numbers<T: Copy + Into<u64>>(numbers: &[T]) -> Json {
    Json::List(numbers.iter().map(|&n| Json::Number(n.into())).collect())
}

fn json_sharding(sharding: &Sharding) -> Json {
    let list = |axes: &[Axis]| json_numbers(&axes.iter().map(|axis| axis.0).collect::<Vec<u8>>());
    object([
        (
            "dims",
            Json::List(sharding.dims.iter().map(|axes| list(axes)).collect()),
        ),
        ("unreduced", list(&sharding.unreduced)),
        ("replicated", list(&sharding.replicated)),
    ])
}

// ---- parts of lines

fn printed<T>(answer: Result<T, Refusal>, accepted: impl FnOnce(T) -> String) -> String {
    answer.map_or_else(|refusal| refusal.to_string(), accepted)
}

fn printed_hex(bytes: &[u8]) -> String {
    bytes.iter().map(|byte| format!("{byte:02x}")).collect()
}

fn joined(numbers: &[u16]) -> String {
    let texts: Vec<String> = numbers.iter().map(u16::to_string).collect();
    texts.join(" ")
}

fn bytes(field: &str) -> Result<Vec<u8>, String> {
    if field == "-" {
        return Ok(Vec::new());
    }
    hex::parse(field).ok_or_else(|| "no hex".into())
}

fn words(field: &str) -> Result<Vec<u32>, String> {
    field.split_whitespace().map(number).collect()
}

fn named(field: &str) -> Result<Vec<Axis>, String> {
    Ok(numbers(field)?.into_iter().map(Axis).collect())
}

/// The numbers of a list such as `[2, 3]`.
fn numbers<T: std::str::FromStr>(field: &str) -> Result<Vec<T>, String> {
    let inner = field.trim_start_matches('[').trim_end_matches(']');
    inner.split_terminator(", ").map(number).collect()
}

fn number<T: std::str::FromStr>(field: &str) -> Result<T, String> {
    field.parse().map_err(|_| format!("no number: {field}"))
}
