//! moved PLAN: runs a plan on the words 1, 2, 3, .. and prints the words of each device, before
//! and after. Needs the archive (`tools/build`).

use std::process::ExitCode;

fn main() -> ExitCode {
    match moved() {
        Ok(()) => ExitCode::SUCCESS,
        Err(message) => {
            eprintln!("moved: {message}");
            ExitCode::FAILURE
        }
    }
}

#[cfg(library)]
fn moved() -> Result<(), String> {
    use bench::answers::Device;
    use bench::library;

    let wanted = "name a plan file, such as examples/gather_tail.plan";
    let path = std::env::args().nth(1).ok_or(wanted)?;
    let file = std::fs::read(&path).map_err(|error| format!("{path}: {error}: {wanted}"))?;
    let plan = library::check(&file)
        .map_err(|refusal| format!("{path}: {refusal}: docs/REFUSALS.md says what that is"))?;
    let start = library::place(&file, 0, Device(0)).expect("state 0");
    let words = |shard: &[u16]| {
        shard
            .iter()
            .map(|&size| usize::from(size))
            .product::<usize>()
    };
    let print = |work: &[u32], shard: &[u16]| {
        let shards = work.chunks(words(shard)).take(plan.devices.into());
        for (device, shard) in shards.enumerate() {
            println!("device {device}: {shard:?}");
        }
    };

    let mut work: Vec<u32> = (1..=plan.room).collect();
    let mut spare = vec![0; work.len()];
    println!("before, shards of {:?}", start.shard);
    print(&work, &start.shard);
    library::run(&file, &mut work, &mut spare).expect("buffers of the room");
    println!("after {} steps, shards of {:?}", plan.steps, plan.shard);
    print(&work, &plan.shard);
    Ok(())
}

#[cfg(not(library))]
fn moved() -> Result<(), String> {
    Err("target/staticlib/libcapi.a is not there: tools/build makes it".into())
}
