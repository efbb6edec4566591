//! planned FILE: makes the plan that leads from rows to columns of a table of 4x4 on four devices,
//! writes its file, and prints the steps that are read from it. Needs the archive (`tools/build`).

use std::process::ExitCode;

fn main() -> ExitCode {
    match planned() {
        Ok(()) => ExitCode::SUCCESS,
        Err(message) => {
            eprintln!("planned: {message}");
            ExitCode::FAILURE
        }
    }
}

#[cfg(library)]
fn planned() -> Result<(), String> {
    use bench::answers::Refusal;
    use bench::library;
    use bench::plans::lists;
    use bench::records::{MeshAndTable, Records, ShardingRecord};

    let path = std::env::args()
        .nth(1)
        .ok_or("name a file to write, such as columns.plan")?;
    let refused = |refusal: Refusal| format!("{refusal}: docs/REFUSALS.md says what that is");
    let on = MeshAndTable {
        mesh: vec![2, 2],
        table: vec![4, 4],
        ..MeshAndTable::default()
    };
    let split = |dims: &[&[u8]]| ShardingRecord {
        dims: lists(dims),
        ..ShardingRecord::default()
    };
    let (start, goal) = (split(&[&[0, 1], &[]]), split(&[&[], &[0, 1]]));
    let steps = library::plan(&on, &start, &goal).map_err(refused)?;
    let file = library::write(&Records { on, start, steps }).map_err(refused)?;
    std::fs::write(&path, file).map_err(|error| format!("{path}: {error}"))?;

    let file = std::fs::read(&path).map_err(|error| format!("{path}: {error}"))?;
    for step in library::read(&file).map_err(refused)?.steps {
        println!("{step:?}");
    }
    Ok(())
}

#[cfg(not(library))]
fn planned() -> Result<(), String> {
    Err("target/staticlib/libcapi.a is not there: tools/build makes it".into())
}
