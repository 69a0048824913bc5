//! Measures the proved price store beside the second program: the same scripts, in one process.
//!
//! Without arguments it prints tables of times. `--write FOLDER` writes the scripts to files, and `--count PROGRAM
//! SCRIPT` runs one program once on one script, for tools that count instructions.

#![forbid(unsafe_code)]

mod cases;
mod growth;
mod programs;
mod tables;
mod timing;
mod walk;

use std::env;
use std::fs;
use std::hint::black_box;
use std::path::Path;
use std::process::ExitCode;
use std::time::Instant;

use programs::Program;

const USAGE: &str = "usage: bench [--write FOLDER | --count proved|second SCRIPT]";

fn main() -> ExitCode {
    let words: Vec<String> = env::args().skip(1).collect();
    let words: Vec<&str> = words.iter().map(String::as_str).collect();
    let done = match words[..] {
        [] => measure(),
        ["--write", folder] => write(Path::new(folder)),
        ["--count", program, script] => count(program, script),
        _ => Err(USAGE.to_owned()),
    };
    match done {
        Ok(()) => ExitCode::SUCCESS,
        Err(message) => {
            eprintln!("{message}");
            ExitCode::FAILURE
        }
    }
}

/// Prints the tables of times.
fn measure() -> Result<(), String> {
    let started = Instant::now();
    let mut buffer = programs::buffer();
    buffer.fill(b'.');
    println!(
        "Nanoseconds, the least of many rounds in which the programs take turns. All listings were compared first and\n\
         are the same. The buffer is one for both; it is made and filled before the first run and never cleared.\n"
    );
    tables::calls(&cases::short(), &mut buffer)?;
    tables::commands(&cases::letters(), &mut buffer)?;
    tables::commands(&cases::full_length(), &mut buffer)?;
    tables::growths(&growth::all(), &mut buffer)?;
    println!("{:.1} s", started.elapsed().as_secs_f64());
    Ok(())
}

/// Writes the scripts to files of their names. Prints for each script its name, how many commands are of interest, and
/// the name of the script without them.
fn write(folder: &Path) -> Result<(), String> {
    for case in cases::all() {
        write_file(folder, &case.name, &case.script)?;
        println!("{} {} {}", case.name, case.commands(), cases::EMPTY);
    }
    for growth in growth::all() {
        let name = growth.name();
        let before = format!("{name}-before");
        write_file(folder, &name, &growth.with)?;
        write_file(folder, &before, &growth.without)?;
        println!("{name} {} {before}", growth.commands);
    }
    Ok(())
}

fn write_file(folder: &Path, name: &str, script: &[u8]) -> Result<(), String> {
    let file = folder.join(name);
    fs::write(&file, script).map_err(|error| format!("{}: {error}", file.display()))
}

/// Runs a program once on a script, which is a file or one of the cases.
fn count(program: &str, script: &str) -> Result<(), String> {
    let program: Program = program.parse()?;
    let script = find(script)?;
    let mut buffer = programs::buffer();
    black_box(program.list(&script, &mut buffer));
    Ok(())
}

fn find(script: &str) -> Result<Vec<u8>, String> {
    if Path::new(script).exists() {
        return fs::read(script).map_err(|error| format!("{script}: {error}"));
    }
    cases::all()
        .into_iter()
        .find(|case| case.name == script)
        .map(|case| case.script)
        .ok_or_else(|| format!("{script} is neither a file nor a case"))
}
