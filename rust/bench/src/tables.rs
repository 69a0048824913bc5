//! The tables of times.

use std::time::Duration;

use crate::cases::Case;
use crate::growth::Growth;
use crate::programs::common_listing;
use crate::timing::least_times;

const TIME_FOR_A_ROW: Duration = Duration::from_millis(400);
const TIME_FOR_A_DIFFERENCE: Duration = Duration::from_millis(800);

/// Prints the times of whole calls.
pub fn calls(cases: &[Case], buffer: &mut [u8]) -> Result<(), String> {
    print_heading("one call", "commands");
    for case in cases {
        let listing = checked_listing(&case.name, &case.script, buffer)?;
        let commands = lines(&listing).count().to_string();
        print_row(&case.name, &commands, times(&case.script, buffer));
    }
    println!();
    Ok(())
}

/// Prints the times of a command.
pub fn commands(cases: &[Case], buffer: &mut [u8]) -> Result<(), String> {
    print_heading("one command", "commands");
    for case in cases {
        let listing = checked_listing(&case.name, &case.script, buffer)?;
        let commands = lines(&listing).count() as f64;
        let times = times(&case.script, buffer).map(|time| time / commands);
        print_row(&case.name, &composition(case.letter, &listing), times);
    }
    println!();
    Ok(())
}

/// Prints the times of a command at servers that hold more and more versions.
pub fn growths(growths: &[Growth], buffer: &mut [u8]) -> Result<(), String> {
    print_heading("one command", "held");
    for growth in growths {
        let name = char::from(growth.letter).to_string();
        checked_listing(&name, &growth.with, buffer)?;
        let times = differences(growth, buffer).map(|time| time / growth.commands as f64);
        print_row(&name, &growth.held.to_string(), times);
    }
    println!();
    Ok(())
}

fn checked_listing(name: &str, script: &[u8], buffer: &mut [u8]) -> Result<Vec<u8>, String> {
    common_listing(script, buffer).map_err(|error| format!("{name}: {error}"))
}

fn lines(listing: &[u8]) -> impl Iterator<Item = &[u8]> {
    listing.split_inclusive(|&byte| byte == b'\n')
}

/// How many commands a script has, and how many of a hundred have the letter that it is about.
fn composition(letter: Option<u8>, listing: &[u8]) -> String {
    let commands = lines(listing).count();
    let Some(letter) = letter else {
        return commands.to_string();
    };
    let own = lines(listing)
        .filter(|line| line.split(|&byte| byte == b' ').nth(1) == Some(&[letter]))
        .count();
    format!("{}% of {commands}", own * 100 / commands)
}

/// The time of a script with each program.
fn times(script: &[u8], buffer: &mut [u8]) -> [f64; 3] {
    least_times([script], buffer, TIME_FOR_A_ROW).map(|[time]| time)
}

/// How much longer each program takes for the script with the commands in question than for the one without them.
fn differences(growth: &Growth, buffer: &mut [u8]) -> [f64; 3] {
    let scripts = [&growth.without[..], &growth.with];
    least_times(scripts, buffer, TIME_FOR_A_DIFFERENCE).map(|[without, with]| with - without)
}

fn print_heading(what: &str, size: &str) {
    println!(
        "{:<12}{size:>14}{:>12}{:>12}{:>12}{:>16}",
        what, "proved", "second", "its vector", "proved/second"
    );
}

/// The ratio is left out where a difference is lost in the noise.
fn print_row(name: &str, size: &str, [proved, second, vector]: [f64; 3]) {
    let ratio = if proved > 0.0 && second > 0.0 {
        format!("{:.2}", proved / second)
    } else {
        "-".to_owned()
    };
    println!("{name:<12}{size:>14}{proved:>12.1}{second:>12.1}{vector:>12.1}{ratio:>16}");
}
