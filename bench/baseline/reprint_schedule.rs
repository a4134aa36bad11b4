//! Prints schedules for the program of a source in their one spelling, as `ql_measure
//! reprint_schedule` does.
mod common;

use common::parse::parse_program;
use common::schedule::{Known, parse_schedule, print_schedule};
use common::types::typecheck;
use common::{MEBIBYTE, end, read};
use std::env;
use std::io::{self, Write};

fn main() -> io::Result<()> {
    let paths: Vec<String> = env::args().skip(1).collect();
    let Some((source, schedules)) = paths.split_first() else { return Ok(()) };
    let source = read(source, MEBIBYTE);
    let Ok(program) = parse_program(&source) else { end("", 0) };
    let Ok(typed) = typecheck(&program) else { end("", 0) };
    let known = Known::of(&program, &typed);
    let types: Vec<&[u8]> = program.types.iter().map(|decl| decl.name.word).collect();
    for path in schedules {
        let text = read(path, MEBIBYTE);
        match parse_schedule(&known, &text) {
            Err(_) => println!("no schedule"),
            Ok(schedule) => io::stdout().write_all(&print_schedule(&typed, &types, &schedule))?,
        }
    }
    Ok(())
}
