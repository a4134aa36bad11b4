//! What `run` and `run --json` begin with.
use super::levels::{Levels, levels};
use super::parse::parse_program;
use super::schedule::{Known, Schedule, parse_schedule};
use super::store::Store;
use super::types::{Typed, typecheck};
use super::{MEBIBYTE, bad, end, read};
use std::{env, io};

/// Reads the source and the schedule that the arguments name, and hands on an empty store at the least levels.
pub fn with_store(
    then: impl for<'p> FnOnce(&'p Typed<'p>, &'p Levels, &'p Schedule<'p>, Store<'p>) -> io::Result<()>,
) -> io::Result<()> {
    let path = |k: usize| env::args().nth(k).expect("two files");
    let text = read(&path(1), MEBIBYTE);
    let program = parse_program(&text).unwrap_or_else(|fault| bad("source", fault));
    let typed = typecheck(&program).unwrap_or_else(|fault| bad("source", fault));
    let text = read(&path(2), MEBIBYTE);
    let schedule = parse_schedule(&Known::of(&program, &typed), &text).unwrap_or_else(|fault| bad("schedule", fault));
    let levels = levels(&typed).unwrap_or_else(|line| end(&line, 1));
    let store = Store::new(&program, &typed, &levels.ops, &levels.txns, schedule.replicas as usize);
    then(&typed, &levels, &schedule, store)
}
