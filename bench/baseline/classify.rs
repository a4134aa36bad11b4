//! Finds the least levels of a source's operations and transactions, as `quelea classify FILE` does.
mod common;

use common::levels::levels;
use common::parse::parse_program;
use common::types::typecheck;
use common::{MEBIBYTE, bad, end, read};
use std::env;

fn main() {
    let path = env::args().nth(1).expect("a file");
    let text = read(&path, MEBIBYTE);
    let program = parse_program(&text).unwrap_or_else(|fault| bad("source", fault));
    let typed = typecheck(&program).unwrap_or_else(|fault| bad("source", fault));
    match levels(&typed) {
        Ok(levels) => end(&levels.print(&typed), 0),
        Err(line) => end(&line, 1),
    }
}
