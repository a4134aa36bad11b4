//! Prints a source in its one spelling, or with `--check` only tells whether it is one, as `ql_measure reprint` does.
mod common;

use common::parse::parse_program;
use common::print::print_program;
use common::{MEBIBYTE, read};
use std::env;
use std::io::{self, Write};

fn main() -> io::Result<()> {
    let words: Vec<String> = env::args().skip(1).collect();
    let check = words.first().is_some_and(|word| word == "--check");
    for path in &words[check as usize..] {
        let text = read(path, MEBIBYTE);
        match parse_program(&text) {
            Err(_) => println!("no source"),
            Ok(_) if check => println!("a source"),
            Ok(program) => io::stdout().write_all(&print_program(&program))?,
        }
    }
    Ok(())
}
