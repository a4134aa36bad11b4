//! What the plain programs share: readers of sources and of line files, ground problems, a solver, executions,
//! replicas, a store.
#![allow(dead_code)]
pub mod command;
pub mod draws;
pub mod execution;
pub mod ground;
pub mod lex;
pub mod levels;
pub mod lines;
pub mod parse;
pub mod print;
pub mod refutation;
pub mod relations;
pub mod replica;
pub mod schedule;
pub mod solver;
pub mod store;
pub mod tree;
pub mod types;
pub mod value;

use std::{fs, process};

pub const MEBIBYTE: usize = 1 << 20;

/// A fault of a file: the place, a byte of a source or a line of a line file, and the rule.
#[derive(Clone, Copy, Debug, PartialEq, Eq)]
pub struct Fault {
    pub at: usize,
    pub rule: &'static str,
}

pub fn fault<T>(at: usize, rule: &'static str) -> Result<T, Fault> {
    Err(Fault { at, rule })
}

/// Ends the program with a text and a status.
pub fn end(said: &str, status: i32) -> ! {
    print!("{said}");
    process::exit(status)
}

pub fn bad(part: &str, fault: Fault) -> ! {
    end(&format!("bad {part} at {}: {}\n", fault.at, fault.rule), 2)
}

/// The bytes of a file, at most so many.
pub fn read(path: &str, most: usize) -> Vec<u8> {
    let bytes = fs::read(path).unwrap_or_else(|_| end(&format!("read fault {path}\n"), 3));
    if bytes.len() > most {
        end(&format!("too large {path}\n"), 7);
    }
    bytes
}
