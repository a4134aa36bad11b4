//! Prints the size and a checksum of each ground problem of a source, as `ql_measure problems` does.
mod common;

use common::ground::{Level, OP_LEVELS, Problem, TXN_LEVELS, Target, problem};
use common::parse::parse_program;
use common::types::typecheck;
use common::{MEBIBYTE, bad, read};
use std::env;

// The offset and the prime of the hash of Fowler, Noll and Vo at 64 bits.
const OFFSET: u64 = 0xcbf29ce484222325;
const PRIME: u64 = 0x100000001b3;

fn checksum(problem: &Problem) -> u64 {
    let with = |sum: u64, number: u64| (sum ^ number).wrapping_mul(PRIME);
    problem.clauses.iter().fold(OFFSET, |sum, clause| {
        let numbers = clause.iter().map(|literal| 2 * literal.unsigned_abs() + (*literal > 0) as u64);
        with(numbers.fold(sum, with), 0)
    })
}

fn main() {
    for path in env::args().skip(1) {
        let text = read(&path, MEBIBYTE);
        let program = parse_program(&text).unwrap_or_else(|fault| bad("source", fault));
        let typed = typecheck(&program).unwrap_or_else(|fault| bad("source", fault));
        println!("{path}");
        let list = |kind: &str, k: usize, target: Target, levels: &[Level]| {
            for level in levels {
                let problem = problem(&typed, target, *level);
                let (variables, clauses) = (problem.variables, problem.clauses.len());
                let (word, sum) = (level.word(), checksum(&problem));
                println!("{kind} {k} {word}: {variables} variables, {clauses} clauses, {sum}");
            }
        };
        (0..typed.op_names.len()).for_each(|o| list("op", o, Target::Op(o), OP_LEVELS));
        (0..typed.txn_names.len()).for_each(|d| list("transaction", d, Target::Txn(d), TXN_LEVELS));
    }
}
