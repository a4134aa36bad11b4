//! Judges the refutation in a proof file, as `quelea proof FILE` does.
mod common;

use common::lines::{Lines, field, small};
use common::refutation::{Line, clause, line, verdict};
use common::{Fault, MEBIBYTE, bad, end, fault, read};
use std::env;

struct Proof {
    variables: u32,
    clauses: Vec<Vec<i64>>,
    lines: Vec<Line>,
}

fn variables(line: &[u8]) -> Option<u32> {
    let mut rest = line;
    let named = field(&mut rest)? == b"variables";
    let count = small(field(&mut rest)?)?;
    (named && rest.is_empty() && count <= 1000).then_some(count)
}

fn parse(text: &[u8]) -> Result<Proof, Fault> {
    let mut told = Lines::new(text);
    let Some((at, first)) = told.next() else { return fault(told.past(), "Unexpected") };
    let Some(variables) = variables(first) else { return fault(at, "Unexpected") };
    let mut proof = Proof { variables, clauses: Vec::new(), lines: Vec::new() };
    loop {
        let Some((at, next)) = told.next() else { return fault(told.past(), "Unexpected") };
        let unexpected = Fault { at, rule: "Unexpected" };
        let mut rest = next;
        match field(&mut rest) {
            Some(b"end") if rest.is_empty() => break,
            Some(b"c") if proof.lines.is_empty() => {
                let fits = |clause: &Vec<i64>| clause.iter().all(|literal| literal.abs() <= variables as i64);
                proof.clauses.push(clause(&mut rest, None).filter(fits).ok_or(unexpected)?);
            }
            _ => {
                let (number, line) = line(next).ok_or(unexpected)?;
                if number != proof.lines.len() as u64 + 1 {
                    return fault(at, "Number");
                }
                proof.lines.push(line);
            }
        }
    }
    match told.next() {
        None => Ok(proof),
        Some((at, _)) => fault(at, "Unexpected"),
    }
}

fn main() {
    let path = env::args().nth(1).expect("a file");
    let text = read(&path, MEBIBYTE);
    let Proof { variables, clauses, lines } = parse(&text).unwrap_or_else(|fault| bad("proof", fault));
    let (said, accepted) = verdict(variables as usize, &clauses, &lines);
    end(&format!("{said}\n"), !accepted as i32);
}
