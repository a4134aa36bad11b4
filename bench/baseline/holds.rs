//! Judges the contract of a file at one of its effects, as `quelea holds FILE` does.
mod common;

use common::execution::{Effect, Execution, MOST_EFFECTS, seen, session};
use common::lines::{Lines, field, is_name, number, small};
use common::parse::parse_contract;
use common::relations::{At, Relations, places_text};
use common::types::{Checker, Formula, TWICE, TXN_ATOM, UNKNOWN, VARIABLES, formula};
use common::{Fault, MEBIBYTE, bad, end, fault, read};
use std::collections::HashMap;
use std::env;

const MOST_WORK: u128 = 20_000_000;

struct Asked<'a> {
    formula: Formula<'a>,
    at: usize,
    execution: Execution,
}

/// Words with their numbers, by first occurrence.
type Words<'a> = HashMap<&'a [u8], u32>;

fn numbered<'a>(words: &mut Words<'a>, word: &'a [u8]) -> u32 {
    let next = words.len() as u32;
    *words.entry(word).or_insert(next)
}

fn contract_line<'a>(at: usize, line: &'a [u8], ops: &mut Words<'a>) -> Result<Formula<'a>, Fault> {
    let unexpected = Fault { at, rule: "Unexpected" };
    let mut rest = line;
    if field(&mut rest) != Some(b"contract") {
        return Err(unexpected);
    }
    let contract = parse_contract(rest).map_err(|_| unexpected)?;
    let mut checker = Checker::default();
    checker.contract(&contract, None, false);
    let rules = [(UNKNOWN, "Unknown"), (TWICE, "Twice"), (TXN_ATOM, "TxnAtom"), (VARIABLES, "Variables")];
    for (number, rule) in rules {
        if checker.faults.iter().any(|(_, broken)| *broken == number) {
            return fault(at, rule);
        }
    }
    Ok(formula(&contract, |word| numbered(ops, word)))
}

/// `effect E OBJECT OP session S vis E..`
fn effect<'a>(line: &'a [u8], due: usize, ops: &mut Words<'a>, objects: &mut Words<'a>) -> Option<Effect> {
    let mut rest = line;
    let rest = &mut rest;
    (field(rest)? == b"effect" && number(field(rest)?)? == due as u64).then_some(())?;
    let object = field(rest).filter(|word| is_name(word))?;
    let op = field(rest).filter(|word| is_name(word))?;
    (field(rest)? == b"session").then_some(())?;
    let session = session(field(rest)?)?;
    (field(rest)? == b"vis").then_some(())?;
    let seen = seen(rest)?;
    Some(Effect { object: numbered(objects, object), op: numbered(ops, op), session, member: None, seen })
}

fn parse(text: &[u8]) -> Result<Asked<'_>, Fault> {
    let mut lines = Lines::new(text);
    let (mut ops, mut objects) = (Words::new(), Words::new());
    let Some((at, line)) = lines.next() else { return fault(lines.past(), "Unexpected") };
    let formula = contract_line(at, line, &mut ops)?;
    let Some((at_line, line)) = lines.next() else { return fault(lines.past(), "Unexpected") };
    let mut rest = line;
    let named = field(&mut rest) == Some(b"at");
    let at = field(&mut rest).and_then(small).filter(|_| named && rest.is_empty());
    let Some(at) = at else { return fault(at_line, "Unexpected") };
    let mut execution = Execution::default();
    loop {
        let Some((place, line)) = lines.next() else { return fault(lines.past(), "Unexpected") };
        if line.strip_prefix(b"end").is_some_and(|rest| rest.iter().all(|b| *b == b' ')) {
            break;
        }
        let due = execution.effects.len() + 1;
        let Some(effect) = effect(line, due, &mut ops, &mut objects) else { return fault(place, "Unexpected") };
        execution.push(effect).map_err(|rule| Fault { at: place, rule })?;
        if due > MOST_EFFECTS {
            return fault(place, "TooMany");
        }
    }
    if let Some((place, _)) = lines.next() {
        return fault(place, "Unexpected");
    }
    if at == 0 || at as usize > execution.effects.len() {
        return fault(at_line, "Range");
    }
    Ok(Asked { formula, at: at as usize, execution })
}

fn main() {
    let path = env::args().nth(1).expect("a file");
    let text = read(&path, MEBIBYTE);
    let Asked { formula, at, execution } = parse(&text).unwrap_or_else(|fault| bad("holds", fault));
    let work = (execution.effects.len() as u128).pow(formula.vars.len() as u32);
    if work > MOST_WORK {
        end(&format!("too much {work}\n"), 7);
    }
    let relations = Relations::build(&execution.effects);
    match relations.first_false(&formula, At::Effect(at - 1)) {
        None => end("holds\n", 0),
        Some(places) => end(&format!("fails{}\n", places_text(&formula, &places)), 1),
    }
}
