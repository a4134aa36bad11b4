//! Judges all contracts of a source in an execution, as `quelea verify FILE EXECUTION` does.
mod common;

use common::execution::{Effect, EffectLine, Execution, MOST_EFFECTS, Member, effect_line};
use common::lines::Lines;
use common::parse::parse_program;
use common::relations::{At, Relations, places_text};
use common::types::{Typed, typecheck};
use common::{Fault, MEBIBYTE, bad, end, fault, read};
use std::collections::{BTreeMap, HashMap};
use std::env;

const MOST_WORK: u128 = 20_000_000;

/// An execution's objects by name: their numbers and their types.
type Objects<'a> = HashMap<&'a [u8], (u32, u32)>;

fn is_only(line: &[u8], word: &[u8]) -> bool {
    line.strip_prefix(word).is_some_and(|rest| rest.iter().all(|b| *b == b' '))
}

fn known<'a>(typed: &Typed, line: EffectLine<'a>, objects: &mut Objects<'a>) -> Result<Effect, &'static str> {
    let op = *typed.ops.get(line.op).ok_or("Unknown")?;
    let member = match line.member {
        None => None,
        Some((run, word)) => Some(Member { run, decl: *typed.txns.get(word).ok_or("Unknown")? }),
    };
    let of = typed.op_types[op as usize];
    let next = objects.len() as u32;
    let (object, first) = *objects.entry(line.object).or_insert((next, of));
    if first != of {
        return Err("Mixed");
    }
    Ok(Effect { object, op, session: line.session, member, seen: line.seen })
}

fn parse(typed: &Typed, text: &[u8]) -> Result<Execution, Fault> {
    let mut lines = Lines::new(text);
    loop {
        match lines.next() {
            None => return fault(lines.past(), "Unexpected"),
            Some((_, line)) if is_only(line, b"execution") => break,
            Some(_) => {}
        }
    }
    let (mut execution, mut objects) = (Execution::default(), Objects::new());
    loop {
        let Some((at, line)) = lines.next() else { return fault(lines.past(), "Unexpected") };
        if is_only(line, b"end") {
            break;
        }
        let due = execution.effects.len() + 1;
        let Some(line) = effect_line(line, due) else { return fault(at, "Unexpected") };
        let stamp = line.stamp;
        let effect = known(typed, line, &mut objects);
        let found = effect.and_then(|effect| execution.push(effect)).map_err(|rule| Fault { at, rule })?;
        if found != stamp {
            return fault(at, "Stamp");
        }
        if due > MOST_EFFECTS {
            return fault(at, "TooMany");
        }
    }
    match lines.next() {
        None => Ok(execution),
        Some((at, _)) => fault(at, "Unexpected"),
    }
}

/// The begun transactions, each with its declaration.
fn runs(effects: &[Effect]) -> BTreeMap<u32, u32> {
    effects.iter().filter_map(|effect| effect.member).map(|Member { run, decl }| (run, decl)).collect()
}

fn work(typed: &Typed, effects: &[Effect]) -> u128 {
    let choices = |variables: usize| (effects.len() as u128).pow(variables as u32);
    let of_ops: u128 = effects.iter().map(|effect| choices(typed.op_formulas[effect.op as usize].vars.len())).sum();
    let of_runs: u128 = runs(effects).values().map(|decl| choices(typed.txn_formulas[*decl as usize].vars.len())).sum();
    of_ops + of_runs
}

/// The first breach, as text.
fn breach(typed: &Typed, effects: &[Effect]) -> Option<String> {
    let relations = Relations::build(effects);
    for (e, effect) in effects.iter().enumerate() {
        let formula = &typed.op_formulas[effect.op as usize];
        if let Some(places) = relations.first_false(formula, At::Effect(e)) {
            let name = String::from_utf8_lossy(typed.op_names[effect.op as usize]);
            return Some(format!("fails op {name} at {}{}\n", e + 1, places_text(formula, &places)));
        }
    }
    for (run, decl) in runs(effects) {
        let formula = &typed.txn_formulas[decl as usize];
        if let Some(places) = relations.first_false(formula, At::Run(run)) {
            let name = String::from_utf8_lossy(typed.txn_names[decl as usize]);
            return Some(format!("fails txn {run}:{name}{}\n", places_text(formula, &places)));
        }
    }
    None
}

fn main() {
    let words: Vec<String> = env::args().collect();
    let (source, text) = (read(&words[1], MEBIBYTE), read(&words[2], 64 * MEBIBYTE));
    let program = parse_program(&source).unwrap_or_else(|fault| bad("source", fault));
    let typed = typecheck(&program).unwrap_or_else(|fault| bad("source", fault));
    let execution = parse(&typed, &text).unwrap_or_else(|fault| bad("execution", fault));
    drop(text);
    let work = work(&typed, &execution.effects);
    if work > MOST_WORK {
        end(&format!("too much {work}\n"), 7);
    }
    match breach(&typed, &execution.effects) {
        None => end("holds\n", 0),
        Some(said) => end(&said, 1),
    }
}
