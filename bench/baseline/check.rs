//! Judges a certificate of a source's levels, as `quelea check FILE CERTIFICATE` does.
mod common;

use common::ground::{Level, OP_LEVELS, TXN_LEVELS, Target, problem};
use common::lines::{Lines, field, is_name};
use common::parse::parse_program;
use common::refutation::{Line, line, verdict};
use common::types::{Typed, typecheck};
use common::{Fault, MEBIBYTE, bad, end, fault, read};
use std::env;
use std::fmt::Write;

struct Section<'a> {
    is_op: bool,
    name: &'a [u8],
    level: Level,
    lines: Vec<Line>,
}

fn fields(line: &[u8]) -> Vec<&[u8]> {
    line.split(|b| *b == b' ').filter(|field| !field.is_empty()).collect()
}

fn section(line: &[u8]) -> Option<Section<'_>> {
    let [kind, name, level] = fields(line)[..] else { return None };
    let is_op = kind == b"op";
    let level = Level::of(level)?;
    let levels = if is_op { OP_LEVELS } else { TXN_LEVELS };
    (is_name(name) && levels.contains(&level)).then_some(Section { is_op, name, level, lines: Vec::new() })
}

fn parse(text: &[u8]) -> Result<Vec<Section<'_>>, Fault> {
    let mut lines = Lines::new(text);
    let Some((at, first)) = lines.next() else { return fault(lines.past(), "Unexpected") };
    if fields(first)[..] != [&b"quelea"[..], b"certificate", b"1"] {
        return fault(at, "Unexpected");
    }
    let mut sections: Vec<Section> = Vec::new();
    loop {
        let Some((at, told)) = lines.next() else { return fault(lines.past(), "Unexpected") };
        let unexpected = Fault { at, rule: "Unexpected" };
        let mut rest = told;
        match (field(&mut rest), sections.last_mut()) {
            (Some(b"end"), _) if rest.is_empty() => break,
            (Some(b"op" | b"txn"), _) => sections.push(section(told).ok_or(unexpected)?),
            (_, None) => return Err(unexpected),
            (_, Some(section)) => {
                let (number, line) = line(told).ok_or(unexpected)?;
                if number != section.lines.len() as u64 + 1 {
                    return fault(at, "Number");
                }
                section.lines.push(line);
            }
        }
    }
    match lines.next() {
        None => Ok(sections),
        Some((at, _)) => fault(at, "Unexpected"),
    }
}

/// The first place at which a section isn't the one that is due.
fn out_of_order(typed: &Typed, sections: &[Section]) -> Option<usize> {
    let ops = typed.op_names.iter().map(|name| (true, *name));
    let due: Vec<(bool, &[u8])> = ops.chain(typed.txn_names.iter().map(|name| (false, *name))).collect();
    let fits = |k: usize| {
        let section = sections.get(k).map(|section| (section.is_op, section.name));
        section.is_some() && due.get(k).copied() == section
    };
    (0..due.len().max(sections.len())).find(|k| !fits(*k))
}

fn main() {
    let words: Vec<String> = env::args().collect();
    let (source, text) = (read(&words[1], MEBIBYTE), read(&words[2], 64 * MEBIBYTE));
    let program = parse_program(&source).unwrap_or_else(|fault| bad("source", fault));
    let typed = typecheck(&program).unwrap_or_else(|fault| bad("source", fault));
    let sections = parse(&text).unwrap_or_else(|fault| bad("certificate", fault));
    if let Some(k) = out_of_order(&typed, &sections) {
        end(&format!("order {}\n", k + 1), 1);
    }
    let mut said = String::new();
    for (k, section) in sections.iter().enumerate() {
        let target = if section.is_op { Target::Op(k) } else { Target::Txn(k - typed.op_names.len()) };
        let problem = problem(&typed, target, section.level);
        let (verdict, accepted) = verdict(problem.variables, &problem.clauses, &section.lines);
        let kind = if section.is_op { "op" } else { "txn" };
        let name = String::from_utf8_lossy(section.name);
        writeln!(said, "{kind} {name} {} {verdict}", section.level.word()).expect("memory");
        if !accepted {
            end(&said, 1);
        }
    }
    end(&said, 0);
}
