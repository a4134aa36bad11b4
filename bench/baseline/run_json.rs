//! Runs a schedule over a simulated store at the least levels of a source, and prints it as JSON, as `quelea run --json FILE
//! SCHEDULE` does.
mod common;

use common::command::with_store;
use common::levels::Levels;
use common::schedule::Schedule;
use common::store::{Effect, Store};
use common::types::Typed;
use common::value::{Scalar, Value};
use std::io::{self, Write};

fn main() -> io::Result<()> {
    with_store(|typed, levels, schedule, mut store| {
        let replies: Vec<_> = schedule.events.iter().map(|event| store.step(event)).collect();
        let mut out = b"{\"execution\":".to_vec();
        let numbered = store.effects.iter().zip(1..);
        listed(&mut out, numbered, |out, (effect, id)| print_effect(typed, schedule, &store, id, effect, out))?;
        out.extend_from_slice(b",\"levels\":");
        print_levels(typed, levels, &mut out)?;
        out.extend_from_slice(b",\"replies\":");
        let mut said = Vec::new();
        listed(&mut out, &replies, |out, reply| {
            said.clear();
            reply.print(&store.effects, &mut said)?;
            string(out, &said)
        })?;
        out.extend_from_slice(b"}\n");
        io::stdout().write_all(&out)
    })
}

fn print_levels(typed: &Typed, levels: &Levels, out: &mut Vec<u8>) -> io::Result<()> {
    let ops = typed.op_names.iter().zip(&levels.ops).map(|(name, level)| ("op", name, level));
    let txns = typed.txn_names.iter().zip(&levels.txns).map(|(name, level)| ("txn", name, level));
    listed(out, ops.chain(txns), |out, (word, name, level)| {
        listed(out, [word.as_bytes(), name, level.word().as_bytes()], string)
    })
}

fn print_effect(typed: &Typed, schedule: &Schedule, store: &Store, id: u32, effect: &Effect, out: &mut Vec<u8>) -> io::Result<()> {
    out.extend_from_slice(b"{\"answer\":");
    print_value(out, &effect.answer)?;
    out.extend_from_slice(b",\"args\":");
    listed(out, &effect.args, print_value)?;
    write!(out, ",\"id\":{id},\"object\":")?;
    string(out, schedule.objects[effect.object as usize])?;
    out.extend_from_slice(b",\"op\":");
    string(out, typed.op_names[effect.op as usize])?;
    out.extend_from_slice(b",\"payload\":");
    match &effect.payload {
        Some(values) => listed(out, values, print_value)?,
        None => out.extend_from_slice(b"null"),
    }
    write!(out, ",\"session\":{},\"stamp\":{},\"txn\":", effect.session, effect.stamp)?;
    match effect.run {
        Some(run) => {
            write!(out, "[{},", run + 1)?;
            string(out, typed.txn_names[store.runs[run].decl as usize])?;
            out.push(b']');
        }
        None => out.extend_from_slice(b"null"),
    }
    out.extend_from_slice(b",\"vis\":");
    listed(out, &effect.seen, |out, seen| write!(out, "{seen}"))?;
    out.push(b'}');
    Ok(())
}

fn print_value(out: &mut Vec<u8>, value: &Value) -> io::Result<()> {
    match value {
        Value::Unit => write!(out, "null"),
        Value::Scalar(scalar) => print_scalar(out, scalar),
        Value::Set(items) => listed(out, items, print_scalar),
        Value::Map(items) => listed(out, items, |out, (key, value)| listed(out, [key, value], print_scalar)),
    }
}

fn print_scalar(out: &mut Vec<u8>, scalar: &Scalar) -> io::Result<()> {
    match scalar {
        Scalar::Int(number) => write!(out, "{number}"),
        Scalar::Bool(value) => write!(out, "{value}"),
        Scalar::Text(text) => string(out, text),
    }
}

/// Text of printable ASCII.
fn string(out: &mut Vec<u8>, text: &[u8]) -> io::Result<()> {
    out.push(b'"');
    for byte in text {
        if matches!(byte, b'"' | b'\\') {
            out.push(b'\\');
        }
        out.push(*byte);
    }
    out.push(b'"');
    Ok(())
}

fn listed<T>(
    out: &mut Vec<u8>,
    items: impl IntoIterator<Item = T>,
    mut print: impl FnMut(&mut Vec<u8>, T) -> io::Result<()>,
) -> io::Result<()> {
    out.push(b'[');
    for (k, item) in items.into_iter().enumerate() {
        if k > 0 {
            out.push(b',');
        }
        print(out, item)?;
    }
    out.push(b']');
    Ok(())
}
