//! Schedules: their reader, with the first fault, and their one spelling.
use super::lines::{Lines, field, is_name, number};
use super::tree::{Base, Program};
use super::types::Typed;
use super::{Fault, fault};
use std::collections::HashMap;
use std::io::Write;

const MOST_REPLICAS: u64 = 16;
const MOST_SESSIONS: u64 = 256;
const MOST_OBJECTS: usize = 1024;
const MOST_EVENTS: usize = 4000;
const MOST_DECLARED: usize = 16;

pub enum Value<'a> {
    Int(i64),
    Bool(bool),
    Text(&'a [u8]),
}

pub enum Event<'a> {
    Call { session: u8, replica: u8, object: u32, op: u32, args: Vec<Value<'a>> },
    Begin { session: u8, replica: u8, decl: u32, objects: Vec<u32> },
    Commit { session: u8, replica: u8 },
    Deliver(u32),
    Repeat(u32),
    Lose(u32),
    Resend { effect: u32, from: u8, to: u8 },
    Partition(Vec<u8>),
    Heal,
    Join { near: u8, copy: bool },
}

#[derive(Default)]
pub struct Schedule<'a> {
    version: u64,
    pub replicas: u64,
    joined: u64,
    pub objects: Vec<&'a [u8]>,
    pub kinds: Vec<u32>,
    pub events: Vec<Event<'a>>,
    numbers: HashMap<&'a [u8], u32>,
}

/// What a part of an event's line says before it is judged.
enum Argument<'a> {
    Given(Value<'a>),
    TooGreat,
}

/// The names and parameters that events are judged by.
pub struct Known<'a> {
    types: HashMap<&'a [u8], u32>,
    params: Vec<Vec<Base>>,
    typed: &'a Typed<'a>,
}

impl<'a> Known<'a> {
    pub fn of(program: &Program<'a>, typed: &'a Typed<'a>) -> Self {
        let ops = program.types.iter().flat_map(|decl| &decl.ops);
        Known {
            types: program.types.iter().map(|decl| decl.name.word).zip(0..).collect(),
            params: ops.map(|op| op.params.iter().map(|param| param.base).collect()).collect(),
            typed,
        }
    }
}

pub fn parse_schedule<'a>(known: &Known<'a>, text: &'a [u8]) -> Result<Schedule<'a>, Fault> {
    let mut lines = Lines::new(text);
    let mut schedule = Schedule::default();
    let Some((at, mut line)) = lines.next() else { return fault(lines.past(), "Unexpected") };
    schedule.version = version(&mut line).ok_or(Fault { at, rule: "Unexpected" })?;
    let Some((at, mut line)) = lines.next() else { return fault(lines.past(), "Unexpected") };
    schedule.replicas = replicas(&mut line).ok_or(Fault { at, rule: "Unexpected" })?;
    if !(1..=MOST_REPLICAS).contains(&schedule.replicas) {
        return fault(at, "Range");
    }
    loop {
        let Some((at, mut line)) = lines.next() else { return fault(lines.past(), "Unexpected") };
        match field(&mut line) {
            Some(b"events") if line.is_empty() => break,
            Some(b"object") => object(known, &mut schedule, line).map_err(|rule| Fault { at, rule })?,
            _ => return fault(at, "Unexpected"),
        }
    }
    for (at, line) in lines.by_ref() {
        let event = event(known, &schedule, line).map_err(|rule| Fault { at, rule })?;
        schedule.joined += u64::from(matches!(event, Event::Join { .. }));
        schedule.events.push(event);
    }
    Ok(schedule)
}

fn version(line: &mut &[u8]) -> Option<u64> {
    let words = [field(line)?, field(line)?, field(line)?];
    match words {
        [b"quelea", b"schedule", b"1"] if line.is_empty() => Some(1),
        [b"quelea", b"schedule", b"2"] if line.is_empty() => Some(2),
        _ => None,
    }
}

fn replicas(line: &mut &[u8]) -> Option<u64> {
    let word = field(line)?;
    let count = whole(field(line)?)?;
    (word == b"replicas" && line.is_empty()).then_some(count)
}

/// A number however great; those beyond 64 bits are the greatest.
fn whole(field: &[u8]) -> Option<u64> {
    let digits = !field.is_empty() && field.iter().all(u8::is_ascii_digit) && (field[0] != b'0' || field.len() == 1);
    digits.then(|| number(field).unwrap_or(u64::MAX))
}

fn object<'a>(known: &Known<'a>, schedule: &mut Schedule<'a>, mut line: &'a [u8]) -> Result<(), &'static str> {
    let name = field(&mut line).filter(|name| is_name(name)).ok_or("Unexpected")?;
    let of = field(&mut line).filter(|name| is_name(name)).ok_or("Unexpected")?;
    if !line.is_empty() {
        return Err("Unexpected");
    }
    let kind = *known.types.get(of).ok_or("Unknown")?;
    if schedule.objects.len() == MOST_OBJECTS {
        return Err("TooMany");
    }
    if schedule.numbers.insert(name, schedule.objects.len() as u32).is_some() {
        return Err("Twice");
    }
    schedule.objects.push(name);
    schedule.kinds.push(kind);
    Ok(())
}

struct Caller {
    session: u64,
    replica: u64,
}

fn caller(line: &mut &[u8]) -> Option<Caller> {
    let session = whole(field(line)?)?;
    let at = field(line)?;
    let replica = whole(field(line)?)?;
    (at == b"at").then_some(Caller { session, replica })
}

impl Schedule<'_> {
    /// How many replicas there are after the events that were read.
    fn present(&self) -> u64 {
        self.replicas + self.joined
    }
}

impl Caller {
    fn in_range(&self, schedule: &Schedule) -> Result<(u8, u8), &'static str> {
        if self.session >= MOST_SESSIONS || self.replica >= schedule.present() {
            return Err("Range");
        }
        Ok((self.session as u8, self.replica as u8))
    }
}

fn event<'a>(known: &Known<'a>, schedule: &Schedule<'a>, mut line: &'a [u8]) -> Result<Event<'a>, &'static str> {
    let event = match field(&mut line) {
        Some(b"call") => call(known, schedule, line)?,
        Some(b"begin") => begin(known, schedule, line)?,
        Some(b"commit") => {
            let caller = caller(&mut line).filter(|_| line.is_empty()).ok_or("Unexpected")?;
            let (session, replica) = caller.in_range(schedule)?;
            Event::Commit { session, replica }
        }
        Some(b"deliver") => Event::Deliver(only(line)?),
        Some(b"repeat") => Event::Repeat(only(line)?),
        Some(b"lose") => Event::Lose(only(line)?),
        Some(b"resend") => resend(schedule, line)?,
        Some(b"partition") => partition(schedule, line)?,
        Some(b"heal") if line.is_empty() => Event::Heal,
        Some(b"join") if schedule.version == 2 => join(schedule, line)?,
        _ => return Err("Unexpected"),
    };
    if schedule.events.len() == MOST_EVENTS {
        return Err("TooMany");
    }
    Ok(event)
}

fn only(mut line: &[u8]) -> Result<u32, &'static str> {
    let number = field(&mut line).and_then(whole).filter(|_| line.is_empty()).ok_or("Unexpected")?;
    number.try_into().map_err(|_| "Range")
}

fn resend<'a>(schedule: &Schedule, mut line: &[u8]) -> Result<Event<'a>, &'static str> {
    let numbers = resend_numbers(&mut line).filter(|_| line.is_empty()).ok_or("Unexpected")?;
    let [effect, from, to] = numbers;
    let effect = effect.try_into().map_err(|_| "Range")?;
    if from >= schedule.present() || to >= schedule.present() {
        return Err("Range");
    }
    Ok(Event::Resend { effect, from: from as u8, to: to as u8 })
}

fn resend_numbers(line: &mut &[u8]) -> Option<[u64; 3]> {
    let effect = whole(field(line)?)?;
    let from_word = field(line)?;
    let from = whole(field(line)?)?;
    let to_word = field(line)?;
    let to = whole(field(line)?)?;
    (from_word == b"from" && to_word == b"to").then_some([effect, from, to])
}

fn partition<'a>(schedule: &Schedule, mut line: &[u8]) -> Result<Event<'a>, &'static str> {
    let mut groups = Vec::new();
    while let Some(part) = field(&mut line) {
        groups.push(whole(part).ok_or("Unexpected")?);
    }
    if groups.len() as u64 != schedule.present() || groups.iter().any(|group| *group >= MOST_REPLICAS) {
        return Err("Range");
    }
    Ok(Event::Partition(groups.iter().map(|group| *group as u8).collect()))
}

fn join<'a>(schedule: &Schedule, mut line: &[u8]) -> Result<Event<'a>, &'static str> {
    let copy = match field(&mut line) {
        Some(b"copy") => true,
        Some(b"bare") => false,
        _ => return Err("Unexpected"),
    };
    let near = field(&mut line).and_then(whole).filter(|_| line.is_empty()).ok_or("Unexpected")?;
    if near >= schedule.present() {
        return Err("Range");
    }
    if schedule.present() == MOST_REPLICAS {
        return Err("TooMany");
    }
    Ok(Event::Join { near: near as u8, copy })
}

fn call<'a>(known: &Known<'a>, schedule: &Schedule<'a>, mut line: &'a [u8]) -> Result<Event<'a>, &'static str> {
    let caller = caller(&mut line).ok_or("Unexpected")?;
    let object = field(&mut line).filter(|name| is_name(name)).ok_or("Unexpected")?;
    let op = field(&mut line).filter(|name| is_name(name)).ok_or("Unexpected")?;
    let mut args = Vec::new();
    while !line.is_empty() {
        args.push(argument(&mut line).ok_or("Unexpected")?);
    }
    let object = *schedule.numbers.get(object).ok_or("Unknown")?;
    let op = *known.typed.ops.get(op).ok_or("Unknown")?;
    let params = &known.params[op as usize];
    let fits = args.len() == params.len() && args.iter().zip(params).all(|(arg, base)| arg.is_of(*base));
    if known.typed.op_types[op as usize] != schedule.kinds[object as usize] || !fits {
        return Err("Kind");
    }
    let (session, replica) = caller.in_range(schedule)?;
    let mut values = Vec::with_capacity(args.len());
    for arg in args {
        match arg {
            Argument::Given(value) => values.push(value),
            Argument::TooGreat => return Err("Range"),
        }
    }
    Ok(Event::Call { session, replica, object, op, args: values })
}

impl Argument<'_> {
    fn is_of(&self, base: Base) -> bool {
        match self {
            Argument::Given(Value::Int(_)) | Argument::TooGreat => base == Base::Int,
            Argument::Given(Value::Bool(_)) => base == Base::Bool,
            Argument::Given(Value::Text(_)) => base == Base::Text,
        }
    }
}

fn argument<'a>(line: &mut &'a [u8]) -> Option<Argument<'a>> {
    if line[0] == b'"' {
        return quoted(line).map(|text| Argument::Given(Value::Text(text)));
    }
    let part = field(line)?;
    match part {
        b"true" => Some(Argument::Given(Value::Bool(true))),
        b"false" => Some(Argument::Given(Value::Bool(false))),
        _ => integer(part),
    }
}

/// Splits off a text without its quotes, and the spaces after it.
fn quoted<'a>(line: &mut &'a [u8]) -> Option<&'a [u8]> {
    let inner = &line[1..];
    let end = inner.iter().position(|b| !(32..=126).contains(b) || *b == b'"' || *b == b'\\')?;
    let after = &inner[end + 1..];
    if inner[end] != b'"' || end > 64 || after.first().is_some_and(|b| *b != b' ') {
        return None;
    }
    *line = super::lines::trimmed(after);
    Some(&inner[..end])
}

fn integer<'a>(part: &[u8]) -> Option<Argument<'a>> {
    let (digits, negative) = match part.strip_prefix(b"-") {
        Some(digits) => (digits, true),
        None => (part, false),
    };
    let size = whole(digits)?;
    if negative && size == 0 {
        return None;
    }
    let value = if negative { -(size as i128) } else { size as i128 };
    Some(i64::try_from(value).map_or(Argument::TooGreat, |value| Argument::Given(Value::Int(value))))
}

fn begin<'a>(known: &Known<'a>, schedule: &Schedule<'a>, mut line: &[u8]) -> Result<Event<'a>, &'static str> {
    let caller = caller(&mut line).ok_or("Unexpected")?;
    let txn = field(&mut line).filter(|name| is_name(name)).ok_or("Unexpected")?;
    let mut names = Vec::new();
    while let Some(name) = field(&mut line) {
        if !is_name(name) {
            return Err("Unexpected");
        }
        names.push(name);
    }
    if names.is_empty() {
        return Err("Unexpected");
    }
    let decl = *known.typed.txns.get(txn).ok_or("Unknown")?;
    let mut objects = Vec::with_capacity(names.len());
    for name in &names {
        objects.push(*schedule.numbers.get(name).ok_or("Unknown")?);
    }
    let (session, replica) = caller.in_range(schedule)?;
    if objects.len() > MOST_DECLARED {
        return Err("TooMany");
    }
    objects.sort_unstable();
    if objects.windows(2).any(|pair| pair[0] == pair[1]) {
        return Err("Twice");
    }
    Ok(Event::Begin { session, replica, decl, objects })
}

pub fn print_schedule(typed: &Typed, types: &[&[u8]], schedule: &Schedule) -> Vec<u8> {
    let mut out = Vec::new();
    print(typed, types, schedule, &mut out).expect("a vector takes all");
    out
}

fn print(typed: &Typed, types: &[&[u8]], schedule: &Schedule, out: &mut Vec<u8>) -> std::io::Result<()> {
    write!(out, "quelea schedule {}\nreplicas {}\n", schedule.version, schedule.replicas)?;
    for (name, kind) in schedule.objects.iter().zip(&schedule.kinds) {
        put(out, &[b"object ", name, b" ", types[*kind as usize], b"\n"]);
    }
    put(out, &[b"events\n"]);
    for event in &schedule.events {
        print_event(typed, &schedule.objects, event, out)?;
        out.push(b'\n');
    }
    Ok(())
}

fn put(out: &mut Vec<u8>, parts: &[&[u8]]) {
    for part in parts {
        out.extend_from_slice(part);
    }
}

fn print_event(typed: &Typed, names: &[&[u8]], event: &Event, out: &mut Vec<u8>) -> std::io::Result<()> {
    match event {
        Event::Call { session, replica, object, op, args } => {
            write!(out, "call {session} at {replica} ")?;
            put(out, &[names[*object as usize], b" ", typed.op_names[*op as usize]]);
            for arg in args {
                match arg {
                    Value::Int(value) => write!(out, " {value}")?,
                    Value::Bool(value) => write!(out, " {value}")?,
                    Value::Text(text) => put(out, &[b" \"", text, b"\""]),
                }
            }
            Ok(())
        }
        Event::Begin { session, replica, decl, objects } => {
            write!(out, "begin {session} at {replica} ")?;
            put(out, &[typed.txn_names[*decl as usize]]);
            objects.iter().for_each(|object| put(out, &[b" ", names[*object as usize]]));
            Ok(())
        }
        Event::Commit { session, replica } => write!(out, "commit {session} at {replica}"),
        Event::Deliver(message) => write!(out, "deliver {message}"),
        Event::Repeat(message) => write!(out, "repeat {message}"),
        Event::Lose(message) => write!(out, "lose {message}"),
        Event::Resend { effect, from, to } => write!(out, "resend {effect} from {from} to {to}"),
        Event::Partition(groups) => {
            put(out, &[b"partition"]);
            groups.iter().try_for_each(|group| write!(out, " {group}"))
        }
        Event::Heal => write!(out, "heal"),
        Event::Join { near, copy } => write!(out, "join {} {near}", if *copy { "copy" } else { "bare" }),
    }
}
