//! Executions: effects that see earlier ones.
use super::lines::{field, is_name, number, small};
use std::collections::HashMap;

pub const MOST_EFFECTS: usize = 4000;

#[derive(Clone, Copy, Debug, PartialEq, Eq)]
pub struct Member {
    pub run: u32,
    pub decl: u32,
}

pub struct Effect {
    pub object: u32,
    pub op: u32,
    pub session: u8,
    pub member: Option<Member>,
    pub seen: Vec<u32>,
}

/// An execution, and what is needed to judge its next effect.
#[derive(Default)]
pub struct Execution {
    pub effects: Vec<Effect>,
    stamps: Vec<u32>,
    last_of_session: HashMap<u8, usize>,
    runs: HashMap<u32, (u8, u32)>,
}

impl Execution {
    /// Adds an effect and tells its stamp; or the rule that it breaks.
    pub fn push(&mut self, effect: Effect) -> Result<u32, &'static str> {
        let seen = &effect.seen;
        let not_earlier = |a: &u32| *a == 0 || *a as usize > self.effects.len();
        if seen.iter().any(not_earlier) {
            return Err("NotForward");
        }
        if seen.iter().any(|a| self.effects[*a as usize - 1].object != effect.object) {
            return Err("OtherObject");
        }
        let last = self.last_of_session.get(&effect.session).copied();
        if let Some(Member { run, decl }) = effect.member {
            if let Some(earlier) = self.runs.get(&run) {
                let unbroken = last.is_some_and(|e| self.effects[e].member.is_some_and(|member| member.run == run));
                if *earlier != (effect.session, decl) || !unbroken {
                    return Err("SplitTxn");
                }
            }
            self.runs.insert(run, (effect.session, decl));
        }
        let seen_stamps = seen.iter().map(|a| self.stamps[*a as usize - 1]);
        let stamp = 1 + seen_stamps.chain(last.map(|e| self.stamps[e])).max().unwrap_or(0);
        self.last_of_session.insert(effect.session, self.effects.len());
        self.effects.push(effect);
        self.stamps.push(stamp);
        Ok(stamp)
    }
}

/// The ids of a list that ascends.
pub fn seen(mut rest: &[u8]) -> Option<Vec<u32>> {
    let mut ids: Vec<u32> = Vec::new();
    while let Some(field) = field(&mut rest) {
        let id = small(field)?;
        if ids.last().is_some_and(|last| *last >= id) {
            return None;
        }
        ids.push(id);
    }
    Some(ids)
}

pub fn session(field: &[u8]) -> Option<u8> {
    number(field)?.try_into().ok()
}

/// An effect's line in a file of an execution, with words in place of numbers.
pub struct EffectLine<'a> {
    pub object: &'a [u8],
    pub op: &'a [u8],
    pub session: u8,
    pub member: Option<(u32, &'a [u8])>,
    pub stamp: u32,
    pub seen: Vec<u32>,
}

/// `effect E OBJECT OP (VALUE, ..) = VALUE emit PAYLOAD session S txn T stamp N vis E..`
pub fn effect_line(mut rest: &[u8], due: usize) -> Option<EffectLine<'_>> {
    let rest = &mut rest;
    word(rest, b"effect")?;
    (number(field(rest)?)? == due as u64).then_some(())?;
    let object = field(rest).filter(|word| is_name(word))?;
    let op = field(rest).filter(|word| is_name(word))?;
    values(rest)?;
    word(rest, b"=")?;
    value(rest)?;
    spaced(rest)?;
    word(rest, b"emit")?;
    if rest.first() == Some(&b'-') { word(rest, b"-")? } else { values(rest)? }
    word(rest, b"session")?;
    let session = session(field(rest)?)?;
    word(rest, b"txn")?;
    let member = member(field(rest)?)?;
    word(rest, b"stamp")?;
    let stamp = small(field(rest)?)?;
    word(rest, b"vis")?;
    Some(EffectLine { object, op, session, member, stamp, seen: seen(rest)? })
}

fn word(rest: &mut &[u8], wanted: &[u8]) -> Option<()> {
    (field(rest)? == wanted).then_some(())
}

/// None, or the number and the declared name of a begun transaction.
fn member(field: &[u8]) -> Option<Option<(u32, &[u8])>> {
    if field == b"-" {
        return Some(None);
    }
    let colon = field.iter().position(|b| *b == b':')?;
    let run = small(&field[..colon]).filter(|run| *run > 0)?;
    let decl = &field[colon + 1..];
    is_name(decl).then_some(Some((run, decl)))
}

/// Past the spaces behind a value, of which there is one at least where the line goes on.
fn spaced(rest: &mut &[u8]) -> Option<()> {
    if !rest.is_empty() && rest[0] != b' ' {
        return None;
    }
    spaces(rest);
    Some(())
}

fn spaces(rest: &mut &[u8]) {
    *rest = super::lines::trimmed(rest);
}

fn byte(rest: &mut &[u8], wanted: u8) -> bool {
    let there = rest.first() == Some(&wanted);
    *rest = &rest[there as usize..];
    there
}

/// Values in parentheses.
fn values(rest: &mut &[u8]) -> Option<()> {
    if !byte(rest, b'(') {
        return None;
    }
    if !byte(rest, b')') {
        value(rest)?;
        while byte(rest, b',') {
            spaces(rest);
            value(rest)?;
        }
        if !byte(rest, b')') {
            return None;
        }
    }
    spaced(rest)
}

#[derive(Clone, Copy, PartialEq, PartialOrd)]
enum Scalar<'a> {
    Int(i64),
    Bool(bool),
    Text(&'a [u8]),
}

/// Reads past a value of any kind.
fn value(rest: &mut &[u8]) -> Option<()> {
    if let Some(after) = rest.strip_prefix(b"unit") {
        *rest = after;
        return Some(());
    }
    if !byte(rest, b'{') {
        return scalar(rest).map(drop);
    }
    if byte(rest, b':') {
        return byte(rest, b'}').then_some(());
    }
    if byte(rest, b'}') {
        return Some(());
    }
    entries(rest)
}

/// The entries of a set or a map, ascending, at most 256, and the brace that closes it.
fn entries(rest: &mut &[u8]) -> Option<()> {
    let mut last = scalar(rest)?;
    let is_map = mapped(rest, None)?;
    for _ in 1..256 {
        if byte(rest, b'}') {
            return Some(());
        }
        if !byte(rest, b',') {
            return None;
        }
        spaces(rest);
        let key = scalar(rest)?;
        if last >= key {
            return None;
        }
        mapped(rest, Some(is_map))?;
        last = key;
    }
    byte(rest, b'}').then_some(())
}

/// Past the value of a map's key, where there is one; whether there is.
fn mapped(rest: &mut &[u8], wanted: Option<bool>) -> Option<bool> {
    let there = byte(rest, b':');
    if wanted.is_some_and(|wanted| wanted != there) {
        return None;
    }
    if there {
        spaces(rest);
        scalar(rest)?;
    }
    Some(there)
}

fn scalar<'a>(rest: &mut &'a [u8]) -> Option<Scalar<'a>> {
    match *rest.first()? {
        b'"' => text(rest).map(Scalar::Text),
        b't' => {
            *rest = rest.strip_prefix(b"true")?;
            Some(Scalar::Bool(true))
        }
        b'f' => {
            *rest = rest.strip_prefix(b"false")?;
            Some(Scalar::Bool(false))
        }
        _ => integer(rest).map(Scalar::Int),
    }
}

fn text<'a>(rest: &mut &'a [u8]) -> Option<&'a [u8]> {
    let inside = &rest[1..];
    let length = inside.iter().take(65).take_while(|b| (32..=126).contains(*b) && !b"\"\\".contains(b)).count();
    if length > 64 || inside.get(length) != Some(&b'"') {
        return None;
    }
    *rest = &inside[length + 1..];
    Some(&inside[..length])
}

fn integer(rest: &mut &[u8]) -> Option<i64> {
    let negative = byte(rest, b'-');
    let length = rest.iter().take_while(|b| b.is_ascii_digit()).count();
    let magnitude = number(&rest[..length])? as i128;
    *rest = &rest[length..];
    if negative && magnitude == 0 {
        return None;
    }
    (if negative { -magnitude } else { magnitude }).try_into().ok()
}
