//! Refutations: their lines and their verdict.
use super::lines::{field, number};

#[derive(Clone, Copy)]
pub enum Hint {
    Given(u64),
    Earlier(u64),
}

pub struct Line {
    pub clause: Vec<i64>,
    pub hints: Vec<Hint>,
}

fn hint(field: &[u8]) -> Option<Hint> {
    let at = number(&field[1..]).filter(|at| *at > 0)?;
    match field[0] {
        b'c' if at <= u32::MAX as u64 => Some(Hint::Given(at)),
        b'l' => Some(Hint::Earlier(at)),
        _ => None,
    }
}

fn literal(field: &[u8]) -> Option<i64> {
    let (digits, sign) = field.strip_prefix(b"-").map_or((field, 1), |rest| (rest, -1));
    let var = number(digits).filter(|var| (1..=u32::MAX as u64).contains(var))?;
    Some(sign * var as i64)
}

/// Literals ascending by variable, up to a field that ends them, or to the end of the line.
pub fn clause(rest: &mut &[u8], last: Option<&[u8]>) -> Option<Vec<i64>> {
    let mut clause: Vec<i64> = Vec::new();
    loop {
        let next = field(rest);
        if next == last {
            return Some(clause);
        }
        let literal = literal(next?)?;
        if clause.last().is_some_and(|before| before.abs() >= literal.abs()) {
            return None;
        }
        clause.push(literal);
    }
}

/// The number that a line bears, and the line.
pub fn line(mut rest: &[u8]) -> Option<(u64, Line)> {
    let at = number(field(&mut rest)?)?;
    let clause = clause(&mut rest, Some(b":"))?;
    let mut hints = Vec::new();
    while let Some(field) = field(&mut rest) {
        hints.push(hint(field)?);
    }
    Some((at, Line { clause, hints }))
}

/// What is said of a refutation of these clauses over so many variables, and whether it is accepted.
pub fn verdict(variables: usize, clauses: &[Vec<i64>], lines: &[Line]) -> (String, bool) {
    let mut marks = Marks { values: vec![0; variables + 1], set: Vec::new() };
    for k in 0..lines.len() {
        if let Some(rule) = broken(clauses, lines, k, &mut marks) {
            return (format!("refused {} {rule}", k + 1), false);
        }
        for var in marks.set.drain(..) {
            marks.values[var] = 0;
        }
    }
    let accepted = lines.iter().any(|line| line.clause.is_empty());
    ((if accepted { "accepted" } else { "refused NoEmpty" }).to_string(), accepted)
}

/// Of each variable 1 where it is true, -1 where it is false, 0 where it isn't set; and those that are set.
struct Marks {
    values: Vec<i8>,
    set: Vec<usize>,
}

impl Marks {
    /// 1 where a literal is true, -1 where it is false.
    fn value(&self, literal: i64) -> i8 {
        let value = self.values[literal.unsigned_abs() as usize];
        if literal < 0 { -value } else { value }
    }

    fn make_true(&mut self, literal: i64) {
        let var = literal.unsigned_abs() as usize;
        self.values[var] = literal.signum() as i8;
        self.set.push(var);
    }
}

/// The rule that a line breaks.
fn broken(clauses: &[Vec<i64>], lines: &[Line], k: usize, marks: &mut Marks) -> Option<&'static str> {
    let line = &lines[k];
    if line.clause.iter().any(|literal| literal.unsigned_abs() as usize >= marks.values.len()) {
        return Some("BadVariable");
    }
    line.clause.iter().for_each(|literal| marks.make_true(-literal));
    for hint in &line.hints {
        let clause = match *hint {
            Hint::Given(at) if at <= clauses.len() as u64 => &clauses[at as usize - 1],
            Hint::Earlier(at) if at <= k as u64 => &lines[at as usize - 1].clause,
            _ => return Some("BadHint"),
        };
        let mut open = clause.iter().filter(|literal| marks.value(**literal) >= 0);
        match (open.next(), open.next()) {
            (None, _) => return None,
            (Some(literal), None) if marks.value(*literal) == 0 => marks.make_true(*literal),
            _ => return Some("NotUnit"),
        }
    }
    Some("NoConflict")
}
