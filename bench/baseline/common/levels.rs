//! The least levels of a program's operations and transactions.
use super::ground::{Level, OP_LEVELS, TXN_LEVELS, Target, problem};
use super::solver::is_satisfiable;
use super::types::Typed;
use std::fmt::Write;

pub struct Levels {
    pub ops: Vec<Level>,
    pub txns: Vec<Level>,
}

/// The levels; or the line that says that there are none.
pub fn levels(typed: &Typed) -> Result<Levels, String> {
    let mut levels = Levels { ops: Vec::new(), txns: Vec::new() };
    for (o, name) in typed.op_names.iter().enumerate() {
        let level = least(typed, Target::Op(o)).ok_or_else(|| format!("none op {}\n", word(name)))?;
        levels.ops.push(level);
    }
    for (d, name) in typed.txn_names.iter().enumerate() {
        if let Some(o) = typed.txn_uses[d].iter().find(|o| levels.ops[**o as usize] == Level::Strong) {
            return Err(format!("strong {} in {}\n", word(typed.op_names[*o as usize]), word(name)));
        }
        let level = least(typed, Target::Txn(d)).ok_or_else(|| format!("none txn {}\n", word(name)))?;
        levels.txns.push(level);
    }
    Ok(levels)
}

fn least(typed: &Typed, target: Target) -> Option<Level> {
    let levels = if matches!(target, Target::Op(_)) { OP_LEVELS } else { TXN_LEVELS };
    levels.iter().copied().find(|level| {
        let problem = problem(typed, target, *level);
        !is_satisfiable(problem.variables, &problem.clauses)
    })
}

impl Levels {
    pub fn print(&self, typed: &Typed) -> String {
        let mut said = String::new();
        for (name, level) in typed.op_names.iter().zip(&self.ops) {
            writeln!(said, "op {} {}", word(name), level.word()).expect("memory");
        }
        for (name, level) in typed.txn_names.iter().zip(&self.txns) {
            writeln!(said, "txn {} {}", word(name), level.word()).expect("memory");
        }
        said
    }
}

fn word(word: &[u8]) -> String {
    String::from_utf8_lossy(word).into_owned()
}
