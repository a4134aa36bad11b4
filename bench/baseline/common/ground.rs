//! Ground problems: the clauses that no assignment satisfies where a level implies a contract.
use super::tree::{Rel, RelName};
use super::types::{Body, Formula, Term, Typed};

#[derive(Clone, Copy, Debug, PartialEq, Eq)]
pub enum Level {
    Eventual,
    Causal,
    Wide,
    Strong,
    Rc,
    Mav,
    Rr,
}

pub const OP_LEVELS: &[Level] = &[Level::Eventual, Level::Causal, Level::Wide, Level::Strong];
pub const TXN_LEVELS: &[Level] = &[Level::Rc, Level::Mav, Level::Rr];

impl Level {
    pub fn word(self) -> &'static str {
        match self {
            Level::Eventual => "eventual",
            Level::Causal => "causal",
            Level::Wide => "wide",
            Level::Strong => "strong",
            Level::Rc => "rc",
            Level::Mav => "mav",
            Level::Rr => "rr",
        }
    }

    pub fn of(word: &[u8]) -> Option<Level> {
        OP_LEVELS.iter().chain(TXN_LEVELS).copied().find(|level| level.word().as_bytes() == word)
    }
}

/// An operation or a transaction, by its number.
#[derive(Clone, Copy, Debug, PartialEq, Eq)]
pub enum Target {
    Op(usize),
    Txn(usize),
}

pub struct Problem {
    pub variables: usize,
    pub clauses: Vec<Vec<i64>>,
}

#[derive(Clone, Copy)]
enum Pair {
    Eq,
    So,
    SameObj,
    Vis,
    Hbo,
    Hb,
    SameTxn,
}

use Pair::*;

struct Builder<'t> {
    typed: &'t Typed<'t>,
    n: usize,
    m: usize,
    problem: Problem,
}

pub fn problem(typed: &Typed, target: Target, level: Level) -> Problem {
    let (formula, n) = match target {
        Target::Op(o) => (&typed.op_formulas[o], typed.op_formulas[o].vars.len() + 1),
        Target::Txn(d) => (&typed.txn_formulas[d], typed.txn_formulas[d].vars.len()),
    };
    let m = typed.op_names.len();
    let variables = 7 * n * n + n + m * n;
    let mut builder = Builder { typed, n, m, problem: Problem { variables, clauses: Vec::new() } };
    builder.axioms(matches!(target, Target::Txn(_)));
    builder.level(level);
    builder.operations(target, formula);
    let root = builder.node(&formula.body);
    builder.add(&[-root]);
    builder.problem
}

impl Builder<'_> {
    fn pair(&self, kind: Pair, i: usize, j: usize) -> i64 {
        (1 + (kind as usize * self.n + i) * self.n + j) as i64
    }

    fn current(&self, i: usize) -> i64 {
        (1 + 7 * self.n * self.n + i) as i64
    }

    fn is(&self, o: usize, i: usize) -> i64 {
        (1 + 7 * self.n * self.n + self.n + o * self.n + i) as i64
    }

    /// Adds a clause sorted by variable, each literal once, and no tautology.
    fn add(&mut self, literals: &[i64]) {
        let mut clause = literals.to_vec();
        clause.sort_unstable_by_key(|literal| (literal.abs(), *literal));
        clause.dedup();
        if clause.windows(2).all(|two| two[0] != -two[1]) {
            self.problem.clauses.push(clause);
        }
    }

    fn each(&mut self, clause: impl Fn(&Self, usize) -> Vec<i64>) {
        for i in 0..self.n {
            self.add(&clause(self, i));
        }
    }

    fn each_two<const K: usize>(&mut self, clause: impl Fn(&Self, usize, usize) -> [i64; K]) {
        for i in 0..self.n {
            for j in 0..self.n {
                self.add(&clause(self, i, j));
            }
        }
    }

    fn each_three<const K: usize>(&mut self, clause: impl Fn(&Self, usize, usize, usize) -> [i64; K]) {
        for i in 0..self.n {
            for j in 0..self.n {
                for k in 0..self.n {
                    self.add(&clause(self, i, j, k));
                }
            }
        }
    }

    fn implies(&mut self, from: Pair, to: Pair) {
        self.each_two(|b, i, j| [-b.pair(from, i, j), b.pair(to, i, j)]);
    }

    fn transitive(&mut self, kind: Pair) {
        self.each_three(|b, i, j, k| [-b.pair(kind, i, j), -b.pair(kind, j, k), b.pair(kind, i, k)]);
    }

    fn equivalence(&mut self, kind: Pair) {
        self.each(|b, i| vec![b.pair(kind, i, i)]);
        self.each_two(|b, i, j| [-b.pair(kind, i, j), b.pair(kind, j, i)]);
        self.transitive(kind);
    }

    fn axioms(&mut self, txn: bool) {
        self.equivalence(Eq);
        self.congruence(txn);
        self.session_order();
        self.equivalence(SameObj);
        self.implies(Vis, SameObj);
        self.implies(Vis, Hbo);
        self.each_two(|b, i, j| [-b.pair(So, i, j), -b.pair(SameObj, i, j), b.pair(Hbo, i, j)]);
        self.transitive(Hbo);
        self.implies(Hbo, SameObj);
        self.implies(Hbo, Hb);
        self.implies(So, Hb);
        self.implies(Vis, Hb);
        self.transitive(Hb);
        self.each(|b, i| vec![-b.pair(Hb, i, i)]);
        self.operation_axioms();
        if txn {
            self.transaction_axioms();
        }
    }

    /// Equal constants stand in the same relations, are of the same operation, and are in the same transaction.
    fn congruence(&mut self, txn: bool) {
        for kind in [So, SameObj, Vis, Hbo, Hb, SameTxn] {
            self.each_three(|b, i, j, k| [-b.pair(Eq, i, j), -b.pair(kind, i, k), b.pair(kind, j, k)]);
            self.each_three(|b, i, j, k| [-b.pair(Eq, i, j), -b.pair(kind, k, i), b.pair(kind, k, j)]);
        }
        for o in 0..self.m {
            self.each_two(|b, i, j| [-b.pair(Eq, i, j), -b.is(o, i), b.is(o, j)]);
        }
        if txn {
            self.each_two(|b, i, j| [-b.pair(Eq, i, j), -b.current(i), b.current(j)]);
        }
    }

    fn session_order(&mut self) {
        self.transitive(So);
        self.each_three(|b, i, j, k| {
            [-b.pair(So, i, j), -b.pair(So, i, k), b.pair(So, j, k), b.pair(So, k, j), b.pair(Eq, j, k)]
        });
        self.each_three(|b, i, j, k| {
            [-b.pair(So, i, k), -b.pair(So, j, k), b.pair(So, i, j), b.pair(So, j, i), b.pair(Eq, i, j)]
        });
    }

    fn operation_axioms(&mut self) {
        self.each(|b, i| (0..b.m).map(|o| b.is(o, i)).collect());
        for i in 0..self.n {
            for o in 0..self.m {
                for p in o + 1..self.m {
                    self.add(&[-self.is(o, i), -self.is(p, i)]);
                }
            }
        }
        let types = &self.typed.op_types;
        for i in 0..self.n {
            for j in 0..self.n {
                for o in 0..self.m {
                    for p in (0..self.m).filter(|p| types[o] != types[*p]) {
                        self.add(&[-self.pair(SameObj, i, j), -self.is(o, i), -self.is(p, j)]);
                    }
                }
            }
        }
    }

    fn transaction_axioms(&mut self) {
        self.equivalence(SameTxn);
        self.each_two(|b, i, j| [-b.pair(SameTxn, i, j), b.pair(So, i, j), b.pair(So, j, i), b.pair(Eq, i, j)]);
        self.each_three(|b, i, j, k| {
            [-b.pair(SameTxn, i, k), -b.pair(So, i, j), -b.pair(So, j, k), b.pair(SameTxn, i, j)]
        });
        self.each_two(|b, i, j| [-b.current(i), -b.current(j), b.pair(SameTxn, i, j)]);
        self.each_two(|b, i, j| [-b.current(i), -b.pair(SameTxn, i, j), b.current(j)]);
    }

    fn level(&mut self, level: Level) {
        let cur = self.n.wrapping_sub(1);
        match level {
            Level::Eventual => {
                self.each_two(|b, i, j| [-b.pair(Hbo, i, j), -b.pair(Vis, j, cur), b.pair(Vis, i, cur)]);
            }
            Level::Causal => self.each(|b, i| vec![-b.pair(Hbo, i, cur), b.pair(Vis, i, cur)]),
            Level::Wide => self.each(|b, i| vec![-b.pair(Hb, i, cur), -b.pair(SameObj, i, cur), b.pair(Vis, i, cur)]),
            Level::Strong => self.each(|b, i| {
                vec![-b.pair(SameObj, i, cur), b.pair(Vis, i, cur), b.pair(Vis, cur, i), b.pair(Eq, i, cur)]
            }),
            Level::Rc => self.read_committed(),
            Level::Mav => {
                self.read_committed();
                self.repeatable(true);
            }
            Level::Rr => self.repeatable(false),
        }
    }

    fn read_committed(&mut self) {
        self.each_three(|b, i, j, k| {
            let other = [-b.current(i), b.current(j), -b.pair(SameTxn, j, k)];
            [other[0], other[1], other[2], -b.pair(SameObj, j, k), -b.pair(Vis, j, i), b.pair(Vis, k, i)]
        });
    }

    /// What one effect of a transaction sees of another, all do; with `later`, those after it.
    fn repeatable(&mut self, later: bool) {
        for i in 0..self.n {
            for j in 0..self.n {
                for k in 0..self.n {
                    for l in 0..self.n {
                        let mut clause = vec![-self.current(i), -self.current(j), self.current(k)];
                        clause.push(-self.pair(SameTxn, k, l));
                        if later {
                            clause.push(-self.pair(So, i, j));
                        }
                        clause.push(-self.pair(Vis, k, i));
                        clause.push(-self.pair(SameObj, l, j));
                        clause.push(self.pair(Vis, l, j));
                        self.add(&clause);
                    }
                }
            }
        }
    }

    fn operations(&mut self, target: Target, formula: &Formula) {
        if let Target::Op(o) = target {
            self.add(&[self.is(o, self.n - 1)]);
        }
        for (v, (_, ops)) in formula.vars.iter().enumerate() {
            if let Some(ops) = ops {
                let some: Vec<i64> = ops.iter().map(|o| self.is(*o as usize, v)).collect();
                self.add(&some);
            }
        }
    }

    fn fresh(&mut self) -> i64 {
        self.problem.variables += 1;
        self.problem.variables as i64
    }

    fn and(&mut self, x: i64, y: i64) -> i64 {
        let t = self.fresh();
        self.add(&[-t, x]);
        self.add(&[-t, y]);
        self.add(&[t, -x, -y]);
        t
    }

    fn or(&mut self, x: i64, y: i64) -> i64 {
        let t = self.fresh();
        self.add(&[t, -x]);
        self.add(&[t, -y]);
        self.add(&[-t, x, y]);
        t
    }

    /// The literal of a formula, with the clauses that define it.
    fn node(&mut self, body: &Body) -> i64 {
        match body {
            Body::True => {
                let t = self.fresh();
                self.add(&[t]);
                t
            }
            Body::Apply(rel, left, right) => self.relation(rel, self.constant(*left), self.constant(*right)),
            Body::And(left, right) => {
                let (x, y) = (self.node(left), self.node(right));
                self.and(x, y)
            }
            Body::Or(left, right) => {
                let (x, y) = (self.node(left), self.node(right));
                self.or(x, y)
            }
            Body::Implies(left, right) => {
                let (x, y) = (self.node(left), self.node(right));
                let t = self.fresh();
                self.add(&[t, x]);
                self.add(&[t, -y]);
                self.add(&[-t, -x, y]);
                t
            }
            Body::Txn(firsts, seconds) => self.txn(firsts, seconds),
        }
    }

    fn constant(&self, term: Term) -> usize {
        match term {
            Term::Cur => self.n - 1,
            Term::Var(v) => v,
        }
    }

    fn relation(&mut self, rel: &Rel, i: usize, j: usize) -> i64 {
        let kind = match rel {
            Rel::Base(RelName::Soo, _) => {
                let (so, same) = (self.pair(So, i, j), self.pair(SameObj, i, j));
                return self.and(so, same);
            }
            Rel::Union(left, right) => {
                let (x, y) = (self.relation(left, i, j), self.relation(right, i, j));
                return self.or(x, y);
            }
            Rel::Inter(left, right) => {
                let (x, y) = (self.relation(left, i, j), self.relation(right, i, j));
                return self.and(x, y);
            }
            Rel::Base(RelName::Vis, _) => Vis,
            Rel::Base(RelName::So, _) => So,
            Rel::Base(RelName::SameObj, _) => SameObj,
            Rel::Base(RelName::Eq, _) => Eq,
            Rel::Base(RelName::Hb, _) => Hb,
            Rel::Base(RelName::Hbo, _) => Hbo,
        };
        self.pair(kind, i, j)
    }

    fn txn(&mut self, firsts: &[Term], seconds: &[Term]) -> i64 {
        let first = self.constant(seconds[0]);
        let mut parts: Vec<i64> = firsts.iter().map(|a| self.current(self.constant(*a))).collect();
        parts.push(-self.current(first));
        parts.extend(seconds[1..].iter().map(|c| self.pair(SameTxn, first, self.constant(*c))));
        let mut left = parts[0];
        for part in &parts[1..] {
            left = self.and(left, *part);
        }
        left
    }
}
