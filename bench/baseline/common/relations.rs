//! The relations of an execution, and the truth of contracts.
use super::execution::{Effect, Member};
use super::tree::{Rel, RelName};
use super::types::{Body, Formula, Term};

/// A relation as a row of bits for each later effect: those that are related to it.
struct Rows {
    words: usize,
    bits: Vec<u64>,
}

impl Rows {
    fn new(count: usize) -> Self {
        let words = count.div_ceil(64);
        Rows { words, bits: vec![0; words * count] }
    }

    fn put(&mut self, a: usize, b: usize) {
        self.bits[b * self.words + a / 64] |= 1 << (a % 64);
    }

    fn has(&self, a: usize, b: usize) -> bool {
        self.bits[b * self.words + a / 64] >> (a % 64) & 1 != 0
    }

    /// Adds to row b the row of an earlier effect and that effect, where b doesn't have it yet. Rows of earlier
    /// effects are closed, so one that is there brings nothing new.
    fn close(&mut self, a: usize, b: usize) {
        if self.has(a, b) {
            return;
        }
        let (before, row) = self.bits.split_at_mut(b * self.words);
        let earlier = &before[a * self.words..][..a / 64 + 1];
        row.iter_mut().zip(earlier).for_each(|(word, more)| *word |= more);
        self.put(a, b);
    }
}

/// Places count from 0 here.
pub struct Relations<'x> {
    effects: &'x [Effect],
    vis: Rows,
    hb: Rows,
    hbo: Rows,
}

impl<'x> Relations<'x> {
    pub fn build(effects: &'x [Effect]) -> Self {
        let count = effects.len();
        let (mut vis, mut hb, mut hbo) = (Rows::new(count), Rows::new(count), Rows::new(count));
        let mut last_of_session: Vec<Option<usize>> = vec![None; 256];
        let mut last_on_object = std::collections::HashMap::new();
        for (b, effect) in effects.iter().enumerate() {
            let session = &mut last_of_session[effect.session as usize];
            let on_object = last_on_object.insert((effect.session, effect.object), b);
            // From the latest on, so that most of the rest is there already.
            session.replace(b).into_iter().for_each(|a| hb.close(a, b));
            on_object.into_iter().for_each(|a| hbo.close(a, b));
            for a in effect.seen.iter().rev() {
                let a = *a as usize - 1;
                vis.put(a, b);
                hb.close(a, b);
                hbo.close(a, b);
            }
        }
        Relations { effects, vis, hb, hbo }
    }

    fn test(&self, rel: &Rel, a: usize, b: usize) -> bool {
        let (first, second) = (&self.effects[a], &self.effects[b]);
        match rel {
            Rel::Base(RelName::Vis, _) => self.vis.has(a, b),
            Rel::Base(RelName::So, _) => a < b && first.session == second.session,
            Rel::Base(RelName::Soo, _) => a < b && first.session == second.session && first.object == second.object,
            Rel::Base(RelName::SameObj, _) => first.object == second.object,
            Rel::Base(RelName::Eq, _) => a == b,
            Rel::Base(RelName::Hb, _) => self.hb.has(a, b),
            Rel::Base(RelName::Hbo, _) => self.hbo.has(a, b),
            Rel::Union(left, right) => self.test(left, a, b) || self.test(right, a, b),
            Rel::Inter(left, right) => self.test(left, a, b) && self.test(right, a, b),
        }
    }

    fn run(&self, a: usize) -> Option<u32> {
        self.effects[a].member.map(|Member { run, .. }| run)
    }

    fn same_txn(&self, a: usize, b: usize) -> bool {
        a == b || self.run(a).is_some_and(|run| self.run(b) == Some(run))
    }

    fn is_true(&self, body: &Body, places: &[usize], at: At) -> bool {
        let place = |term: &Term| match (term, at) {
            (Term::Var(v), _) => places[*v],
            (Term::Cur, At::Effect(cur)) => cur,
            (Term::Cur, At::Run(_)) => unreachable!("a transaction's contract has no cur"),
        };
        match body {
            Body::True => true,
            Body::Apply(rel, left, right) => self.test(rel, place(left), place(right)),
            Body::And(left, right) => self.is_true(left, places, at) && self.is_true(right, places, at),
            Body::Or(left, right) => self.is_true(left, places, at) || self.is_true(right, places, at),
            Body::Implies(left, right) => !self.is_true(left, places, at) || self.is_true(right, places, at),
            Body::Txn(firsts, seconds) => {
                let At::Run(run) = at else { unreachable!("an operation's contract has no txn") };
                let inside = |term: &Term| self.run(place(term)) == Some(run);
                firsts.iter().all(inside)
                    && !seconds.iter().any(inside)
                    && seconds.iter().all(|term| self.same_txn(place(&seconds[0]), place(term)))
            }
        }
    }

    /// The first choice of places at which a contract is false, the first variable slowest.
    pub fn first_false(&self, formula: &Formula, at: At) -> Option<Vec<usize>> {
        let mut places = vec![0; formula.vars.len()];
        self.search(formula, at, 0, &mut places).then_some(places)
    }

    fn search(&self, formula: &Formula, at: At, v: usize, places: &mut [usize]) -> bool {
        let Some((_, ops)) = formula.vars.get(v) else {
            return !self.is_true(&formula.body, places, at);
        };
        (0..self.effects.len()).any(|place| {
            let fits = ops.as_ref().is_none_or(|ops| ops.contains(&self.effects[place].op));
            places[v] = place;
            fits && self.search(formula, at, v + 1, places)
        })
    }
}

/// Where a contract is judged: at an effect, or at a begun transaction.
#[derive(Clone, Copy)]
pub enum At {
    Effect(usize),
    Run(u32),
}

/// What is said of a contract that is false: the places of its variables.
pub fn places_text(formula: &Formula, places: &[usize]) -> String {
    let parts = formula.vars.iter().zip(places);
    parts.map(|((name, _), place)| format!(" {}={}", String::from_utf8_lossy(name), place + 1)).collect()
}
