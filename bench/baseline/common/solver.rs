//! Whether an assignment satisfies some clauses: learning of clauses, two watched literals, activities of
//! variables, saved phases and restarts.

/// A literal: twice its variable from 0, and one more where it is negative.
type Lit = u32;

const NO_REASON: u32 = u32::MAX;
const FIRST_RESTART: u64 = 100;

#[derive(Clone, Copy)]
struct Watch {
    clause: u32,
    other: Lit,
}

struct Solver {
    /// The literals of all clauses one after another, and where each begins and ends.
    literals: Vec<Lit>,
    spans: Vec<(u32, u32)>,
    watches: Vec<Vec<Watch>>,
    /// Of each literal 1 where it is true, -1 where it is false, 0 where it isn't set.
    values: Vec<i8>,
    levels: Vec<u32>,
    reasons: Vec<u32>,
    phases: Vec<bool>,
    activities: Vec<f64>,
    bump: f64,
    trail: Vec<Lit>,
    starts: Vec<usize>,
    next: usize,
    seen: Vec<bool>,
}

pub fn is_satisfiable(variables: usize, clauses: &[Vec<i64>]) -> bool {
    let mut solver = Solver::new(variables);
    for clause in clauses {
        let literals: Vec<Lit> = clause.iter().map(|literal| code(*literal)).collect();
        if !solver.given(&literals) {
            return false;
        }
    }
    solver.search()
}

fn code(literal: i64) -> Lit {
    ((literal.unsigned_abs() as u32 - 1) << 1) | (literal < 0) as u32
}

fn var(literal: Lit) -> usize {
    (literal >> 1) as usize
}

impl Solver {
    fn new(variables: usize) -> Self {
        Solver {
            literals: Vec::new(),
            spans: Vec::new(),
            watches: vec![Vec::new(); 2 * variables],
            values: vec![0; 2 * variables],
            levels: vec![0; variables],
            reasons: vec![NO_REASON; variables],
            phases: vec![false; variables],
            activities: vec![0.0; variables],
            bump: 1.0,
            trail: Vec::with_capacity(variables),
            starts: Vec::new(),
            next: 0,
            seen: vec![false; variables],
        }
    }

    /// Takes a clause in; false where it leaves nothing to try.
    fn given(&mut self, clause: &[Lit]) -> bool {
        match clause {
            [] => false,
            [unit] => match self.values[*unit as usize] {
                0 => {
                    self.set(*unit, NO_REASON);
                    true
                }
                value => value > 0,
            },
            _ => {
                self.push(clause);
                true
            }
        }
    }

    fn push(&mut self, clause: &[Lit]) -> u32 {
        let number = self.spans.len() as u32;
        let from = self.literals.len() as u32;
        self.literals.extend_from_slice(clause);
        self.spans.push((from, self.literals.len() as u32));
        self.watches[clause[0] as usize].push(Watch { clause: number, other: clause[1] });
        self.watches[clause[1] as usize].push(Watch { clause: number, other: clause[0] });
        number
    }

    fn set(&mut self, literal: Lit, reason: u32) {
        self.values[literal as usize] = 1;
        self.values[(literal ^ 1) as usize] = -1;
        self.levels[var(literal)] = self.starts.len() as u32;
        self.reasons[var(literal)] = reason;
        self.trail.push(literal);
    }

    /// Propagates all that is set; the clause that is false, where there is one.
    fn propagate(&mut self) -> Option<u32> {
        while self.next < self.trail.len() {
            let falsified = self.trail[self.next] ^ 1;
            self.next += 1;
            let mut watches = std::mem::take(&mut self.watches[falsified as usize]);
            let (mut kept, mut conflict) = (0, None);
            for k in 0..watches.len() {
                let watch = watches[k];
                if conflict.is_some() || self.values[watch.other as usize] > 0 {
                    watches[kept] = watch;
                    kept += 1;
                } else if let Some(other) = self.moved(watch.clause, falsified) {
                    watches[kept] = Watch { clause: watch.clause, other };
                    kept += 1;
                    match self.values[other as usize] {
                        0 => self.set(other, watch.clause),
                        value if value < 0 => conflict = Some(watch.clause),
                        _ => {}
                    }
                }
            }
            watches.truncate(kept);
            self.watches[falsified as usize] = watches;
            if conflict.is_some() {
                return conflict;
            }
        }
        None
    }

    /// Moves a clause's watch away from a literal that is false; where it can't, the other watched literal.
    fn moved(&mut self, clause: u32, falsified: Lit) -> Option<Lit> {
        let (from, to) = self.spans[clause as usize];
        let literals = &mut self.literals[from as usize..to as usize];
        if literals[0] == falsified {
            literals.swap(0, 1);
        }
        let first = literals[0];
        if self.values[first as usize] > 0 {
            return Some(first);
        }
        let free = literals[2..].iter().position(|literal| self.values[*literal as usize] >= 0);
        let Some(k) = free else { return Some(first) };
        literals.swap(1, k + 2);
        self.watches[literals[1] as usize].push(Watch { clause, other: first });
        None
    }

    /// The clause learned from a conflict, its asserting literal first, and the level to return to.
    fn learned(&mut self, conflict: u32) -> (Vec<Lit>, u32) {
        let now = self.starts.len() as u32;
        let mut clause = vec![0];
        let (mut open, mut place, mut reason) = (0, self.trail.len(), conflict);
        let mut resolved = None;
        loop {
            let (from, to) = self.spans[reason as usize];
            for k in from as usize..to as usize {
                let literal = self.literals[k];
                let v = var(literal);
                if Some(literal) == resolved || self.seen[v] || self.levels[v] == 0 {
                    continue;
                }
                self.seen[v] = true;
                self.activities[v] += self.bump;
                if self.levels[v] == now {
                    open += 1;
                } else {
                    clause.push(literal);
                }
            }
            place -= 1;
            while !self.seen[var(self.trail[place])] {
                place -= 1;
            }
            let literal = self.trail[place];
            self.seen[var(literal)] = false;
            open -= 1;
            if open == 0 {
                clause[0] = literal ^ 1;
                break;
            }
            resolved = Some(literal);
            reason = self.reasons[var(literal)];
        }
        clause[1..].iter().for_each(|literal| self.seen[var(*literal)] = false);
        let level = self.second_level(&mut clause);
        (clause, level)
    }

    /// Puts a literal of the greatest level but the first one's second, and returns that level.
    fn second_level(&self, clause: &mut [Lit]) -> u32 {
        let second = (1..clause.len()).max_by_key(|k| self.levels[var(clause[*k])]);
        second.map_or(0, |k| {
            clause.swap(1, k);
            self.levels[var(clause[1])]
        })
    }

    fn back_to(&mut self, level: u32) {
        if self.starts.len() as u32 <= level {
            return;
        }
        let start = self.starts[level as usize];
        for literal in self.trail.drain(start..) {
            self.values[literal as usize] = 0;
            self.values[(literal ^ 1) as usize] = 0;
            self.phases[var(literal)] = literal & 1 == 0;
        }
        self.starts.truncate(level as usize);
        self.next = start;
    }

    fn decay(&mut self) {
        self.bump /= 0.95;
        if self.bump > 1e100 {
            self.activities.iter_mut().for_each(|activity| *activity *= 1e-100);
            self.bump *= 1e-100;
        }
    }

    /// The variable that isn't set and has been in the most recent conflicts.
    fn choice(&self) -> Option<usize> {
        let unset = (0..self.levels.len()).filter(|v| self.values[2 * v] == 0);
        unset.max_by(|v, w| self.activities[*v].total_cmp(&self.activities[*w]).then(w.cmp(v)))
    }

    fn search(&mut self) -> bool {
        let (mut conflicts, mut restart) = (0, FIRST_RESTART);
        loop {
            if let Some(conflict) = self.propagate() {
                if self.starts.is_empty() {
                    return false;
                }
                conflicts += 1;
                let (clause, level) = self.learned(conflict);
                self.back_to(level);
                let reason = if clause.len() > 1 { self.push(&clause) } else { NO_REASON };
                self.set(clause[0], reason);
                self.decay();
            } else if conflicts >= restart {
                restart += conflicts + FIRST_RESTART;
                self.back_to(0);
            } else if let Some(v) = self.choice() {
                self.starts.push(self.trail.len());
                self.set(2 * v as Lit + !self.phases[v] as Lit, NO_REASON);
            } else {
                return true;
            }
        }
    }
}
