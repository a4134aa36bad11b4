//! A replica: what it received and applied as ranges of ids, and waiting packages with an id that each watches.
use std::collections::VecDeque;

/// An effect outside any transaction.
pub struct Effect {
    pub object: u32,
    pub session: u32,
    pub seen: Vec<u32>,
}

#[derive(Clone, Default)]
struct Ranges {
    ranges: Vec<(u32, u32)>,
}

impl Ranges {
    fn place(&self, id: u32) -> usize {
        self.ranges.partition_point(|range| range.1 < id && id - range.1 > 1)
    }

    fn has(&self, id: u32) -> bool {
        match self.ranges.get(self.place(id)) {
            Some(range) => range.0 <= id && id <= range.1,
            None => false,
        }
    }

    fn whole_to(&self) -> u32 {
        match self.ranges.first() {
            Some(range) if range.0 <= 1 => range.1,
            _ => 0,
        }
    }

    fn insert(&mut self, id: u32) {
        let at = self.place(id);
        match self.ranges.get(at).copied() {
            Some((from, to)) if from <= id + 1 => {
                if id < from {
                    self.ranges[at].0 = id;
                } else if id > to {
                    self.ranges[at].1 = id;
                    if self.ranges.get(at + 1).is_some_and(|next| next.0 == id + 1) {
                        self.ranges[at].1 = self.ranges.remove(at + 1).1;
                    }
                }
            }
            _ => self.ranges.insert(at, (id, id)),
        }
    }

    fn ids(&self) -> impl Iterator<Item = u32> + '_ {
        self.ranges.iter().flat_map(|range| range.0..=range.1)
    }
}

struct Waiting {
    pack: Vec<u32>,
    watched: u32,
}

pub enum Arrival {
    Again,
    Waits(u32),
    Applies(Vec<u32>),
}

#[derive(Default)]
pub struct Replica {
    received: Ranges,
    applied: Ranges,
    waiting: Vec<Option<Waiting>>,
    free: Vec<usize>,
}

impl Replica {
    pub fn applied(&self, id: u32) -> bool {
        self.applied.has(id)
    }

    pub fn receive(&mut self, pack: &[u32], effects: &[Effect]) -> Arrival {
        if self.received.has(pack[0]) {
            return Arrival::Again;
        }
        for id in pack {
            self.received.insert(*id);
        }
        let found = reach(effects, pack, &self.applied);
        if let Some(missing) = found.ids().find(|id| !self.received.has(*id)) {
            self.wait(pack, missing);
            return Arrival::Waits(missing);
        }
        let mut gain = Ranges::default();
        self.apply(&found, &mut gain);
        for key in 0..self.waiting.len() {
            self.walk(key, pack, effects, &mut gain);
        }
        Arrival::Applies(gain.ids().collect())
    }

    fn wait(&mut self, pack: &[u32], missing: u32) {
        for held in self.waiting.iter_mut().flatten() {
            if pack.contains(&held.watched) {
                held.watched = missing;
            }
        }
        let held = Some(Waiting { pack: pack.to_vec(), watched: missing });
        match self.free.pop() {
            Some(key) => self.waiting[key] = held,
            None => self.waiting.push(held),
        }
    }

    fn walk(&mut self, key: usize, pack: &[u32], effects: &[Effect], gain: &mut Ranges) {
        let Some(held) = &mut self.waiting[key] else {
            return;
        };
        if !pack.contains(&held.watched) {
            return;
        }
        let found = reach(effects, &held.pack, &self.applied);
        let missing = found.ids().find(|id| !self.received.has(*id));
        match missing {
            Some(missing) => held.watched = missing,
            None => {
                self.waiting[key] = None;
                self.free.push(key);
                self.apply(&found, gain);
            }
        }
    }

    fn apply(&mut self, found: &Ranges, gain: &mut Ranges) {
        for id in found.ids() {
            self.applied.insert(id);
            gain.insert(id);
        }
    }
}

// All that a package needs, but for what is needed through known effects alone. Effects outside transactions only.
fn reach(effects: &[Effect], pack: &[u32], known: &Ranges) -> Ranges {
    let mut found = Ranges::default();
    let mut due = VecDeque::new();
    for id in pack {
        meet(*id, known, &mut found, &mut due);
    }
    while let Some(e) = due.pop_front() {
        for id in &effects[e as usize - 1].seen {
            meet(*id, known, &mut found, &mut due);
        }
        if let Some(before) = last_on_object(effects, e, known.whole_to()) {
            meet(before, known, &mut found, &mut due);
        }
    }
    found
}

fn meet(id: u32, known: &Ranges, found: &mut Ranges, due: &mut VecDeque<u32>) {
    if !known.has(id) && !found.has(id) {
        found.insert(id);
        due.push_back(id);
    }
}

fn last_on_object(effects: &[Effect], e: u32, stop: u32) -> Option<u32> {
    let effect = &effects[e as usize - 1];
    (stop + 1..e).rev().find(|k| {
        let other = &effects[*k as usize - 1];
        other.session == effect.session && other.object == effect.object
    })
}
