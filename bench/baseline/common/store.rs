//! A store of some replicas, stepped through the events of a schedule.
use super::ground::Level;
use super::schedule::{self, Event};
use super::tree::{OpDecl, Program, TypeDecl};
use super::types::Typed;
use super::value::{Scalar, Value, value};
use std::collections::{BTreeMap, BTreeSet, HashMap};
use std::io::{self, Write};
use std::rc::Rc;

pub struct Effect {
    pub object: u32,
    pub op: u32,
    pub args: Vec<Value>,
    pub answer: Value,
    pub payload: Option<Vec<Value>>,
    pub session: u8,
    pub run: Option<usize>,
    pub stamp: u32,
    pub seen: Vec<u32>,
}

pub enum Reply {
    Ok(u32),
    Refused(u32),
    Unavailable(usize),
    Held(u8),
    Blocked(u32),
    Begun,
    Committed(Vec<u32>),
    Applies(Vec<u32>),
    Waits(u32),
    Again,
    Cut,
    Gone,
    Sent(usize),
    Lost,
    Split,
    Healed,
    Joined(usize),
}

impl Reply {
    pub fn print(&self, effects: &[Effect], out: &mut Vec<u8>) -> io::Result<()> {
        match self {
            Reply::Ok(id) => {
                write!(out, "ok {id} ")?;
                effects[*id as usize - 1].answer.print(out);
                Ok(())
            }
            Reply::Refused(why) => write!(out, "refused {why}"),
            Reply::Unavailable(replica) => write!(out, "unavailable {replica}"),
            Reply::Held(session) => write!(out, "held {session}"),
            Reply::Blocked(id) => write!(out, "blocked {id}"),
            Reply::Begun => write!(out, "begun"),
            Reply::Committed(ids) => ids_after(b"committed", ids, out),
            Reply::Applies(ids) => ids_after(b"applies", ids, out),
            Reply::Waits(id) => write!(out, "waits {id}"),
            Reply::Again => write!(out, "again"),
            Reply::Cut => write!(out, "cut"),
            Reply::Gone => write!(out, "gone"),
            Reply::Sent(message) => write!(out, "sent {message}"),
            Reply::Lost => write!(out, "lost"),
            Reply::Split => write!(out, "split"),
            Reply::Healed => write!(out, "healed"),
            Reply::Joined(replica) => write!(out, "joined {replica}"),
        }
    }
}

fn ids_after(word: &[u8], ids: &[u32], out: &mut Vec<u8>) -> io::Result<()> {
    out.extend_from_slice(word);
    ids.iter().try_for_each(|id| write!(out, " {id}"))
}

/// A begun transaction: its declaration, its effects, and whether it is committed.
pub struct Run {
    pub decl: u32,
    pub effects: Vec<u32>,
    committed: bool,
}

struct Open {
    run: usize,
    objects: Vec<u32>,
    snapshot: Vec<bool>,
    /// The effects outside it that its calls saw.
    saw: Vec<u32>,
}

struct Message {
    sender: usize,
    receiver: usize,
    pack: Rc<[u32]>,
    copies: u32,
}

/// What was received and applied, by an effect's number, and the packages that wait, each with an id that it misses.
#[derive(Clone, Default)]
struct Replica {
    received: Vec<bool>,
    applied: Vec<bool>,
    waiting: Vec<(Rc<[u32]>, u32)>,
}

pub struct Store<'p> {
    types: Vec<&'p TypeDecl<'p>>,
    ops: Vec<&'p OpDecl<'p>>,
    typed: &'p Typed<'p>,
    op_levels: &'p [Level],
    txn_levels: &'p [Level],
    pub effects: Vec<Effect>,
    pub runs: Vec<Run>,
    replicas: Vec<Replica>,
    messages: Vec<Message>,
    groups: Vec<u8>,
    open: BTreeMap<u8, Open>,
    on_object: HashMap<u32, Vec<u32>>,
    before: HashMap<(u8, u32), Vec<u32>>,
    last_stamp: HashMap<u8, u32>,
    /// The committed effects that a replica may not have received.
    fresh: Vec<u32>,
}

fn is_in(set: &[bool], id: u32) -> bool {
    set.get(id as usize).copied().unwrap_or(false)
}

fn insert(set: &mut Vec<bool>, id: u32) {
    if set.len() <= id as usize {
        set.resize(id as usize + 1, false);
    }
    set[id as usize] = true;
}

impl<'p> Store<'p> {
    pub fn new(
        program: &'p Program<'p>,
        typed: &'p Typed<'p>,
        op_levels: &'p [Level],
        txn_levels: &'p [Level],
        replicas: usize,
    ) -> Self {
        Store {
            types: program.types.iter().collect(),
            ops: program.types.iter().flat_map(|decl| &decl.ops).collect(),
            typed,
            op_levels,
            txn_levels,
            effects: Vec::new(),
            runs: Vec::new(),
            replicas: (0..replicas).map(|_| Replica::default()).collect(),
            messages: Vec::new(),
            groups: vec![0; replicas],
            open: BTreeMap::new(),
            on_object: HashMap::new(),
            before: HashMap::new(),
            last_stamp: HashMap::new(),
            fresh: Vec::new(),
        }
    }

    pub fn step(&mut self, event: &Event) -> Reply {
        match event {
            Event::Call { session, replica, object, op, args } => self.call(*session, *replica as usize, *object, *op, args),
            Event::Begin { session, replica, decl, objects } => self.begin(*session, *replica as usize, *decl, objects),
            Event::Commit { session, replica } => self.commit(*session, *replica as usize),
            Event::Deliver(message) => self.deliver(*message as usize),
            Event::Repeat(message) => match self.under_way(*message as usize) {
                None => Reply::Gone,
                Some(found) => {
                    found.copies += 1;
                    Reply::Sent(*message as usize)
                }
            },
            Event::Lose(message) => match self.under_way(*message as usize) {
                None => Reply::Gone,
                Some(found) => {
                    found.copies -= 1;
                    Reply::Lost
                }
            },
            Event::Resend { effect, from, to } => self.resend(*effect, *from as usize, *to as usize),
            Event::Partition(groups) => {
                self.groups.clone_from(groups);
                Reply::Split
            }
            Event::Heal => {
                self.groups.fill(0);
                Reply::Healed
            }
            Event::Join { near, copy } => self.join(*near as usize, *copy),
        }
    }

    fn under_way(&mut self, message: usize) -> Option<&mut Message> {
        let found = self.messages.get_mut(message.wrapping_sub(1));
        found.filter(|message| message.copies > 0)
    }

    fn effect(&self, id: u32) -> &Effect {
        &self.effects[id as usize - 1]
    }

    fn call(&mut self, session: u8, at: usize, object: u32, op: u32, args: &[schedule::Value]) -> Reply {
        if let Some(reply) = self.refusal(session, at, object, op) {
            return reply;
        }
        let level = self.op_levels[op as usize];
        let (seen, missing) = self.view(session, at, object, level);
        let unseen = self.unseen(session, object, level, &seen);
        match missing.into_iter().chain(unseen).min() {
            Some(missing) => Reply::Blocked(missing),
            None => self.made(session, at, object, op, args, seen),
        }
    }

    /// Why a call isn't made, whatever there is to see.
    fn refusal(&self, session: u8, at: usize, object: u32, op: u32) -> Option<Reply> {
        if let Some(open) = self.open.get(&session) {
            if !open.objects.contains(&object) {
                return Some(Reply::Refused(3));
            }
            if !self.typed.txn_uses[self.runs[open.run].decl as usize].contains(&op) {
                return Some(Reply::Refused(4));
            }
        }
        if self.op_levels[op as usize] != Level::Strong {
            return None;
        }
        if let Some(far) = (0..self.groups.len()).find(|r| self.groups[*r] != self.groups[at]) {
            return Some(Reply::Unavailable(far));
        }
        let holder = self.open.iter().find(|(_, open)| open.objects.contains(&object));
        holder.map(|(session, _)| Reply::Held(*session))
    }

    fn on_object(&self, object: u32) -> &[u32] {
        self.on_object.get(&object).map_or(&[], |ids| ids)
    }

    /// What a call sees, and the least effect that its transaction saw and that is missing now.
    fn view(&self, session: u8, at: usize, object: u32, level: Level) -> (Vec<u32>, Option<u32>) {
        let on = self.on_object(object);
        if level == Level::Strong {
            return (on.to_vec(), None);
        }
        let applied = &self.replicas[at].applied;
        let Some(open) = self.open.get(&session) else {
            return (on.iter().copied().filter(|id| is_in(applied, *id)).collect(), None);
        };
        let run = &self.runs[open.run];
        let level = self.txn_levels[run.decl as usize];
        let base = if level == Level::Rr { &open.snapshot } else { applied };
        let own = self.closed_own(&run.effects, base);
        let has = |id: &u32| is_in(base, *id) || own.contains(id);
        let missing = match level {
            Level::Mav => open.saw.iter().copied().filter(|id| !has(id)).min(),
            _ => None,
        };
        (on.iter().copied().filter(has).collect(), missing)
    }

    /// The least effect that the level of an operation asks a call to see, and that it doesn't.
    fn unseen(&self, session: u8, object: u32, level: Level, seen: &[u32]) -> Option<u32> {
        let is_unseen = |id: &u32| seen.binary_search(id).is_err();
        match level {
            Level::Causal => self.before.get(&(session, object))?.iter().copied().find(is_unseen),
            Level::Wide => {
                let past = self.past(session, seen);
                self.on_object(object).iter().copied().find(|id| past[*id as usize] && is_unseen(id))
            }
            _ => None,
        }
    }

    /// The effects of a session, those that are seen, and all that happened before one of these, marked by their ids.
    fn past(&self, session: u8, seen: &[u32]) -> Vec<bool> {
        let mut past = vec![false; self.effects.len() + 1];
        let mut sessions = BTreeSet::from([session]);
        seen.iter().for_each(|id| past[*id as usize] = true);
        for id in (1..past.len()).rev() {
            let effect = self.effect(id as u32);
            if past[id] || sessions.contains(&effect.session) {
                past[id] = true;
                sessions.insert(effect.session);
                effect.seen.iter().for_each(|id| past[*id as usize] = true);
            }
        }
        past
    }

    /// Those effects of an open transaction that have all that they need, together with a closed set.
    fn closed_own(&self, own: &[u32], base: &[bool]) -> Vec<u32> {
        let mut closed: Vec<u32> = Vec::new();
        for id in own {
            if self.needs(*id).all(|need| is_in(base, need) || closed.contains(&need)) {
                closed.push(*id);
            }
        }
        closed
    }

    /// What an effect sees, and the one before it of its session on its object.
    fn needs(&self, id: u32) -> impl Iterator<Item = u32> + '_ {
        let effect = self.effect(id);
        let before = &self.before[&(effect.session, effect.object)];
        let place = before.partition_point(|other| *other < id);
        effect.seen.iter().copied().chain(place.checked_sub(1).map(|place| before[place]))
    }

    fn made(&mut self, session: u8, at: usize, object: u32, op: u32, args: &[schedule::Value], seen: Vec<u32>) -> Reply {
        let args: Vec<Value> = args.iter().map(given).collect();
        let (answer, payload) = self.answered(op, &args, &seen);
        let greatest = seen.iter().map(|id| self.effect(*id).stamp).max().unwrap_or(0);
        let last = self.last_stamp.entry(session).or_default();
        let stamp = 1 + greatest.max(*last);
        *last = stamp;
        let id = self.effects.len() as u32 + 1;
        let run = self.open.get(&session).map(|open| open.run);
        if let Some(open) = self.open.get_mut(&session) {
            let own = &mut self.runs[open.run].effects;
            open.saw.extend(seen.iter().filter(|id| !own.contains(id)));
            own.push(id);
        }
        self.effects.push(Effect { object, op, args, answer, payload, session, run, stamp, seen });
        self.on_object.entry(object).or_default().push(id);
        self.before.entry((session, object)).or_default().push(id);
        if run.is_some() {
            return Reply::Ok(id);
        }
        self.fresh.push(id);
        if self.op_levels[op as usize] == Level::Strong {
            self.gather();
        } else {
            self.send(at, Rc::from([id]));
        }
        Reply::Ok(id)
    }

    /// Every replica receives every committed effect.
    fn gather(&mut self) {
        for replica in &mut self.replicas {
            for id in &self.fresh {
                insert(&mut replica.received, *id);
                insert(&mut replica.applied, *id);
            }
            replica.waiting.clear();
        }
        self.fresh.clear();
    }

    fn send(&mut self, at: usize, pack: Rc<[u32]>) {
        for receiver in (0..self.replicas.len()).filter(|receiver| *receiver != at) {
            self.messages.push(Message { sender: at, receiver, pack: pack.clone(), copies: 1 });
        }
        self.receive(at, pack);
    }

    /// The answer and the payload of a call that sees these effects.
    fn answered(&self, op: u32, args: &[Value], seen: &[u32]) -> (Value, Option<Vec<Value>>) {
        let of = self.types[self.typed.op_types[op as usize] as usize];
        let mut state: Vec<(&[u8], Value)> =
            of.fields.iter().map(|field| (field.name.word, Value::initial(field.kind, &field.init))).collect();
        let mut order: Vec<&Effect> = seen.iter().map(|id| self.effect(*id)).filter(|e| e.payload.is_some()).collect();
        order.sort_by_key(|effect| (effect.stamp, effect.session));
        let mut bound: Vec<(&[u8], Value)> = Vec::new();
        for effect in order {
            let (Some(payload), Some(emit)) = (&effect.payload, &self.ops[effect.op as usize].effect) else { continue };
            bound.clear();
            bound.extend(emit.binds.iter().zip(payload).map(|(bind, value)| (bind.name.word, value.clone())));
            for stmt in &emit.stmts {
                let found = value(&stmt.value, [&state, &bound]);
                let field = state.iter_mut().find(|(name, _)| *name == stmt.target.word);
                field.expect("well typed").1 = found;
            }
        }
        let op = self.ops[op as usize];
        let given: Vec<(&[u8], Value)> =
            op.params.iter().zip(args).map(|(param, value)| (param.name.word, value.clone())).collect();
        let answer = value(&op.answer, [&state, &given]);
        let emitted = op.effect.as_ref().filter(|emit| value(&emit.test, [&state, &given]).is_true());
        (answer, emitted.map(|emit| emit.binds.iter().map(|bind| value(&bind.value, [&state, &given])).collect()))
    }

    fn begin(&mut self, session: u8, at: usize, decl: u32, objects: &[u32]) -> Reply {
        if self.open.contains_key(&session) {
            return Reply::Refused(1);
        }
        let snapshot = self.replicas[at].applied.clone();
        let open = Open { run: self.runs.len(), objects: objects.to_vec(), snapshot, saw: Vec::new() };
        self.runs.push(Run { decl, effects: Vec::new(), committed: false });
        self.open.insert(session, open);
        Reply::Begun
    }

    fn commit(&mut self, session: u8, at: usize) -> Reply {
        let Some(open) = self.open.remove(&session) else { return Reply::Refused(2) };
        let run = &mut self.runs[open.run];
        run.committed = true;
        let own = run.effects.clone();
        self.fresh.extend(&own);
        if !own.is_empty() {
            self.send(at, Rc::from(own.as_slice()));
        }
        Reply::Committed(own)
    }

    fn deliver(&mut self, message: usize) -> Reply {
        let Some(Message { sender, receiver, pack, .. }) = self.under_way(message) else { return Reply::Gone };
        let (sender, receiver, pack) = (*sender, *receiver, pack.clone());
        if self.groups[sender] != self.groups[receiver] {
            return Reply::Cut;
        }
        self.messages[message - 1].copies -= 1;
        self.receive(receiver, pack)
    }

    fn resend(&mut self, effect: u32, from: usize, to: usize) -> Reply {
        if !is_in(&self.replicas[from].received, effect) {
            return Reply::Refused(5);
        }
        let pack = match self.effect(effect).run {
            Some(run) => Rc::from(self.runs[run].effects.as_slice()),
            None => Rc::from([effect]),
        };
        self.messages.push(Message { sender: from, receiver: to, pack, copies: 1 });
        Reply::Sent(self.messages.len())
    }

    fn join(&mut self, near: usize, copy: bool) -> Reply {
        let joined = if copy { self.replicas[near].clone() } else { self.bare() };
        self.replicas.push(joined);
        self.groups.push(self.groups[near]);
        Reply::Joined(self.replicas.len() - 1)
    }

    /// A replica with the effects of strong operations and all that they need. It may lack any other one.
    fn bare(&mut self) -> Replica {
        let ids = 1..=self.effects.len() as u32;
        let is_committed = |id: &u32| self.effect(*id).run.is_none_or(|run| self.runs[run].committed);
        let is_strong = |id: &u32| self.op_levels[self.effect(*id).op as usize] == Level::Strong;
        let strong: Vec<u32> = ids.clone().filter(is_strong).collect();
        let fresh = ids.filter(is_committed).collect();
        let mut replica = Replica::default();
        for id in self.reach(&replica.applied, &strong) {
            insert(&mut replica.received, id);
            insert(&mut replica.applied, id);
        }
        self.fresh = fresh;
        replica
    }

    fn receive(&mut self, at: usize, pack: Rc<[u32]>) -> Reply {
        if is_in(&self.replicas[at].received, pack[0]) {
            return Reply::Again;
        }
        pack.iter().for_each(|id| insert(&mut self.replicas[at].received, *id));
        let found = self.reach(&self.replicas[at].applied, &pack);
        if let Some(missing) = self.least_missing(at, &found) {
            let waiting = &mut self.replicas[at].waiting;
            waiting.iter_mut().filter(|(_, watched)| pack.contains(watched)).for_each(|(_, watched)| *watched = missing);
            waiting.push((pack, missing));
            return Reply::Waits(missing);
        }
        let mut gain = Vec::new();
        self.apply(at, found, &mut gain);
        let waiting = std::mem::take(&mut self.replicas[at].waiting);
        let mut still = Vec::new();
        for (other, watched) in waiting {
            if !pack.contains(&watched) {
                still.push((other, watched));
                continue;
            }
            let found = self.reach(&self.replicas[at].applied, &other);
            match self.least_missing(at, &found) {
                Some(missing) => still.push((other, missing)),
                None => self.apply(at, found, &mut gain),
            }
        }
        self.replicas[at].waiting = still;
        gain.sort_unstable();
        Reply::Applies(gain)
    }

    fn least_missing(&self, at: usize, found: &[u32]) -> Option<u32> {
        found.iter().copied().filter(|id| !is_in(&self.replicas[at].received, *id)).min()
    }

    fn apply(&mut self, at: usize, found: Vec<u32>, gain: &mut Vec<u32>) {
        found.iter().for_each(|id| insert(&mut self.replicas[at].applied, *id));
        gain.extend(found);
    }

    /// Some effects and all that they need, directly or through others, but for what is applied.
    fn reach(&self, applied: &[bool], effects: &[u32]) -> Vec<u32> {
        let mut met = vec![false; self.effects.len() + 1];
        let mut found: Vec<u32> = Vec::new();
        let mut meet = |id: u32, found: &mut Vec<u32>| {
            if !is_in(applied, id) && !met[id as usize] {
                met[id as usize] = true;
                found.push(id);
            }
        };
        effects.iter().for_each(|id| meet(*id, &mut found));
        let mut next = 0;
        while next < found.len() {
            let id = found[next];
            next += 1;
            self.needs(id).for_each(|need| meet(need, &mut found));
            if let Some(run) = self.effect(id).run.filter(|run| self.runs[*run].committed) {
                self.runs[run].effects.iter().for_each(|other| meet(*other, &mut found));
            }
        }
        found
    }
}

fn given(value: &schedule::Value) -> Value {
    match value {
        schedule::Value::Int(number) => Value::int(*number),
        schedule::Value::Bool(value) => Value::Scalar(Scalar::Bool(*value)),
        schedule::Value::Text(text) => Value::text(text),
    }
}
