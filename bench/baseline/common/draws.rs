//! The schedule of a number: events that a linear congruential generator draws.
use super::schedule::{Event, Value};
use super::tree::{Base, Program};
use super::types::Typed;

struct Draws {
    state: u64,
}

impl Draws {
    fn below(&mut self, most: usize) -> usize {
        self.state = (self.state * 1_103_515_245 + 12_345) % (1 << 31);
        (self.state / 65_536) as usize % most
    }

    fn session(&mut self) -> u8 {
        self.below(4) as u8
    }

    fn replica(&mut self) -> u8 {
        self.below(3) as u8
    }
}

/// So many events of a number at three replicas, on two objects of each type.
pub fn schedule_of(program: &Program, typed: &Typed, number: u64, count: u32) -> Vec<Event<'static>> {
    let mut draws = Draws { state: number };
    (1..=count).map(|k| event(program, typed, &mut draws, k)).collect()
}

fn event(program: &Program, typed: &Typed, draws: &mut Draws, number: u32) -> Event<'static> {
    let message = |draws: &mut Draws| 1 + draws.below(number as usize) as u32;
    match draws.below(12) {
        0..=5 if typed.op_names.is_empty() => Event::Heal,
        0..=5 => call(program, typed, draws),
        6..=8 => Event::Deliver(message(draws)),
        9 => match draws.below(4) {
            0 => Event::Partition(vec![0, 0, 1]),
            1 => Event::Heal,
            2 => Event::Lose(message(draws)),
            _ => Event::Repeat(message(draws)),
        },
        10 if typed.txn_names.is_empty() => Event::Heal,
        10 => Event::Begin {
            session: draws.session(),
            replica: draws.replica(),
            decl: draws.below(typed.txn_names.len()) as u32,
            objects: (0..program.types.len() as u32).map(|of| 2 * of).collect(),
        },
        _ => Event::Commit { session: draws.session(), replica: draws.replica() },
    }
}

fn call(program: &Program, typed: &Typed, draws: &mut Draws) -> Event<'static> {
    let (session, replica) = (draws.session(), draws.replica());
    let op = draws.below(typed.op_names.len());
    let object = 2 * typed.op_types[op] + draws.below(2) as u32;
    let decl = program.types.iter().flat_map(|decl| &decl.ops).nth(op).expect("an operation");
    let args = decl.params.iter().map(|param| argument(draws, param.base)).collect();
    Event::Call { session, replica, object, op: op as u32, args }
}

fn argument(draws: &mut Draws, base: Base) -> Value<'static> {
    const TEXTS: [&[u8]; 10] = [b"t0", b"t1", b"t2", b"t3", b"t4", b"t5", b"t6", b"t7", b"t8", b"t9"];
    match base {
        Base::Int => Value::Int(draws.below(100) as i64),
        Base::Bool => Value::Bool(draws.below(2) == 1),
        Base::Text => Value::Text(TEXTS[draws.below(10)]),
    }
}
