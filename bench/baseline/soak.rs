//! Counts the replies and the effects of a run of 4,000 drawn events, as `quelea soak FILE NUMBER` does.
mod common;

use common::draws::schedule_of;
use common::levels::levels;
use common::parse::parse_program;
use common::store::{Reply, Store};
use common::types::typecheck;
use common::{MEBIBYTE, bad, end, read};
use std::env;

const EVENTS: u32 = 4000;
const NAMES: [&str; 16] = [
    "ok", "begun", "committed", "blocked", "unavailable", "held", "cut", "gone", "again", "waits", "applies", "lost",
    "split", "healed", "sent", "refused",
];

fn main() {
    let word = |k: usize| env::args().nth(k).expect("a file and a number");
    let text = read(&word(1), MEBIBYTE);
    let number = word(2).parse().expect("a number");
    let program = parse_program(&text).unwrap_or_else(|fault| bad("source", fault));
    let typed = typecheck(&program).unwrap_or_else(|fault| bad("source", fault));
    let levels = levels(&typed).unwrap_or_else(|line| end(&line, 1));
    let mut store = Store::new(&program, &typed, &levels.ops, &levels.txns, 3);
    let mut counts = [0; NAMES.len()];
    for event in schedule_of(&program, &typed, number, EVENTS) {
        counts[kind(&store.step(&event))] += 1;
    }
    println!("events {EVENTS}");
    for (name, count) in NAMES.iter().zip(counts) {
        println!("{name} {count}");
    }
    println!("effects {}", store.effects.len());
    println!("seen {}", store.effects.iter().map(|effect| effect.seen.len()).sum::<usize>());
    println!("stamp {}", store.effects.iter().map(|effect| effect.stamp).max().unwrap_or(0));
}

fn kind(reply: &Reply) -> usize {
    match reply {
        Reply::Ok(_) => 0,
        Reply::Begun => 1,
        Reply::Committed(_) => 2,
        Reply::Blocked(_) => 3,
        Reply::Unavailable(_) => 4,
        Reply::Held(_) => 5,
        Reply::Cut => 6,
        Reply::Gone => 7,
        Reply::Again => 8,
        Reply::Waits(_) => 9,
        Reply::Applies(_) => 10,
        Reply::Lost => 11,
        Reply::Split => 12,
        Reply::Healed => 13,
        Reply::Sent(_) => 14,
        Reply::Refused(_) => 15,
        Reply::Joined(_) => unreachable!("none is drawn"),
    }
}
