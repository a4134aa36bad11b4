//! Runs a schedule over a simulated store at the least levels of a source, as `quelea run FILE SCHEDULE` does.
mod common;

use common::command::with_store;
use common::schedule::Schedule;
use common::store::Store;
use common::types::Typed;
use common::value::{Value, separated};
use std::io::{self, Write};

fn main() -> io::Result<()> {
    with_store(|typed, levels, schedule, mut store| {
        let mut out = b"levels\n".to_vec();
        out.extend_from_slice(levels.print(typed).as_bytes());
        out.extend_from_slice(b"replies\n");
        for (k, event) in schedule.events.iter().enumerate() {
            let reply = store.step(event);
            write!(out, "{} ", k + 1)?;
            reply.print(&store.effects, &mut out)?;
            out.push(b'\n');
        }
        print_execution(typed, schedule, &store, &mut out)?;
        io::stdout().write_all(&out)
    })
}

fn print_execution(typed: &Typed, schedule: &Schedule, store: &Store, out: &mut Vec<u8>) -> io::Result<()> {
    out.extend_from_slice(b"execution\n");
    for (k, effect) in store.effects.iter().enumerate() {
        write!(out, "effect {} ", k + 1)?;
        out.extend_from_slice(schedule.objects[effect.object as usize]);
        out.push(b' ');
        out.extend_from_slice(typed.op_names[effect.op as usize]);
        out.push(b' ');
        print_values(&effect.args, out);
        out.extend_from_slice(b" = ");
        effect.answer.print(out);
        out.extend_from_slice(b" emit ");
        match &effect.payload {
            Some(values) => print_values(values, out),
            None => out.push(b'-'),
        }
        write!(out, " session {} txn ", effect.session)?;
        match effect.run {
            Some(run) => {
                write!(out, "{}:", run + 1)?;
                out.extend_from_slice(typed.txn_names[store.runs[run].decl as usize]);
            }
            None => out.push(b'-'),
        }
        write!(out, " stamp {} vis", effect.stamp)?;
        effect.seen.iter().try_for_each(|id| write!(out, " {id}"))?;
        out.push(b'\n');
    }
    out.extend_from_slice(b"end\n");
    Ok(())
}

fn print_values(values: &[Value], out: &mut Vec<u8>) {
    out.push(b'(');
    separated(out, values.iter(), |out, value| value.print(out));
    out.push(b')');
}
