//! Times calls of `bindings/engine/guest.c`'s component: by a `Store`, whose library runs on a thread, and in a `session`. Prints the nanoseconds of a call,
//! in the best of some rounds. `bindings/run-engine.sh` builds it.

#[path = "demo/c_engine.rs"]
mod c_engine;

use c_engine::CEngine;
use canon::{session, Component, Do, Error, Function, NoHost, Store, Type, Value};
use std::cell::Cell;
use std::rc::Rc;
use std::time::{Duration, Instant};

const ROUNDS: u32 = 300;
const SAME: u32 = 5;
const LENGTH: u32 = 6;

/// The component as far as it is called here.
fn component() -> Component {
    let unused = Function::new([], []);
    let mut exports = vec![unused; 5];
    exports.push(Function::new([Type::U32, Type::S8], [Type::Bool]));
    exports.push(Function::new([Type::String], [Type::U32]).with_post_return());
    Component {
        exports,
        memory: 131_072,
        ..Component::default()
    }
}

fn by_store(export: u32, params: &[Value], calls: u32) -> Result<Duration, Error> {
    let engine = CEngine::new().ok_or(Error::Over)?;
    let mut store = Store::new(component(), engine, NoHost)?;
    let mut best = Duration::MAX;
    for _ in 0..ROUNDS {
        let start = Instant::now();
        for _ in 0..calls {
            store.call(export, params)?;
        }
        best = best.min(start.elapsed());
        store.marks()?;
    }
    Ok(best / calls)
}

fn by_session(export: u32, params: &[Value], calls: u32) -> Result<Duration, Error> {
    let engine = CEngine::new().ok_or(Error::Over)?;
    let best = Rc::new(Cell::new(Duration::MAX));
    let (told, params) = (Rc::clone(&best), params.to_vec());
    let (mut round, mut done, mut start) = (0, 0, Instant::now());
    session(component(), engine, NoHost, move |last| {
        last.expect("a call is answered");
        if done < calls {
            if done == 0 {
                start = Instant::now();
            }
            done += 1;
            return Some(Do::Call(export, params.clone()));
        }
        told.set(told.get().min(start.elapsed()));
        (round, done) = (round + 1, 0);
        (round < ROUNDS).then_some(Do::Marks)
    });
    Ok(best.get() / calls)
}

fn main() -> Result<(), Error> {
    println!(
        "{:<28} {:>14} {:>14}",
        "ns a call", "Store::call", "session"
    );
    let text = |len| [Value::String("a".repeat(len))];
    for (name, export, params, calls) in [
        (
            "same(u32, s8) -> bool",
            SAME,
            &[Value::U32(7), Value::S8(7)][..],
            100,
        ),
        ("length(string of 16 bytes)", LENGTH, &text(16)[..], 100),
        ("length(string of 1 KiB)", LENGTH, &text(1024)[..], 100),
        ("length(string of 1 MiB)", LENGTH, &text(1 << 20)[..], 1),
    ] {
        let (a, b) = (
            by_store(export, params, calls)?,
            by_session(export, params, calls)?,
        );
        println!("{name:<28} {:>14} {:>14}", a.as_nanos(), b.as_nanos());
    }
    Ok(())
}
