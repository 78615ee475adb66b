//! Calls the exports of `bindings/engine/guest.c`, whose module was made native by wasm2c. `bindings/run-engine.sh` builds and runs it.

mod c_engine;

use c_engine::CEngine;
use canon::{
    session, Component, Do, Error, Function, Import, Refused, ResourceType, Store, Type, Value,
};

const WORDS: u32 = 0;
const GREET: u32 = 1;
const TOTAL: u32 = 2;
const MAKE: u32 = 3;
const UNMAKE: u32 = 4;
const SAME: u32 = 5;
const BROKEN: u32 = 8;
const CRASH: u32 = 9;

const CLOCK: u32 = 3;
const LOG: u32 = 4;

fn component() -> Component {
    let item = Type::record([("name", Type::String), ("count", Type::U32)]);
    let report = Type::record([("sum", Type::U64), ("longest", Type::String)]);
    Component {
        resources: vec![ResourceType::Guest { id: 1, dtor: None }],
        exports: vec![
            Function::new([Type::String], [Type::list(Type::U32)]).with_post_return(),
            Function::new([Type::String], [Type::String]).with_post_return(),
            Function::new([Type::list(item)], [report]).with_post_return(),
            Function::new([Type::U32], [Type::U32]),
            Function::new([Type::U32], [Type::U32]),
            Function::new([Type::U32, Type::S8], [Type::Bool]),
            Function::new([Type::String], [Type::U32]).with_post_return(),
            Function::new([Type::list(Type::U8)], [Type::U32]).with_post_return(),
            Function::new([], [Type::list(Type::U32)]),
            Function::new([], [Type::U32]),
        ],
        imports: vec![
            Import::ResourceNew(0),
            Import::ResourceRep(0),
            Import::ResourceDrop(0),
            Import::Function(Function::new([], [Type::U32])),
            Import::Function(Function::new([Type::String], [])),
        ],
        memory: 131_072,
        ..Component::default()
    }
}

/// A clock that begins here, and a log that prints.
fn host(mut now: u32) -> impl FnMut(u32, Vec<Value>) -> Result<Vec<Value>, Refused> {
    move |import, params| match (import, &params[..]) {
        (CLOCK, []) => {
            now += 1;
            Ok(vec![Value::U32(now)])
        }
        (LOG, [Value::String(text)]) => {
            println!("  log: {text}");
            Ok(vec![])
        }
        _ => Err(Refused),
    }
}

fn store(now: u32) -> Result<Store, Error> {
    let engine = CEngine::new().ok_or(Error::Over)?;
    Store::new(component(), engine, host(now))
}

/// Prints what came of a call.
fn show(name: &str, results: Result<Vec<Value>, Error>) {
    match results.as_deref() {
        Ok([Value::List(items)]) => println!(
            "{name}: {}: {:?} ..",
            items.len(),
            &items[..items.len().min(4)]
        ),
        Ok([value]) => println!("{name}: {value:?}"),
        Ok(values) => println!("{name}: {values:?}"),
        Err(error) => println!("{name}: {error}"),
    }
}

fn item(name: &str, count: u32) -> Value {
    Value::record([("name", Value::string(name)), ("count", Value::U32(count))])
}

fn main() -> Result<(), Error> {
    let (mut s, mut t) = (store(6)?, store(0)?);
    show(
        "words",
        s.call(WORDS, &[Value::string("the quick brown fox")]),
    );
    show("greet", s.call(GREET, &[Value::string("Anna")]));
    show("greet", t.call(GREET, &[Value::string("Otto")]));
    show("greet", s.call(GREET, &[Value::string("Zoë")]));
    let items = [
        item("pears", 3),
        item("apples", 40),
        item("figs", 4_000_000_000),
    ];
    show("total", s.call(TOTAL, &[Value::List(items.into())]));
    show("same", s.call(SAME, &[Value::U32(u32::MAX), Value::S8(-1)]));

    // 300,000 bytes: the module makes its memory longer.
    let many = "xxxxxxx ".repeat(37_500);
    show("words", s.call(WORDS, &[Value::string(&many)]));
    let marks = s.marks()?;
    println!(
        "marks: {}, lawful {}",
        marks.len(),
        marks.iter().filter(|it| it.lawful).count()
    );

    show("make", s.call(MAKE, &[Value::U32(40)]));
    println!("live: {}", s.live_handles()?);
    show("unmake", s.call(UNMAKE, &[Value::U32(1)]));
    println!("live: {}", s.live_handles()?);

    show("words of a number", s.call(WORDS, &[Value::U32(7)]));
    show(
        "words of two bytes",
        s.call_image(WORDS, vec![7, 0]).map(|_| vec![]),
    );
    show("no export", s.call(99, &[]));
    show("broken", s.call(BROKEN, &[]));
    show(
        "words",
        s.call(WORDS, &[Value::string("the store is shut")]),
    );
    show("crash", t.call(CRASH, &[]));
    show("unmake", store(0)?.call(UNMAKE, &[Value::U32(99)]));

    // A session, on this thread.
    let mut asked = vec![Do::LiveHandles, Do::Call(GREET, vec![Value::string("Eva")])];
    let engine = CEngine::new().ok_or(Error::Over)?;
    session(component(), engine, host(1), move |last| {
        println!("session: {last:?}");
        asked.pop()
    });
    Ok(())
}
