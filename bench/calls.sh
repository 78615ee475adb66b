#!/bin/sh
# Measures calls with `Func::call` and `TypedFunc::call` over a guest in Rattle, and prints the nanoseconds of a call of each, in the best of 40
# rounds. It is no part of the gate: it proves the tree of a commit (HEAD where none is named) and a program that calls in a folder of
# its own, which takes as long as a first gate.
#
# What is missing: so far the program was only compiled and run without its proof, so `rt run` may want a clause or a lemma more.
#
#   bench/calls.sh [COMMIT]
set -e
top=$(CDPATH= cd -- "$(dirname -- "$0")/.." && pwd)
work=$(mktemp -d)
trap 'rm -rf "$work"' EXIT
git -C "$top" archive "${1:-HEAD}" crates crates.txt HANDLES | tar -x -C "$work"
cat >>"$work/crates.txt" <<'END'
measure: canon_memory canon_types canon_val canon_value canon_host canon_typed canon_func canon_example_guests thiserror
END
mkdir -p "$work/crates/measure/src"
cat >"$work/crates/measure/src/main.rt" <<'END'
//! The time of calls with `Func::call` and `TypedFunc::call`.
#![tactic(auto)]

ghost use Rattle.std.specs.Prelude.{IfOk};
ghost use Rattle.canon_func.specs.Stores.{IsOwned};

mod component;
mod failure;

use canon_example_guests::Arena;
use canon_func::{Func, Store, TypedFunc};
use canon_host::NoImports;
use canon_memory::Memory;
use canon_types::{ExportIndex, StoreId};
use canon_value::{Core, Val};
use component::component_of;
use failure::Failure;
use std::alloc::Global;
use std::time::Instant;

/// How many bytes the guest's memory has. Its blocks are never given back, so it bounds the calls of one store.
const MEMORY: u64 = 67_108_864;

type Measured = Store<(), Arena, NoImports>;

/// How many rounds there are, of which the best counts.
const ROUNDS: u32 = 40;

fn main(rt: HostRuntime) -> Result<(), Failure> {
    println!(rt; "nanoseconds a call: Func::call, TypedFunc::call")?;
    same(rt, 1000)?;
    length(rt, 16, 1000)?;
    length(rt, 1024, 500)?;
    length(rt, 1_048_576, 1)?;
    sum(rt, 1_048_576, 1)
}

fn same(rt: HostRuntime, calls: u32) -> Result<(), Failure> {
    let params = [Val::U32(7), Val::S8(7)];
    let by_values = time_values(rt, 0, &params, calls)?;
    let alloc = rt.alloc();
    let mut store = store_of(alloc)?;
    let func: TypedFunc<(u32, i8), (bool,)> = export_of(&store, 0)?.typed(&store)?;
    let mut best = u128::MAX;
    for _ in 0..ROUNDS {
        let start = Instant::now(&rt)?;
        for _ in 0..calls {
            let (_same,) = func.call(alloc, &mut store, (7, 7))?;
        }
        best = best.min(each(start, Instant::now(&rt)?, calls));
    }
    println!(rt; "same(u32, s8) -> bool: {by_values} {best}")?;
    Ok(())
}

fn length(rt: HostRuntime, len: u32, calls: u32) -> Result<(), Failure> {
    let alloc = rt.alloc();
    let mut text = String::new(alloc);
    for _ in 0..len {
        text.push_str("a")?;
    }
    let params = [Val::String(text.clone()?)];
    let by_values = time_values(rt, 1, &params, calls)?;
    let mut store = store_of(alloc)?;
    let func: TypedFunc<(&String,), (u32,)> = export_of(&store, 1)?.typed(&store)?;
    let mut best = u128::MAX;
    for _ in 0..ROUNDS {
        let start = Instant::now(&rt)?;
        for _ in 0..calls {
            let (_length,) = func.call(alloc, &mut store, (&text,))?;
        }
        best = best.min(each(start, Instant::now(&rt)?, calls));
    }
    println!(rt; "length(string of {len} bytes): {by_values} {best}")?;
    Ok(())
}

fn sum(rt: HostRuntime, len: u32, calls: u32) -> Result<(), Failure> {
    let alloc = rt.alloc();
    let mut items = Vec::new(alloc);
    let mut bytes = Vec::new(alloc);
    for _ in 0..len {
        items.push(Val::U8(7))?;
        bytes.push(7u8)?;
    }
    let params = [Val::List(items)];
    let by_values = time_values(rt, 2, &params, calls)?;
    let mut store = store_of(alloc)?;
    let func: TypedFunc<(&Vec<u8>,), (u32,)> = export_of(&store, 2)?.typed(&store)?;
    let mut best = u128::MAX;
    for _ in 0..ROUNDS {
        let start = Instant::now(&rt)?;
        for _ in 0..calls {
            let (_sum,) = func.call(alloc, &mut store, (&bytes,))?;
        }
        best = best.min(each(start, Instant::now(&rt)?, calls));
    }
    println!(rt; "sum(list<u8> of {len}): {by_values} {best}")?;
    Ok(())
}

/// The nanoseconds of a call by `Func::call`.
fn time_values(
    rt: HostRuntime,
    number: u32,
    params: &[Val],
    calls: u32,
) -> Result<u128, Failure> {
    let alloc = rt.alloc();
    let mut store = store_of(alloc)?;
    let func = export_of(&store, number)?;
    let mut results = [Val::Bool(false)];
    let mut best = u128::MAX;
    for _ in 0..ROUNDS {
        let start = Instant::now(&rt)?;
        for _ in 0..calls {
            func.call(alloc, &mut store, params, &mut results)?;
        }
        best = best.min(each(start, Instant::now(&rt)?, calls));
    }
    Ok(best)
}

/// The nanoseconds of one of `count` calls.
fn each(from: Instant, to: Instant, count: u32) -> u128 {
    let nanos = to.duration_since(from).as_nanos();
    if count == 0 { nanos } else { nanos / u128::from(count) }
}

fn export_of(store: &Measured, number: u32) -> Result<Func, Failure>
    ensures { IfOk result (λ func. IsOwned store.now func) }
{
    let Some(func) = store.func(ExportIndex::from_u32(number)) else {
        return Err(Failure::NoExport);
    };
    Ok(func)
}

/// A store whose guest returns the second word.
fn store_of(alloc: Global) -> Result<Measured, Failure> {
    let id = StoreId::from_u64(1);
    let component = component_of(alloc, id)?;
    if !component.check() {
        return Err(Failure::BadComponent);
    }
    let memory = Memory::new(alloc, MEMORY)?;
    let core = Core::new(
        alloc,
        id,
        (),
        Arena::new(alloc, 8),
        memory,
        component,
        8,
        u64::MAX,
    )?;
    Ok(Store::new(core, NoImports::new(), 0))
}
END
cat >"$work/crates/measure/src/component.rt" <<'END'
//! The component that the guest implements.

use crate::Failure;
use canon_types::{
    CanonicalOptions, InstanceType, InterfaceType, OptionsIndex, RuntimeInstance, StoreId,
    StringEncoding, TypeBuilder, TypeFuncIndex,
};
use canon_value::{Component, Export};
use std::alloc::Global;

/// The component, as WIT would say it:
///
/// ```wit
/// export same: func(a: u32, b: s8) -> bool;
/// export length: func(text: string) -> u32;
/// export sum: func(bytes: list<u8>) -> u32;
/// ```
pub fn component_of(alloc: Global, id: StoreId) -> Result<Component, Failure> {
    let mut builder = TypeBuilder::new(alloc);
    let bytes = builder.add_list(InterfaceType::U8)?;
    let same = builder.add_func(
        vec![in alloc; InterfaceType::U32, InterfaceType::S8]?,
        vec![in alloc; InterfaceType::Bool]?,
        false,
    )?;
    let length = builder.add_func(
        vec![in alloc; InterfaceType::String]?,
        vec![in alloc; InterfaceType::U32]?,
        false,
    )?;
    let sum = builder.add_func(vec![in alloc; bytes]?, vec![in alloc; InterfaceType::U32]?, false)?;
    let plain = CanonicalOptions {
        instance: RuntimeInstance::from_u32(0),
        string_encoding: StringEncoding::Utf8,
        async_: false,
        post_return: None,
    };
    Ok(Component {
        types: InstanceType::new(builder.finish(), id),
        options: vec![in alloc; plain]?,
        exports: vec![in alloc; export(same, 0), export(length, 1), export(sum, 2)]?,
        imports: Vec::new(alloc),
    })
}

fn export(ty: TypeFuncIndex, func: u32) -> Export {
    Export {
        ty,
        func,
        options: OptionsIndex::from_u32(0),
    }
}
END
cat >"$work/crates/measure/src/failure.rt" <<'END'
//! Why the program ends early.

ghost use Rattle.std.specs.Prelude.{◌≡◌};
ghost use Rattle.measure.specs.declared.failure.Failure.TheVariants as failure;

use canon_func::Error;
use canon_memory::MemoryError;
use canon_typed::TypecheckFailed;
use canon_types::{OutOfMemory, TypeError};
use std::alloc::{AllocError, AllocFailed};
use std::io;

/// Why the program ends early.
#[derive(Debug, Drop, thiserror::Error)]
pub enum Failure {
    #[error("a type is refused: {0:?}")]
    Type(#[from] TypeError),
    #[error("the guest has no memory: {0:?}")]
    Memory(#[from] MemoryError),
    #[error("a call is refused: {0}")]
    Call(#[from] Error),
    #[error("nothing can be printed: {0}")]
    Print(#[from] io::Error),
    #[error("an index of the component is outside its table")]
    BadComponent,
    #[error("the component has no such export")]
    NoExport,
    #[error("the export has other types")]
    OtherTypes,
    #[error("the result is wrong")]
    WrongResult,
    #[error("out of memory")]
    OutOfMemory,
}

impl From<TypecheckFailed> for Failure {
    ghost from_gives = { λ _ e. e ≡ failure.OtherTypes };

    fn from(_: TypecheckFailed) -> Self {
        Failure::OtherTypes
    }
}

impl From<OutOfMemory> for Failure {
    ghost from_gives = { λ _ e. e ≡ failure.OutOfMemory };

    fn from(_: OutOfMemory) -> Self {
        Failure::OutOfMemory
    }
}

impl From<AllocError> for Failure {
    ghost from_gives = { λ _ e. e ≡ failure.OutOfMemory };

    fn from(_: AllocError) -> Self {
        Failure::OutOfMemory
    }
}

impl<T: Drop> From<AllocFailed<T>> for Failure {
    ghost from_gives = { λ _ e. e ≡ failure.OutOfMemory };

    fn from(_: AllocFailed<T>) -> Self {
        Failure::OutOfMemory
    }
}
END
cd "$work/crates/measure"
rt run
