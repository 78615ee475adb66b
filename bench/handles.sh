#!/bin/sh
# Measures the handle tables of a commit (HEAD where none is named) on this machine, and prints for each number of handles the
# nanoseconds that a call took on average. It is no part of the gate: it proves and builds the table's crates and a program that
# calls them in a folder of its own, which takes minutes.
#
#   bench/handles.sh [COMMIT]
set -e
top=$(CDPATH= cd -- "$(dirname -- "$0")/.." && pwd)
work=$(mktemp -d)
trap 'rm -rf "$work"' EXIT
git -C "$top" archive "${1:-HEAD}" crates/canon_model crates/canon_abi crates/canon_handles | tar -x -C "$work"
cat >"$work/crates.txt" <<'END'
canon_model:
canon_abi: canon_model
canon_handles: canon_abi
measure: canon_handles
END
mkdir -p "$work/crates/measure/src"
cat >"$work/crates/measure/src/main.rt" <<'END'
//! The time of insertions, look-ups and removals of a handle table, in random order.
#![tactic(auto)]

use canon_handles::{HandleCounter, HandleTable};
use std::alloc::{AllocError, Global};
use std::io;
use std::time::Instant;

fn main(rt: HostRuntime) -> io::Result<()> {
    println!(rt; "handles  insert  look_up  remove  insert_freed  look_up  remove")?;
    for count in [1_000u32, 10_000, 100_000, 1_000_000] {
        let mut counter = HandleCounter::new(u64::MAX);
        let mut table = HandleTable::new(rt.alloc());
        let first = shuffled(rt.alloc(), count, 1)?;
        let second = shuffled(rt.alloc(), count, 2)?;
        let start = Instant::now(&rt)?;
        let a = insert_all(&mut table, &mut counter, count);
        let t1 = Instant::now(&rt)?;
        let b = look_up_all(&table, &first);
        let t2 = Instant::now(&rt)?;
        let c = remove_all(&mut table, &mut counter, &second);
        let t3 = Instant::now(&rt)?;
        let d = insert_all(&mut table, &mut counter, count);
        let t4 = Instant::now(&rt)?;
        let e = look_up_all(&table, &second);
        let t5 = Instant::now(&rt)?;
        let f = remove_all(&mut table, &mut counter, &first);
        let t6 = Instant::now(&rt)?;
        if a != count || b != count || c != count || d != count || e != count || f != count {
            println!(rt; "a call was refused")?;
        }
        let per_call = (
            each(start, t1, count),
            each(t1, t2, count),
            each(t2, t3, count),
            each(t3, t4, count),
            each(t4, t5, count),
            each(t5, t6, count),
        );
        println!(rt; "{count}  {}  {}  {}  {}  {}  {}", per_call.0, per_call.1, per_call.2, per_call.3, per_call.4, per_call.5)?;
    }
    Ok(())
}

/// The nanoseconds of one of `count` calls.
fn each(from: Instant, to: Instant, count: u32) -> u128 {
    let nanos = to.duration_since(from).as_nanos();
    if count == 0 { nanos } else { nanos / u128::from(count) }
}

/// The indexes from 1 to `count` in an order that `seed` gives.
fn shuffled(alloc: Global, count: u32, seed: u64) -> Result<Vec<u32>, AllocError> {
    let mut order = Vec::new(alloc);
    for index in 1..=count {
        order.push(index)?;
    }
    let mut random = seed;
    for place in 0..count {
        random = random
            .wrapping_mul(6_364_136_223_846_793_005)
            .wrapping_add(1_442_695_040_888_963_407);
        let a = place as usize;
        let len = order.len();
        if a < len {
            let b = ((random >> 33) % len as u64) as usize;
            order.swap(a, b);
        }
    }
    Ok(order)
}

fn insert_all(table: &mut HandleTable, counter: &mut HandleCounter, count: u32) -> u32 {
    let mut done = 0u32;
    for rep in 0..count {
        if table.held() <= counter.live() && table.error_context_insert(counter, rep).is_ok() {
            done = done.wrapping_add(1);
        }
    }
    done
}

fn look_up_all(table: &HandleTable, order: &[u32]) -> u32 {
    let mut done = 0u32;
    for index in order {
        if table.error_context_rep(*index).is_ok() {
            done = done.wrapping_add(1);
        }
    }
    done
}

fn remove_all(table: &mut HandleTable, counter: &mut HandleCounter, order: &[u32]) -> u32 {
    let mut done = 0u32;
    for index in order {
        if table.held() <= counter.live() && table.error_context_drop(counter, *index).is_ok() {
            done = done.wrapping_add(1);
        }
    }
    done
}
END
cd "$work/crates/measure"
rt run >"$work/said" 2>&1 || { cat "$work/said" >&2; exit 1; }
for run in 1 2 3; do
    echo "run $run"
    out/measure
done
