//! Gives the library's `read` and `write` the names of the two functions of `src/channel.rs`, and links it.
//!
//! `libcanon_c.a` lies in the folder that `CANON_LIB` names, or where `rt lib` leaves it. The kit's heap, `liblibc_c.a`, is the file that `CANON_HEAP`
//! names, or that of the kit whose `rt` there is.

use std::{env, fs, path::PathBuf, process::Command};

fn heap() -> PathBuf {
    env::var_os("CANON_HEAP").map_or_else(
        || {
            let page = Command::new("rt")
                .arg("doc")
                .output()
                .expect("CANON_HEAP is set, or there is an rt");
            let page = PathBuf::from(
                String::from_utf8(page.stdout)
                    .expect("a path is a text")
                    .trim(),
            );
            page.with_file_name("c").join("liblibc_c.a")
        },
        PathBuf::from,
    )
}

fn main() {
    let here = PathBuf::from(env::var_os("CARGO_MANIFEST_DIR").expect("cargo sets it"));
    let folder = env::var_os("CANON_LIB")
        .map_or_else(|| here.join("../../../crates/canon_c/out"), PathBuf::from);
    let library = folder.join("libcanon_c.a");
    let out = PathBuf::from(env::var_os("OUT_DIR").expect("cargo sets it"));
    let objcopy = env::var("OBJCOPY").unwrap_or("objcopy".into());
    let renamed = Command::new(&objcopy)
        .args([
            "--redefine-sym",
            "read=canon_channel_read",
            "--redefine-sym",
            "write=canon_channel_write",
        ])
        .args([&library, &out.join("libcanon_channel.a")])
        .status()
        .unwrap_or_else(|why| panic!("{objcopy} (of binutils) doesn't run: {why}"));
    assert!(
        renamed.success(),
        "{} isn't there: rt lib in crates/canon_c makes it",
        library.display()
    );
    let heap = heap();
    fs::copy(&heap, out.join("libcanon_heap.a"))
        .unwrap_or_else(|why| panic!("{}: {why}", heap.display()));
    println!("cargo:rustc-link-search=native={}", out.display());
    println!("cargo:rustc-link-lib=static=canon_channel");
    println!("cargo:rustc-link-lib=static=canon_heap");
    for name in ["CANON_LIB", "CANON_HEAP", "CANON_GUEST", "OBJCOPY"] {
        println!("cargo:rerun-if-env-changed={name}");
    }
    println!("cargo:rerun-if-changed={}", library.display());

    // The examples run the module of ../../engine, as run-engine.sh built it.
    if let Some(folder) = env::var_os("CANON_GUEST") {
        for object in ["native.o", "guest_wasm.o"] {
            println!(
                "cargo:rustc-link-arg-examples={}",
                PathBuf::from(&folder).join("plain").join(object).display()
            );
        }
    }
}
