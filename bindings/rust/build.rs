//! Says where `libcanon_text_c.a` lies: in `CANON_TEXT_LIB`, or where `rt lib` leaves it.

use std::{env, path::PathBuf};

fn main() {
    let folder = env::var_os("CANON_TEXT_LIB").map_or_else(
        || {
            let here = PathBuf::from(env::var_os("CARGO_MANIFEST_DIR").expect("cargo sets it"));
            here.join("../../crates/canon_text_c/out")
        },
        PathBuf::from,
    );
    println!("cargo:rustc-link-search=native={}", folder.display());
    println!("cargo:rustc-link-lib=static=canon_text_c");
    println!("cargo:rerun-if-env-changed=CANON_TEXT_LIB");
    println!(
        "cargo:rerun-if-changed={}",
        folder.join("libcanon_text_c.a").display()
    );
}
