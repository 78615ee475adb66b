//! Each conversion, and what the other crates have for it.

use crate::clock::{race, Times};
use crate::texts::Text;
use encoding_rs::mem;
use std::hint::black_box;

/// One conversion of a source of so many bytes.
pub struct Row {
    pub name: &'static str,
    pub bytes: usize,
    pub times: Times,
}

/// All conversions of a text. Those that stop at the first character above U+00FF are left out where
/// it has one.
pub fn rows(text: &Text) -> Vec<Row> {
    let mut rows = from_utf8(text);
    rows.extend(from_utf16(text));
    rows.extend(compact(text));
    if let Some(latin1) = &text.latin1 {
        rows.extend(narrow(text, latin1));
        rows.extend(from_latin1(latin1));
    }
    rows
}

fn row(
    name: &'static str,
    bytes: usize,
    ours: impl FnMut() -> u64,
    theirs: impl FnMut() -> u64,
) -> Row {
    Row {
        name,
        bytes,
        times: race(ours, theirs),
    }
}

fn from_utf8(text: &Text) -> Vec<Row> {
    let src = &text.utf8[..];
    let mut bytes = vec![0u8; src.len()];
    let mut bytes_too = bytes.clone();
    let mut units = vec![0u16; src.len()];
    let mut units_too = units.clone();
    vec![
        row(
            "utf8_to_utf8",
            src.len(),
            || u64::from(canon_text::utf8_to_utf8(black_box(src), &mut bytes).is_ok()),
            || {
                let text = simdutf8::compat::from_utf8(black_box(src)).unwrap();
                bytes_too.copy_from_slice(text.as_bytes());
                u64::from(bytes_too[0])
            },
        ),
        row(
            "utf8_to_utf16",
            src.len(),
            || canon_text::utf8_to_utf16(black_box(src), &mut units).unwrap(),
            || {
                mem::convert_utf8_to_utf16_without_replacement(black_box(src), &mut units_too)
                    .unwrap() as u64
            },
        ),
    ]
}

fn from_utf16(text: &Text) -> Vec<Row> {
    let src = &text.utf16[..];
    let mut bytes = vec![0u8; 3 * src.len()];
    let mut bytes_too = bytes.clone();
    let mut units = vec![0u16; src.len()];
    let mut units_too = units.clone();
    vec![
        row(
            "utf16_to_utf16",
            2 * src.len(),
            || u64::from(canon_text::utf16_to_utf16(black_box(src), &mut units).is_ok()),
            || {
                let valid = mem::utf16_valid_up_to(black_box(src));
                units_too[..valid].copy_from_slice(&src[..valid]);
                valid as u64
            },
        ),
        row(
            "utf16_to_utf8",
            2 * src.len(),
            || {
                canon_text::utf16_to_utf8(black_box(src), &mut bytes, false)
                    .unwrap()
                    .src_read
            },
            || mem::convert_utf16_to_utf8_partial(black_box(src), &mut bytes_too).0 as u64,
        ),
    ]
}

// encoding_rs has no compact form: what stands beside is its validation and its conversions.
fn compact(text: &Text) -> Vec<Row> {
    let (src8, src16) = (&text.utf8[..], &text.utf16[..]);
    let mut bytes = vec![0u8; 2 * src8.len()];
    let mut narrow = vec![0u8; src16.len()];
    let mut units = vec![0u16; src8.len()];
    let mut copy = vec![0u16; src16.len()];
    vec![
        row(
            "utf8_to_compact_utf16",
            src8.len(),
            || canon_text::utf8_to_compact_utf16(black_box(src8), &mut bytes, 0).unwrap(),
            || {
                mem::convert_utf8_to_utf16_without_replacement(black_box(src8), &mut units).unwrap()
                    as u64
            },
        ),
        row(
            "utf16_to_compact_utf16",
            2 * src16.len(),
            || {
                let dst = &mut bytes[..2 * src16.len()];
                canon_text::utf16_to_compact_utf16(black_box(src16), dst, 0).unwrap()
            },
            || {
                let valid = mem::utf16_valid_up_to(black_box(src16));
                copy[..valid].copy_from_slice(&src16[..valid]);
                valid as u64
            },
        ),
        row(
            "utf16_to_compact_probably_utf16",
            2 * src16.len(),
            || {
                let dst = &mut bytes[..2 * src16.len()];
                canon_text::utf16_to_compact_probably_utf16(black_box(src16), dst).unwrap()
            },
            || {
                let valid = mem::utf16_valid_up_to(black_box(src16));
                copy[..valid].copy_from_slice(&src16[..valid]);
                if mem::is_utf16_latin1(src16) {
                    mem::convert_utf16_to_latin1_lossy(src16, &mut narrow);
                }
                valid as u64
            },
        ),
    ]
}

fn narrow(text: &Text, latin1: &[u8]) -> Vec<Row> {
    let (src8, src16) = (&text.utf8[..], &text.utf16[..]);
    let mut bytes = vec![0u8; src8.len()];
    let mut bytes_too = bytes.clone();
    vec![
        row(
            "utf8_to_latin1",
            src8.len(),
            || canon_text::utf8_to_latin1(black_box(src8), &mut bytes).src_read,
            || mem::convert_utf8_to_latin1_lossy(black_box(src8), &mut bytes_too) as u64,
        ),
        row(
            "utf16_to_latin1",
            2 * src16.len(),
            || canon_text::utf16_to_latin1(black_box(src16), &mut bytes).src_read,
            || {
                mem::convert_utf16_to_latin1_lossy(black_box(src16), &mut bytes_too);
                latin1.len() as u64
            },
        ),
    ]
}

fn from_latin1(src: &[u8]) -> Vec<Row> {
    let mut bytes = vec![0u8; 2 * src.len()];
    let mut bytes_too = bytes.clone();
    let mut same = vec![0u8; src.len()];
    let mut same_too = same.clone();
    let mut units = vec![0u16; src.len()];
    let mut units_too = units.clone();
    vec![
        row(
            "latin1_to_utf8",
            src.len(),
            || canon_text::latin1_to_utf8(black_box(src), &mut bytes, false).src_read,
            || mem::convert_latin1_to_utf8_partial(black_box(src), &mut bytes_too).0 as u64,
        ),
        row(
            "latin1_to_latin1",
            src.len(),
            || {
                canon_text::latin1_to_latin1(black_box(src), &mut same);
                u64::from(same[0])
            },
            || {
                same_too.copy_from_slice(black_box(src));
                u64::from(same_too[0])
            },
        ),
        row(
            "latin1_to_utf16",
            src.len(),
            || {
                canon_text::latin1_to_utf16(black_box(src), &mut units);
                u64::from(units[0])
            },
            || {
                mem::convert_latin1_to_utf16(black_box(src), &mut units_too);
                u64::from(units_too[0])
            },
        ),
        row(
            "inflate_latin1_bytes",
            src.len(),
            || {
                canon_text::inflate_latin1_bytes(black_box(&mut bytes), src.len() as u64).len()
                    as u64
            },
            || {
                mem::convert_latin1_to_utf16(black_box(src), &mut units_too);
                u64::from(units_too[0])
            },
        ),
    ]
}
