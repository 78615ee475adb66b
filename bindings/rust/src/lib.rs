//! The text conversions of the Canonical ABI, as `crates/canon_text` proves them. Each call tests
//! what the library requires, and panics where it doesn't hold, as a slice's index does.
//!
//! Units are `u16`s for UTF-16, and bytes else; in a compact text a unit of UTF-16 is two bytes, the
//! low one first. What lies in `dst` behind what was written stays.

mod raw;

/// The bit of a compact length that says UTF-16.
pub const UTF16_TAG: u64 = 1 << 31;

/// The source is ill-formed: the place of its first fault, in units.
#[derive(Clone, Copy, Debug, PartialEq, Eq)]
pub struct IllFormed {
    pub place: u64,
}

/// How far a pass came, in units of the source and of the destination.
#[derive(Clone, Copy, Debug, PartialEq, Eq)]
pub struct SizePair {
    pub src_read: u64,
    pub dst_written: u64,
}

fn number(answer: raw::Answer) -> Result<u64, IllFormed> {
    if answer.ok {
        Ok(answer.number)
    } else {
        Err(IllFormed {
            place: answer.number,
        })
    }
}

fn pair(sizes: raw::Sizes) -> SizePair {
    SizePair {
        src_read: sizes.src_read,
        dst_written: sizes.dst_written,
    }
}

// Whether `dst` has room for units of two bytes behind a first part, as the compact calls require.
fn has_room(units: usize, room: usize, latin1_bytes_so_far: u64) -> bool {
    let all = latin1_bytes_so_far.checked_add(units as u64);
    room % 2 == 0 && all.is_some_and(|n| n <= room as u64 / 2)
}

/// Copies UTF-8 into as many bytes. A refusal leaves `dst` as it was.
pub fn utf8_to_utf8(src: &[u8], dst: &mut [u8]) -> Result<(), IllFormed> {
    assert_eq!(src.len(), dst.len());
    // SAFETY: the lengths are equal, and both slices are live for the call.
    let answer =
        unsafe { raw::canon_utf8_to_utf8(src.as_ptr(), src.len(), dst.as_mut_ptr(), dst.len()) };
    number(answer).map(|_| ())
}

/// Copies UTF-16 into as many units. A refusal has copied the units before its place.
pub fn utf16_to_utf16(src: &[u16], dst: &mut [u16]) -> Result<(), IllFormed> {
    assert_eq!(src.len(), dst.len());
    // SAFETY: the lengths are equal, and both slices are live for the call.
    let answer =
        unsafe { raw::canon_utf16_to_utf16(src.as_ptr(), src.len(), dst.as_mut_ptr(), dst.len()) };
    number(answer).map(|_| ())
}

/// Copies Latin-1 into as many bytes.
pub fn latin1_to_latin1(src: &[u8], dst: &mut [u8]) {
    assert_eq!(src.len(), dst.len());
    // SAFETY: the lengths are equal, and both slices are live for the call.
    unsafe { raw::canon_latin1_to_latin1(src.as_ptr(), src.len(), dst.as_mut_ptr(), dst.len()) }
}

/// Writes one unit for each byte of Latin-1, into as many units.
pub fn latin1_to_utf16(src: &[u8], dst: &mut [u16]) {
    assert_eq!(src.len(), dst.len());
    // SAFETY: the lengths are equal, and both slices are live for the call.
    unsafe { raw::canon_latin1_to_utf16(src.as_ptr(), src.len(), dst.as_mut_ptr(), dst.len()) }
}

/// Writes UTF-8 as UTF-16 into at least as many units, and answers the units written. A refusal
/// leaves `dst` as it was.
pub fn utf8_to_utf16(src: &[u8], dst: &mut [u16]) -> Result<u64, IllFormed> {
    assert!(src.len() <= dst.len());
    // SAFETY: `dst` is long enough, and both slices are live for the call.
    number(unsafe {
        raw::canon_utf8_to_utf16(src.as_ptr(), src.len(), dst.as_mut_ptr(), dst.len())
    })
}

/// A pass from UTF-16 to UTF-8: it stops where a character doesn't fit, and a first pass above
/// U+007F too. A refusal has written all before its place.
pub fn utf16_to_utf8(src: &[u16], dst: &mut [u8], first_pass: bool) -> Result<SizePair, IllFormed> {
    let (from, to) = (src.as_ptr(), dst.as_mut_ptr());
    // SAFETY: nothing is required, and both slices are live for the call.
    let pass = unsafe { raw::canon_utf16_to_utf8(from, src.len(), to, dst.len(), first_pass) };
    if pass.ok {
        Ok(SizePair {
            src_read: pass.src_read,
            dst_written: pass.dst_written,
        })
    } else {
        Err(IllFormed {
            place: pass.src_read,
        })
    }
}

/// A pass from Latin-1 to UTF-8: it stops where a character doesn't fit, and a first pass above
/// U+007F too.
pub fn latin1_to_utf8(src: &[u8], dst: &mut [u8], first_pass: bool) -> SizePair {
    let (from, to) = (src.as_ptr(), dst.as_mut_ptr());
    // SAFETY: nothing is required, and both slices are live for the call.
    pair(unsafe { raw::canon_latin1_to_utf8(from, src.len(), to, dst.len(), first_pass) })
}

/// Writes UTF-8 as Latin-1 into at least as many bytes, up to the first byte that begins no
/// character up to U+00FF.
pub fn utf8_to_latin1(src: &[u8], dst: &mut [u8]) -> SizePair {
    assert!(src.len() <= dst.len());
    // SAFETY: `dst` is long enough, and both slices are live for the call.
    pair(unsafe { raw::canon_utf8_to_latin1(src.as_ptr(), src.len(), dst.as_mut_ptr(), dst.len()) })
}

/// Writes UTF-16 as Latin-1 into at least as many bytes, up to the first unit above 255.
pub fn utf16_to_latin1(src: &[u16], dst: &mut [u8]) -> SizePair {
    assert!(src.len() <= dst.len());
    // SAFETY: `dst` is long enough, and both slices are live for the call.
    pair(unsafe {
        raw::canon_utf16_to_latin1(src.as_ptr(), src.len(), dst.as_mut_ptr(), dst.len())
    })
}

/// Writes UTF-16 into twice as many bytes, and where all is Latin-1 makes the first half of them
/// that. Answers the bytes of Latin-1, or the units with [`UTF16_TAG`]. A refusal has written the
/// units before its place.
pub fn utf16_to_compact_probably_utf16(src: &[u16], dst: &mut [u8]) -> Result<u64, IllFormed> {
    assert!((src.len() as u64) < UTF16_TAG && dst.len() == 2 * src.len());
    let (from, to) = (src.as_ptr(), dst.as_mut_ptr());
    // SAFETY: `dst` has twice as many bytes, there are fewer than 2^31 units, and both are live.
    number(unsafe { raw::canon_utf16_to_compact_probably_utf16(from, src.len(), to, dst.len()) })
}

/// Makes the first bytes of `dst` UTF-16 in place, and writes the source behind them. `dst` has
/// twice as many bytes as there are then units, or more, and an even number. Answers all units. A
/// refusal leaves the bytes behind the first part as they were.
pub fn utf8_to_compact_utf16(
    src: &[u8],
    dst: &mut [u8],
    latin1_bytes_so_far: u64,
) -> Result<u64, IllFormed> {
    assert!(has_room(src.len(), dst.len(), latin1_bytes_so_far));
    let (from, to) = (src.as_ptr(), dst.as_mut_ptr());
    // SAFETY: `dst` has an even number of bytes with room for all, and both slices are live.
    number(unsafe {
        raw::canon_utf8_to_compact_utf16(from, src.len(), to, dst.len(), latin1_bytes_so_far)
    })
}

/// Makes the first bytes of `dst` UTF-16 in place, and copies the source behind them. `dst` has
/// twice as many bytes as there are then units, or more, and an even number. Answers all units. A
/// refusal has copied the units before its place.
pub fn utf16_to_compact_utf16(
    src: &[u16],
    dst: &mut [u8],
    latin1_bytes_so_far: u64,
) -> Result<u64, IllFormed> {
    assert!(has_room(src.len(), dst.len(), latin1_bytes_so_far));
    let (from, to) = (src.as_ptr(), dst.as_mut_ptr());
    // SAFETY: `dst` has an even number of bytes with room for all, and both slices are live.
    number(unsafe {
        raw::canon_utf16_to_compact_utf16(from, src.len(), to, dst.len(), latin1_bytes_so_far)
    })
}

/// Makes units of the first bytes of `dst`, which are Latin-1, in place, and hands out the rest.
pub fn inflate_latin1_bytes(dst: &mut [u8], latin1_bytes_so_far: u64) -> &mut [u8] {
    assert!(latin1_bytes_so_far <= dst.len() as u64 / 2);
    // SAFETY: `dst` has twice as many bytes as there are units, and is live for the call.
    unsafe { raw::canon_inflate_latin1_bytes(dst.as_mut_ptr(), dst.len(), latin1_bytes_so_far) }
    &mut dst[2 * latin1_bytes_so_far as usize..]
}
