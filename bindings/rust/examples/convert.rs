//! A text in UTF-8 goes to UTF-16 and back in passes; a lone surrogate is refused at its place.

use canon_text::{utf16_to_utf16, utf16_to_utf8, utf8_to_utf16, IllFormed};

fn main() -> Result<(), IllFormed> {
    let text = "naïve 中";
    let mut units = vec![0; text.len()];
    let count = utf8_to_utf16(text.as_bytes(), &mut units)? as usize;
    println!("utf16 units {count}");

    let mut bytes = vec![0; text.len()];
    let first = utf16_to_utf8(&units[..count], &mut bytes, true)?;
    println!(
        "first pass read {} wrote {}",
        first.src_read, first.dst_written
    );
    let (read, written) = (first.src_read as usize, first.dst_written as usize);
    let rest = utf16_to_utf8(&units[read..count], &mut bytes[written..], false)?;
    println!(
        "second pass read {} wrote {}",
        rest.src_read, rest.dst_written
    );
    assert_eq!(bytes, text.as_bytes());

    match utf16_to_utf16(&[0x61, 0xD800], &mut [0; 2]) {
        Ok(()) => println!("ok"),
        Err(fault) => println!("ill-formed at {}", fault.place),
    }
    Ok(())
}
