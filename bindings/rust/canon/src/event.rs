//! What a guest was asked and did, as the library tells it (`docs/ENGINE.md`).

use crate::error::Error;

/// A request for a block: the old address, the old size, the alignment and the new size.
#[derive(Clone, Copy, Debug, PartialEq, Eq)]
pub struct Request {
    pub old: u64,
    pub old_size: u64,
    pub align: u32,
    pub new_size: u64,
}

/// What a guest was asked or did. A memory is all of it at that moment: at a start and a resume before the guest goes on, at an ask and a return as
/// it left it.
#[derive(Clone, Debug, PartialEq, Eq)]
pub enum Event {
    /// The core function of this number was started with these words.
    Start {
        func: u32,
        words: Vec<u64>,
        memory: Vec<u8>,
    },
    /// It went on with these words, the answer of its last ask.
    Resume { words: Vec<u64>, memory: Vec<u8> },
    /// It was asked for a block, and answered its address.
    Realloc { request: Request, answer: u64 },
    /// Its post-return function of this number ran on these words.
    PostReturn { func: u32, words: Vec<u64> },
    /// Its destructor of this number ran on this representation.
    Dtor { func: u32, rep: u32 },
    /// It returned these words.
    Return { words: Vec<u64>, memory: Vec<u8> },
    /// It asked for the import of this number with these words.
    Ask {
        import: u32,
        words: Vec<u64>,
        memory: Vec<u8>,
    },
    /// It trapped, in this request for a block or in another call, at whose begin memory had so many bytes.
    Trap { asked: Option<Request>, len: u64 },
}

/// Takes so many bytes from the front.
fn take<'a>(bytes: &mut &'a [u8], len: u64) -> Option<&'a [u8]> {
    let (first, rest) = bytes.split_at_checked(usize::try_from(len).ok()?)?;
    *bytes = rest;
    Some(first)
}

fn number(bytes: &mut &[u8]) -> Option<u64> {
    Some(u64::from_le_bytes(take(bytes, 8)?.try_into().ok()?))
}

fn narrow(number: u64) -> Option<u32> {
    u32::try_from(number).ok()
}

fn event(bytes: &mut &[u8]) -> Option<Event> {
    let kind = number(bytes)?;
    let mut operands = [0; 5];
    for operand in &mut operands {
        *operand = number(bytes)?;
    }
    let (count, len) = (number(bytes)?, number(bytes)?);
    let mut row = take(bytes, count.checked_mul(8)?)?;
    let words = (0..count)
        .map(|_| number(&mut row))
        .collect::<Option<Vec<u64>>>()?;
    let memory = take(bytes, len)?.to_vec();
    let [first, second, third, fourth, last] = operands;
    let request = || {
        Some(Request {
            old: first,
            old_size: second,
            align: narrow(third)?,
            new_size: fourth,
        })
    };
    Some(match kind {
        0 => Event::Start {
            func: narrow(first)?,
            words,
            memory,
        },
        1 => Event::Resume { words, memory },
        2 => Event::Realloc {
            request: request()?,
            answer: last,
        },
        3 => Event::PostReturn {
            func: narrow(first)?,
            words,
        },
        4 => Event::Dtor {
            func: narrow(first)?,
            rep: narrow(second)?,
        },
        6 => Event::Return { words, memory },
        7 => Event::Ask {
            import: narrow(first)?,
            words,
            memory,
        },
        8 => Event::Trap {
            asked: None,
            len: last,
        },
        9 => Event::Trap {
            asked: Some(request()?),
            len: last,
        },
        _ => return None,
    })
}

/// The events that these bytes tell.
pub(crate) fn events_of(mut bytes: &[u8]) -> Result<Vec<Event>, Error> {
    let mut events = Vec::new();
    while !bytes.is_empty() {
        events.push(event(&mut bytes).ok_or(Error::Over)?);
    }
    Ok(events)
}

#[cfg(test)]
mod tests {
    use super::*;

    fn spelled(numbers: &[u64]) -> Vec<u8> {
        numbers.iter().flat_map(|it| it.to_le_bytes()).collect()
    }

    #[test]
    fn reads_what_is_told() {
        // The forms are those of docs/ENGINE.md, "Events".
        let mut bytes = spelled(&[0, 3, 0, 0, 0, 0, 2, 1, 5, 6]);
        bytes.push(9);
        bytes.extend(spelled(&[9, 1, 2, 4, 8, 16, 0, 0]));
        let request = Request {
            old: 1,
            old_size: 2,
            align: 4,
            new_size: 8,
        };
        let start = Event::Start {
            func: 3,
            words: vec![5, 6],
            memory: vec![9],
        };
        let trap = Event::Trap {
            asked: Some(request),
            len: 16,
        };
        assert_eq!(events_of(&bytes), Ok(vec![start, trap]));
        assert_eq!(events_of(&bytes[1..]), Err(Error::Over));
        assert_eq!(events_of(&[]), Ok(vec![]));
    }
}
