//! The messages of the library (`docs/ENGINE.md`): what it writes and reads passes through the two functions at the end, since its `read` and
//! `write` have their names.

use crate::engine::{Engine, Fault, Host, Memory, Step};
use crate::types::{Import, Type};
use crate::value::{image, read_image};
use std::cell::RefCell;
use std::panic::{catch_unwind, AssertUnwindSafe};

const MAX_WORDS: usize = 17;
const DEMAND_NUMBERS: usize = 7;
const REPLY_BYTES: usize = 168;

/// The most bytes of a command, and of the results of a function of the host.
pub(crate) const MAX_BYTES: usize = 1 << 24;

/// What came of a command: the numbers of the answer, and its bytes.
#[derive(Debug)]
pub(crate) struct Answer {
    pub numbers: [u64; 8],
    pub bytes: Vec<u8>,
}

/// What the library is to do.
#[derive(Debug)]
pub(crate) struct Command {
    pub what: u64,
    pub operand: u64,
    pub second: u64,
    pub bytes: Vec<u8>,
}

/// What passes next.
enum Phase {
    Idle,
    /// A demand was told, and memory of so many bytes is lent next.
    Memory(usize),
    /// The reply made memory longer, and it is lent again.
    LongerMemory(Vec<u8>),
    /// So many bytes of parameters of an import are told next.
    Params(usize),
    /// So many bytes of an answer are told next.
    Results(usize),
    /// The next command is wanted.
    Answered,
}

/// A session of the library: both ends of what passes.
pub(crate) struct Session {
    engine: Box<dyn Engine>,
    host: Box<dyn Host>,
    imports: Vec<Import>,
    /// Takes the last answer, and gives the next command.
    next: Box<dyn FnMut(Option<Answer>) -> Option<Command>>,
    phase: Phase,
    demand: Vec<u64>,
    import: u64,
    answer: Option<Answer>,
    /// What is heard next, from a place on.
    ready: Vec<u8>,
    at: usize,
}

fn number_at(bytes: &[u8], place: usize) -> u64 {
    let mut number = [0; 8];
    number.copy_from_slice(&bytes[8 * place..8 * place + 8]);
    u64::from_le_bytes(number)
}

impl Session {
    pub(crate) fn new(
        engine: Box<dyn Engine>,
        host: Box<dyn Host>,
        imports: Vec<Import>,
        next: Box<dyn FnMut(Option<Answer>) -> Option<Command>>,
    ) -> Self {
        Session {
            engine,
            host,
            imports,
            next,
            phase: Phase::Answered,
            demand: Vec::new(),
            import: 0,
            answer: None,
            ready: Vec::new(),
            at: 0,
        }
    }

    fn says(&mut self, numbers: &[u64], bytes: &[u8]) {
        self.ready.clear();
        self.at = 0;
        self.ready
            .extend(numbers.iter().flat_map(|it| it.to_le_bytes()));
        self.ready.extend(bytes);
    }

    /// Takes what the library tells. False is a channel that failed.
    fn tell(&mut self, bytes: &[u8]) -> bool {
        match std::mem::replace(&mut self.phase, Phase::Idle) {
            // Memory may be told before it is heard.
            Phase::Memory(len) if bytes.len() == len => self.phase = Phase::Memory(len),
            Phase::LongerMemory(it) if bytes.len() == it.len() => {
                self.phase = Phase::LongerMemory(it)
            }
            Phase::Params(len) => return bytes.len() == len && self.serve(bytes),
            Phase::Results(len) => return bytes.len() == len && self.take_results(bytes),
            _ => return self.take_head(bytes),
        }
        true
    }

    fn take_results(&mut self, bytes: &[u8]) -> bool {
        if let Some(answer) = &mut self.answer {
            answer.bytes = bytes.to_vec();
        }
        self.phase = Phase::Answered;
        true
    }

    /// Takes the head of a message.
    fn take_head(&mut self, bytes: &[u8]) -> bool {
        if bytes.len() < 24 || !bytes.len().is_multiple_of(8) {
            return false;
        }
        match number_at(bytes, 0) {
            0..=5 if bytes.len() >= 8 * DEMAND_NUMBERS => {
                self.demand.clear();
                self.demand
                    .extend((0..bytes.len() / 8).map(|i| number_at(bytes, i)));
                self.phase = Phase::Memory(self.demand[5] as usize);
                self.demand[6] == (self.demand.len() - DEMAND_NUMBERS) as u64
            }
            6 if bytes.len() == 24 => {
                self.import = number_at(bytes, 1);
                match number_at(bytes, 2) as usize {
                    0 => return self.serve(&[]),
                    len => self.phase = Phase::Params(len),
                }
                true
            }
            7 if bytes.len() == 64 => {
                let numbers = std::array::from_fn(|i| number_at(bytes, i));
                self.answer = Some(Answer {
                    numbers,
                    bytes: Vec::new(),
                });
                self.phase = match numbers[7] as usize {
                    0 => Phase::Answered,
                    len => Phase::Results(len),
                };
                true
            }
            _ => false,
        }
    }

    /// Has the host serve the import that is asked for.
    fn serve(&mut self, params: &[u8]) -> bool {
        match self.served(params) {
            Some(results) => self.says(&[0, results.len() as u64], &results),
            None => self.says(&[1, 0], &[]),
        }
        true
    }

    fn served(&mut self, params: &[u8]) -> Option<Vec<u8>> {
        let Import::Function(func) = self.imports.get(usize::try_from(self.import).ok()?)? else {
            return None;
        };
        let params = read_image(&func.params, params).ok()?;
        let results: &[Type] = &func.results;
        let (host, import) = (&mut self.host, self.import as u32);
        let values = catch_unwind(AssertUnwindSafe(|| host.call(import, params)))
            .ok()?
            .ok()?;
        image(results, &values)
            .ok()
            .filter(|it| it.len() <= MAX_BYTES)
    }

    /// Carries out the demand in memory, and has the reply heard next.
    fn step(&mut self, lent: &mut [u8]) {
        let mut memory = Memory::new(lent);
        let before = memory.as_slice().len();
        let (engine, demand) = (&mut self.engine, &self.demand);
        let ended = catch_unwind(AssertUnwindSafe(|| {
            demanded(engine.as_mut(), &mut memory, demand)
        }));
        let (kind, number, words) = match ended.unwrap_or(Err(Fault::Trap)) {
            Ok(Ended::Returned(words)) if words.len() <= MAX_WORDS => (0, 0, words),
            Ok(Ended::Asked(index, words)) if words.len() <= MAX_WORDS => {
                (1, u64::from(index), words)
            }
            Ok(Ended::Gave(at)) => (0, at, Vec::new()),
            Ok(_) | Err(Fault::Trap) => (2, 0, Vec::new()),
            Err(Fault::OutOfMemory) => (3, 0, Vec::new()),
        };
        let longer = memory.into_longer();
        let grown = longer.as_ref().map_or(0, |it| it.len() - before);
        self.says(&[kind, number, grown as u64, words.len() as u64], &[]);
        self.ready
            .extend(words.iter().flat_map(|it| it.to_le_bytes()));
        self.ready.resize(REPLY_BYTES, 0);
        self.phase = match longer {
            Some(longer) if grown > 0 => Phase::LongerMemory(longer),
            _ => Phase::Idle,
        };
    }

    fn next_command(&mut self) {
        let command = (self.next)(self.answer.take());
        let Command {
            what,
            operand,
            second,
            bytes,
        } = command.unwrap_or(Command {
            what: 0,
            operand: 0,
            second: 0,
            bytes: Vec::new(),
        });
        self.says(&[what, operand, second, bytes.len() as u64], &bytes);
    }

    /// Gives the library what it hears, and answers how many bytes that was.
    fn hear(&mut self, into: &mut [u8]) -> Option<usize> {
        match std::mem::replace(&mut self.phase, Phase::Idle) {
            Phase::Memory(0) => self.step(&mut []),
            Phase::Memory(len) if into.len() == len => {
                self.step(into);
                return Some(into.len());
            }
            Phase::LongerMemory(longer)
                if self.at == self.ready.len() && longer.len() == into.len() =>
            {
                into.copy_from_slice(&longer);
                return Some(into.len());
            }
            Phase::LongerMemory(longer) if self.at < self.ready.len() => {
                self.phase = Phase::LongerMemory(longer)
            }
            Phase::Answered => self.next_command(),
            Phase::Idle => {}
            _ => return None,
        }
        let len = into.len().min(self.ready.len() - self.at);
        into[..len].copy_from_slice(&self.ready[self.at..self.at + len]);
        self.at += len;
        Some(len)
    }
}

/// How the engine ended.
enum Ended {
    Returned(Vec<u64>),
    Asked(u32, Vec<u64>),
    /// It gave a block.
    Gave(u64),
}

fn demanded(
    engine: &mut dyn Engine,
    memory: &mut Memory<'_>,
    demand: &[u64],
) -> Result<Ended, Fault> {
    let (words, func) = (&demand[DEMAND_NUMBERS..], demand[1] as u32);
    let step = match demand[0] {
        0 => engine.start(memory, func, words)?,
        1 => engine.resume(memory, words)?,
        2 => {
            return engine
                .realloc(memory, demand[1], demand[2], demand[3] as u32, demand[4])
                .map(Ended::Gave)
        }
        3 => {
            return engine
                .post_return(memory, func, words)
                .map(|()| Ended::Returned(Vec::new()))
        }
        4 => {
            return engine
                .dtor(memory, func, demand[2] as u32)
                .map(|()| Ended::Returned(Vec::new()))
        }
        _ => {
            return engine
                .instantiate(memory)
                .map(|()| Ended::Returned(Vec::new()))
        }
    };
    Ok(match step {
        Step::Return(words) => Ended::Returned(words),
        Step::Import { index, words } => Ended::Asked(index, words),
    })
}

thread_local! {
    /// The sessions of this thread, by their channels. One that is in use is taken out, so that what it calls may begin others.
    static SESSIONS: RefCell<Vec<Option<Session>>> = const { RefCell::new(Vec::new()) };
}

/// Does something with the session of a channel.
fn with_session<R>(channel: i32, then: impl FnOnce(&mut Session) -> Option<R>) -> Option<R> {
    let place = usize::try_from(channel).ok()?;
    let mut session = SESSIONS.with_borrow_mut(|all| all.get_mut(place)?.take())?;
    let result = then(&mut session);
    SESSIONS.with_borrow_mut(|all| all[place] = Some(session));
    result
}

/// Runs a session on this thread until it ends.
pub(crate) fn run(session: Session) {
    let channel = SESSIONS.with_borrow_mut(|all| {
        all.push(Some(session));
        all.len() as i32 - 1
    });
    // SAFETY: the library calls nothing but the two functions below and the C library. Its contract asks for no more than that these two keep those of
    // `read` and `write`. A panic of the engine or the host is caught there, and any other one ends the program, so none unwinds through the library.
    unsafe { canon_serve(channel) };
    // Where the library ended by itself, its last answer is still to be taken.
    if let Some(mut session) = SESSIONS.with_borrow_mut(|all| all.pop()).flatten() {
        if let Some(answer) = session.answer.take() {
            (session.next)(Some(answer));
        }
    }
}

unsafe extern "C" {
    fn canon_serve(channel: i32) -> u32;
}

/// The library's `write`.
///
/// # Safety
///
/// As of `write`: `from` points to `len` bytes that may be read during the call.
#[unsafe(no_mangle)]
unsafe extern "C" fn canon_channel_write(channel: i32, from: *const u8, len: usize) -> isize {
    if len == 0 {
        return 0;
    }
    // SAFETY: the caller lends `len` bytes, at least one of them, for the call.
    let bytes = unsafe { std::slice::from_raw_parts(from, len) };
    match with_session(channel, |session| session.tell(bytes).then_some(())) {
        Some(()) => len as isize,
        None => -1,
    }
}

/// The library's `read`.
///
/// # Safety
///
/// As of `read`: `to` points to `len` bytes that hold values and may be read and written during the call.
#[unsafe(no_mangle)]
unsafe extern "C" fn canon_channel_read(channel: i32, to: *mut u8, len: usize) -> isize {
    if len == 0 {
        return 0;
    }
    // SAFETY: the caller lends `len` bytes, at least one of them, for the call, and nobody else has them meanwhile.
    let bytes = unsafe { std::slice::from_raw_parts_mut(to, len) };
    with_session(channel, |session| session.hear(bytes)).map_or(-1, |heard| heard as isize)
}
