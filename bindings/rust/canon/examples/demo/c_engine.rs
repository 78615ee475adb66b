//! An engine in C (`bindings/engine/native.c`, against `bindings/canon.h`) as one of this crate.

use canon::{Engine, Fault, Memory, Step};
use std::ffi::{c_int, c_void};

#[repr(C)]
struct CMemory {
    bytes: *mut u8,
    len: usize,
}

#[repr(C)]
struct CStep {
    end: c_int,
    import: u32,
    count: u32,
    words: [u64; 17],
}

#[repr(C)]
struct CFunctions {
    instantiate: unsafe extern "C" fn(*mut c_void, *mut CMemory) -> bool,
    start: unsafe extern "C" fn(*mut c_void, *mut CMemory, u32, *const u64, usize) -> CStep,
    resume: unsafe extern "C" fn(*mut c_void, *mut CMemory, *const u64, usize) -> CStep,
    realloc: unsafe extern "C" fn(*mut c_void, *mut CMemory, u64, u64, u32, u64) -> CStep,
    post_return: unsafe extern "C" fn(*mut c_void, *mut CMemory, u32, *const u64, usize) -> CStep,
    dtor: unsafe extern "C" fn(*mut c_void, *mut CMemory, u32, u32) -> CStep,
}

unsafe extern "C" {
    static demo_engine: *const CFunctions;
    fn demo_engine_new() -> *mut c_void;
    fn demo_engine_free(data: *mut c_void);
}

/// Memory that is lent to C. It is `public` that C sees, whose pointer `canon_grow` gets back.
#[repr(C)]
struct Lent<'a, 'm> {
    public: CMemory,
    memory: &'a mut Memory<'m>,
}

/// Makes the memory of a step longer.
///
/// # Safety
///
/// `memory` is the pointer that the step was given, and the step isn't over.
#[unsafe(no_mangle)]
unsafe extern "C" fn canon_grow(memory: *mut CMemory, by: usize) -> bool {
    // SAFETY: it points to the `public` of a `Lent`, its first field, which nobody else uses while the step runs.
    let lent = unsafe { &mut *memory.cast::<Lent<'_, '_>>() };
    if lent.memory.grow(by).is_err() {
        return false;
    }
    lent.public = public_of(lent.memory);
    true
}

fn public_of(memory: &mut Memory<'_>) -> CMemory {
    let bytes = memory.as_slice_mut();
    CMemory {
        bytes: bytes.as_mut_ptr(),
        len: bytes.len(),
    }
}

/// An instance of the module.
pub struct CEngine {
    data: *mut c_void,
}

// SAFETY: the data is used by whoever has the engine, and nothing of it belongs to a thread. The program runs one store at a time, as native.c asks.
unsafe impl Send for CEngine {}

impl CEngine {
    pub fn new() -> Option<CEngine> {
        // SAFETY: the function asks for nothing.
        let data = unsafe { demo_engine_new() };
        (!data.is_null()).then_some(CEngine { data })
    }

    /// Has C do something in this memory.
    fn step<R>(
        &self,
        memory: &mut Memory<'_>,
        call: impl FnOnce(&CFunctions, *mut c_void, *mut CMemory) -> R,
    ) -> R {
        let mut lent = Lent {
            public: public_of(memory),
            memory,
        };
        // SAFETY: the table is a constant of native.c.
        let functions = unsafe { &*demo_engine };
        call(functions, self.data, (&raw mut lent).cast())
    }
}

impl Drop for CEngine {
    fn drop(&mut self) {
        // SAFETY: the data came from `demo_engine_new`, and is freed once.
        unsafe { demo_engine_free(self.data) }
    }
}

fn step_of(it: CStep) -> Result<Step, Fault> {
    let words = it
        .words
        .get(..it.count as usize)
        .ok_or(Fault::Trap)?
        .to_vec();
    match it.end {
        0 => Ok(Step::Return(words)),
        1 => Ok(Step::Import {
            index: it.import,
            words,
        }),
        3 => Err(Fault::OutOfMemory),
        _ => Err(Fault::Trap),
    }
}

/// What each call below rests on: the memory is that of `step`, which outlives the call, and the words are as many as their length says.
impl Engine for CEngine {
    fn instantiate(&mut self, memory: &mut Memory<'_>) -> Result<(), Fault> {
        // SAFETY: as said above of each call.
        match self.step(memory, |c, data, memory| unsafe {
            (c.instantiate)(data, memory)
        }) {
            true => Ok(()),
            false => Err(Fault::Trap),
        }
    }

    fn start(&mut self, memory: &mut Memory<'_>, func: u32, words: &[u64]) -> Result<Step, Fault> {
        // SAFETY: as said above of each call.
        step_of(self.step(memory, |c, data, memory| unsafe {
            (c.start)(data, memory, func, words.as_ptr(), words.len())
        }))
    }

    fn resume(&mut self, memory: &mut Memory<'_>, words: &[u64]) -> Result<Step, Fault> {
        // SAFETY: as said above of each call.
        step_of(self.step(memory, |c, data, memory| unsafe {
            (c.resume)(data, memory, words.as_ptr(), words.len())
        }))
    }

    fn realloc(
        &mut self,
        memory: &mut Memory<'_>,
        old: u64,
        old_size: u64,
        align: u32,
        new_size: u64,
    ) -> Result<u64, Fault> {
        // SAFETY: as said above of each call.
        let step = self.step(memory, |c, data, memory| unsafe {
            (c.realloc)(data, memory, old, old_size, align, new_size)
        });
        match step_of(step)? {
            Step::Return(words) if words.len() == 1 => Ok(words[0]),
            _ => Err(Fault::Trap),
        }
    }

    fn post_return(
        &mut self,
        memory: &mut Memory<'_>,
        func: u32,
        words: &[u64],
    ) -> Result<(), Fault> {
        // SAFETY: as said above of each call.
        let step = self.step(memory, |c, data, memory| unsafe {
            (c.post_return)(data, memory, func, words.as_ptr(), words.len())
        });
        step_of(step).map(drop)
    }

    fn dtor(&mut self, memory: &mut Memory<'_>, func: u32, rep: u32) -> Result<(), Fault> {
        // SAFETY: as said above of each call.
        step_of(self.step(memory, |c, data, memory| unsafe {
            (c.dtor)(data, memory, func, rep)
        }))
        .map(drop)
    }
}
