//! What an embedder supplies: an engine that runs core code, and the functions of the host.

use crate::value::Value;

/// How a step of core code ended, where it didn't fail.
#[derive(Clone, Debug, PartialEq, Eq)]
pub enum Step {
    /// It returned these words.
    Return(Vec<u64>),
    /// It asks for the import of this number with these words. `Engine::resume` goes on with the answer.
    Import { index: u32, words: Vec<u64> },
}

/// Why a step failed.
#[derive(Clone, Copy, Debug, PartialEq, Eq)]
pub enum Fault {
    Trap,
    OutOfMemory,
}

/// The component's memory, which the library lends for one step.
pub struct Memory<'a> {
    lent: &'a mut [u8],
    /// What the step goes on in once memory is longer.
    longer: Option<Vec<u8>>,
}

/// The most bytes that memory may have.
const MOST: usize = 1 << 32;

impl<'a> Memory<'a> {
    pub(crate) fn new(lent: &'a mut [u8]) -> Self {
        Memory { lent, longer: None }
    }

    pub(crate) fn into_longer(self) -> Option<Vec<u8>> {
        self.longer
    }

    pub fn as_slice(&self) -> &[u8] {
        self.longer.as_deref().unwrap_or(self.lent)
    }

    pub fn as_slice_mut(&mut self) -> &mut [u8] {
        self.longer.as_deref_mut().unwrap_or(self.lent)
    }

    /// Makes memory longer by so many zeros, for core code that grows it.
    pub fn grow(&mut self, by: usize) -> Result<(), Fault> {
        let len = self.as_slice().len();
        if by > MOST || len + by > MOST {
            return Err(Fault::Trap);
        }
        let longer = self.longer.get_or_insert_with(|| self.lent.to_vec());
        longer.try_reserve(by).map_err(|_| Fault::OutOfMemory)?;
        longer.resize(len + by, 0);
        Ok(())
    }
}

/// An engine that runs core code in memory that it is lent. Nothing that it answers is trusted. A panic is a trap. It has to return.
pub trait Engine {
    /// Puts the module's data into memory, and starts its instance.
    fn instantiate(&mut self, memory: &mut Memory<'_>) -> Result<(), Fault>;

    /// Runs a core function until it returns or asks for an import.
    fn start(&mut self, memory: &mut Memory<'_>, func: u32, words: &[u64]) -> Result<Step, Fault>;

    /// Goes on after an ask, with the words of the answer.
    fn resume(&mut self, memory: &mut Memory<'_>, words: &[u64]) -> Result<Step, Fault>;

    /// Gives a block, and answers its address.
    fn realloc(
        &mut self,
        memory: &mut Memory<'_>,
        old: u64,
        old_size: u64,
        align: u32,
        new_size: u64,
    ) -> Result<u64, Fault>;

    /// Runs the post-return function of this export, with the words that it returned.
    fn post_return(
        &mut self,
        _memory: &mut Memory<'_>,
        _func: u32,
        _words: &[u64],
    ) -> Result<(), Fault> {
        Ok(())
    }

    /// Runs the destructor of this number.
    fn dtor(&mut self, _memory: &mut Memory<'_>, _func: u32, _rep: u32) -> Result<(), Fault> {
        Ok(())
    }
}

/// A function of the host refuses, and so the call is refused.
#[derive(Clone, Copy, Debug, PartialEq, Eq)]
pub struct Refused;

/// The functions of the host that a component imports. A closure is one.
pub trait Host {
    /// Serves an ask of the import of this number.
    fn call(&mut self, import: u32, params: Vec<Value>) -> Result<Vec<Value>, Refused>;
}

impl<F: FnMut(u32, Vec<Value>) -> Result<Vec<Value>, Refused>> Host for F {
    fn call(&mut self, import: u32, params: Vec<Value>) -> Result<Vec<Value>, Refused> {
        self(import, params)
    }
}

/// A host without functions.
#[derive(Clone, Copy, Debug, Default)]
pub struct NoHost;

impl Host for NoHost {
    fn call(&mut self, _import: u32, _params: Vec<Value>) -> Result<Vec<Value>, Refused> {
        Err(Refused)
    }
}
