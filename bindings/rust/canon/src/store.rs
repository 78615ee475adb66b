//! Stores, and sessions that run on the caller's thread.

use crate::channel::{run, Answer, Command, Session, MAX_BYTES};
use crate::component::Component;
use crate::engine::{Engine, Host};
use crate::error::{Error, Refusal};
use crate::event::{events_of, Event};
use crate::types::Function;
use crate::value::{image, read_image, Resource, Value};
use std::sync::mpsc::{channel, Receiver, Sender};
use std::thread::{Builder, JoinHandle};

/// How many bytes the stack of a store's thread has.
const STACK: usize = 8 << 20;

const BEGIN: u64 = 1;
const CALL: u64 = 2;
const LIVE: u64 = 3;
const MARKS: u64 = 4;
const DROP: u64 = 5;
const NEW: u64 = 6;
const EVENTS: u64 = 7;

/// What the library found of an answer of `realloc`.
#[derive(Clone, Copy, Debug, PartialEq, Eq)]
pub struct Mark {
    /// It kept the law of `realloc`.
    pub lawful: bool,
    /// It changed nothing outside its block. Only a store that is watched knows.
    pub tidy: bool,
}

/// A store whose library, engine and host run on a thread of their own.
pub struct Store {
    component: Component,
    commands: Option<Sender<Command>>,
    answers: Receiver<Option<Answer>>,
    thread: Option<JoinHandle<()>>,
}

/// The bytes of an answer that was done, or why it wasn't.
fn bytes_of(answer: Option<Answer>) -> Result<Vec<u8>, Error> {
    let Answer {
        numbers: [_, status, error, import, kind, place, more, _],
        bytes,
    } = answer.ok_or(Error::Over)?;
    match status {
        0 => Ok(bytes),
        1 => Err(Refusal::of(error, import, kind, place, more).map_or(Error::Over, Error::Refused)),
        _ => Err(match error {
            2 => Error::NoExport,
            3 => Error::NoImage(place),
            4 => Error::NoResource,
            5 => Error::NoComponent,
            8 => Error::NoEvents,
            _ => Error::NoCommand,
        }),
    }
}

fn begin(component: &Component) -> Command {
    Command {
        what: BEGIN,
        operand: u64::from(component.watched),
        second: u64::from(component.keeps_events),
        bytes: component.json().into_bytes(),
    }
}

fn asks(what: u64, operand: u32, bytes: Vec<u8>) -> Command {
    Command {
        what,
        operand: u64::from(operand),
        second: 0,
        bytes,
    }
}

fn makes(ty: u32, rep: u32) -> Command {
    Command {
        second: u64::from(rep),
        ..asks(NEW, ty, Vec::new())
    }
}

/// A command that isn't too long.
fn checked(command: Command) -> Result<Command, Error> {
    if command.bytes.len() > MAX_BYTES {
        return Err(Error::TooLong);
    }
    Ok(command)
}

fn marks_of(bytes: &[u8]) -> Vec<Mark> {
    bytes
        .iter()
        .map(|it| Mark {
            lawful: it & 1 == 1,
            tidy: it & 2 == 2,
        })
        .collect()
}

fn number_of(bytes: &[u8]) -> Result<u64, Error> {
    bytes
        .try_into()
        .map(u64::from_le_bytes)
        .map_err(|_| Error::Over)
}

fn resource_of(bytes: &[u8]) -> Result<Resource, Error> {
    let number = u32::try_from(number_of(bytes)?).map_err(|_| Error::Over)?;
    Ok(Resource(number))
}

fn export(component: &Component, export: u32) -> Result<&Function, Error> {
    component
        .exports
        .get(export as usize)
        .ok_or(Error::NoExport)
}

impl Store {
    /// A store of this component, whose code runs in the engine.
    pub fn new<E, H>(component: Component, engine: E, host: H) -> Result<Store, Error>
    where
        E: Engine + Send + 'static,
        H: Host + Send + 'static,
    {
        let begin = checked(begin(&component))?;
        let (commands, given) = channel::<Command>();
        let (told, answers) = channel();
        let imports = component.imports.clone();
        let mut first = Some(begin);
        let serve = move || {
            let last = told.clone();
            let next = move |answer: Option<Answer>| {
                if let Some(first) = first.take() {
                    return Some(first);
                }
                told.send(answer).ok()?;
                given.recv().ok()
            };
            run(Session::new(
                Box::new(engine),
                Box::new(host),
                imports,
                Box::new(next),
            ));
            // The library ended, with or without an answer.
            let _ = last.send(None);
        };
        let thread = Builder::new()
            .stack_size(STACK)
            .spawn(serve)
            .map_err(|_| Error::Over)?;
        let store = Store {
            component,
            commands: Some(commands),
            answers,
            thread: Some(thread),
        };
        bytes_of(store.answers.recv().map_err(|_| Error::Over)?)?;
        Ok(store)
    }

    fn carry_out(&mut self, command: Command) -> Result<Vec<u8>, Error> {
        let commands = self.commands.as_ref().ok_or(Error::Over)?;
        commands.send(checked(command)?).map_err(|_| Error::Over)?;
        bytes_of(self.answers.recv().map_err(|_| Error::Over)?)
    }

    /// Calls an export.
    pub fn call(&mut self, number: u32, params: &[Value]) -> Result<Vec<Value>, Error> {
        let bytes = image(&export(&self.component, number)?.params, params)?;
        let bytes = self.call_image(number, bytes)?;
        Ok(read_image(
            &export(&self.component, number)?.results,
            &bytes,
        )?)
    }

    /// Calls an export with the image of its parameters, and gives that of its results.
    pub fn call_image(&mut self, number: u32, params: Vec<u8>) -> Result<Vec<u8>, Error> {
        self.carry_out(asks(CALL, number, params))
    }

    /// How many handles live.
    pub fn live_handles(&mut self) -> Result<u64, Error> {
        number_of(&self.carry_out(asks(LIVE, 0, Vec::new()))?)
    }

    /// A mark for each answer of `realloc` since this was asked last.
    pub fn marks(&mut self) -> Result<Vec<Mark>, Error> {
        Ok(marks_of(&self.carry_out(asks(MARKS, 0, Vec::new()))?))
    }

    /// The events since this was asked last, where the component has them kept.
    pub fn events(&mut self) -> Result<Vec<Event>, Error> {
        events_of(&self.carry_out(asks(EVENTS, 0, Vec::new()))?)
    }

    /// Makes a resource of the host, of the type of this number and with this representation.
    pub fn new_resource(&mut self, ty: u32, rep: u32) -> Result<Resource, Error> {
        resource_of(&self.carry_out(makes(ty, rep))?)
    }

    /// Drops a resource. Its destructor runs.
    pub fn drop_resource(&mut self, resource: Resource) -> Result<(), Error> {
        self.carry_out(asks(DROP, resource.0, Vec::new()))?;
        Ok(())
    }
}

impl Drop for Store {
    fn drop(&mut self) {
        self.commands = None;
        if let Some(thread) = self.thread.take() {
            let _ = thread.join();
        }
    }
}

/// What a session is asked for next.
#[derive(Clone, Debug, PartialEq)]
pub enum Do {
    /// A call of an export.
    Call(u32, Vec<Value>),
    /// A call by images.
    CallImage(u32, Vec<u8>),
    LiveHandles,
    Marks,
    /// A resource of the host, of the type of this number and with this representation.
    NewResource(u32, u32),
    DropResource(Resource),
    Events,
}

/// What came of it.
#[derive(Clone, Debug, PartialEq)]
pub enum Done {
    /// The session began.
    Begun,
    Called(Vec<Value>),
    CalledImage(Vec<u8>),
    LiveHandles(u64),
    Marks(Vec<Mark>),
    MadeResource(Resource),
    DroppedResource,
    Events(Vec<Event>),
}

/// The command for what is asked for, or why there is none.
fn command_of(component: &Component, asked: &Do) -> Result<Command, Error> {
    checked(match asked {
        Do::Call(number, params) => {
            let params = image(&export(component, *number)?.params, params)?;
            asks(CALL, *number, params)
        }
        Do::CallImage(number, params) => asks(CALL, *number, params.clone()),
        Do::LiveHandles => asks(LIVE, 0, Vec::new()),
        Do::Marks => asks(MARKS, 0, Vec::new()),
        Do::NewResource(ty, rep) => makes(*ty, *rep),
        Do::DropResource(resource) => asks(DROP, resource.0, Vec::new()),
        Do::Events => asks(EVENTS, 0, Vec::new()),
    })
}

fn done_of(component: &Component, asked: Option<&Do>, bytes: Vec<u8>) -> Result<Done, Error> {
    Ok(match asked {
        None => Done::Begun,
        Some(Do::Call(number, _)) => {
            Done::Called(read_image(&export(component, *number)?.results, &bytes)?)
        }
        Some(Do::CallImage(..)) => Done::CalledImage(bytes),
        Some(Do::LiveHandles) => Done::LiveHandles(number_of(&bytes)?),
        Some(Do::Marks) => Done::Marks(marks_of(&bytes)),
        Some(Do::NewResource(..)) => Done::MadeResource(resource_of(&bytes)?),
        Some(Do::DropResource(_)) => Done::DroppedResource,
        Some(Do::Events) => Done::Events(events_of(&bytes)?),
    })
}

/// Runs a store on this thread: `next` takes what came of the last thing that was asked for, and gives the next one, or none to end.
pub fn session<E, H, N>(component: Component, engine: E, host: H, mut next: N)
where
    E: Engine + 'static,
    H: Host + 'static,
    N: FnMut(Result<Done, Error>) -> Option<Do> + 'static,
{
    let imports = component.imports.clone();
    let mut first = match checked(begin(&component)) {
        Ok(begin) => Some(begin),
        Err(why) => return drop(next(Err(why))),
    };
    let mut asked = None;
    let next = move |answer: Option<Answer>| {
        if let Some(first) = first.take() {
            return Some(first);
        }
        let mut last =
            bytes_of(answer).and_then(|bytes| done_of(&component, asked.as_ref(), bytes));
        loop {
            let it = next(last)?;
            match command_of(&component, &it) {
                Ok(command) => {
                    asked = Some(it);
                    return Some(command);
                }
                Err(why) => last = Err(why),
            }
        }
    };
    run(Session::new(
        Box::new(engine),
        Box::new(host),
        imports,
        Box::new(next),
    ));
}
