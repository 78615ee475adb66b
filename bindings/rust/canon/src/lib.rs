//! Calls what a WebAssembly component exports, by the proved host side of the Canonical ABI, over an engine of your own (`trait Engine`).
//! `docs/ENGINE.md` says what is proved of it.
//!
//! A [`Store`] runs the library, the engine and the host's functions on a thread of its own. [`session`] runs them on the caller's, which is faster, and
//! asks a closure for what comes next.

mod channel;
mod component;
mod engine;
mod error;
mod event;
mod store;
mod types;
mod value;

pub use component::Component;
pub use engine::{Engine, Fault, Host, Memory, NoHost, Refused, Step};
pub use error::{Error, ErrorKind, Place, Refusal};
pub use event::{Event, Request};
pub use store::{session, Do, Done, Mark, Store};
pub use types::{Function, Import, ResourceType, Type};
pub use value::{image, read_image, ImageError, Resource, Value};
