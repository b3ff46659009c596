//! The scoped-memory core from safe Rust.
//!
//! The functions below this crate are proved: `include/scopes.h` says what of them, and what their
//! caller owes. This crate keeps what the caller owes by its types. A [`Core`] is made by
//! [`Core::set_up`] or [`Core::set_up_in`] alone and is never copied, so its state is one that set-up
//! and calls left; it borrows the four buffers for as long as it lives, so nothing else writes them
//! between calls. It needs neither the standard library nor an allocator. [`sys`] is the raw layer.
//!
//! ```
//! use scopes::{map_words, Area, Core, Kind, Refusal, Thread};
//!
//! let (mut permanent, mut scratch) = ([0; 64], [0; 64]);
//! let (mut map, mut written) = ([0; map_words(64, 64)], [0; map_words(64, 64)]);
//! let mut core = Core::set_up(&mut permanent, &mut scratch, &mut map, &mut written, 32, 32)?;
//!
//! let (meter, sample) = (Thread::new(0), Area::new(2));
//! core.start(meter, Kind::RealTime)?;
//! core.make(meter, sample, 16)?;
//! core.enter(meter, sample)?;
//! let points = core.allocate(meter, 0, 3)?;
//! core.write(meter, points, 0, 41)?;
//! assert_eq!(core.view(meter, points)?, [41, 0, 0]);
//! assert_eq!(core.read(meter, points, 1), Err(Refusal::Unwritten)); // 0, but nobody wrote it
//! core.exit(meter)?; // the last thread leaves: the scope is emptied
//! assert!(core.view(meter, points).is_err());
//! core.remove(meter, sample)?; // its words are free for other scopes
//! # Ok::<(), Refusal>(())
//! ```
//!
//! # What does not compile
//!
//! Each pair differs in one line, and the second of it is an error. A core may move to another
//! thread, and threads may share it, but it has no copies:
//!
//! ```
//! fn need<T: Send + Sync>() {}
//! need::<scopes::Core>();
//! ```
//! ```compile_fail,E0277
//! fn need<T: Clone>() {}
//! need::<scopes::Core>();
//! ```
//!
//! Threads that share it only look:
//!
//! ```
//! fn shared(core: &scopes::Core, thread: scopes::Thread, object: scopes::Handle) {
//!     core.read(thread, object, 0).unwrap();
//! }
//! ```
//! ```compile_fail,E0596
//! fn shared(core: &scopes::Core, thread: scopes::Thread, object: scopes::Handle) {
//!     core.write(thread, object, 0, 1).unwrap();
//! }
//! ```
//!
//! Nobody makes one by hand:
//!
//! ```
//! fn made<'m>(core: scopes::Core<'m>) -> scopes::Core<'m> {
//!     core
//! }
//! ```
//! ```compile_fail,E0451
//! fn made<'m>(core: scopes::Core<'m>) -> scopes::Core<'m> {
//!     scopes::Core { ..core }
//! }
//! ```
//!
//! Nobody else writes its buffers:
//!
//! ```
//! use scopes::Core;
//! let (mut permanent, mut scratch, mut map, mut written) = ([0; 1], [0; 1], [0; 1], [0; 1]);
//! let core = Core::set_up(&mut permanent, &mut scratch, &mut map, &mut written, 1, 0).unwrap();
//! assert_eq!(core.permanent(), [0]);
//! assert_eq!(core.scratch(), [0]);
//! ```
//! ```compile_fail,E0506
//! use scopes::Core;
//! let (mut permanent, mut scratch, mut map, mut written) = ([0; 1], [0; 1], [0; 1], [0; 1]);
//! let core = Core::set_up(&mut permanent, &mut scratch, &mut map, &mut written, 1, 0).unwrap();
//! permanent[0] = 1;
//! assert_eq!(core.scratch(), [0]);
//! ```
//!
//! A view ends before the next change:
//!
//! ```
//! fn held(core: &mut scopes::Core, thread: scopes::Thread, object: scopes::Handle) -> u64 {
//!     let view = core.view(thread, object).unwrap();
//!     core.read(thread, object, 0).unwrap();
//!     view[0]
//! }
//! ```
//! ```compile_fail,E0502
//! fn held(core: &mut scopes::Core, thread: scopes::Thread, object: scopes::Handle) -> u64 {
//!     let view = core.view(thread, object).unwrap();
//!     core.exit(thread).unwrap();
//!     view[0]
//! }
//! ```

#![no_std]
#![deny(unsafe_code)]
#![warn(missing_docs)]

mod calls;
mod names;
#[allow(unsafe_code)]
mod record;
mod refusal;
mod stack;
pub mod sys;

pub use calls::map_words;
pub use names::{Area, Handle, Kind, Thread};
pub use record::Core;
pub use refusal::Refusal;
pub use stack::ScopeStack;
