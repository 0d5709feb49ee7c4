//! Scripts in the host's process: compiled, verified, and run by the library's proved machine.
//!
//! An [`Engine`] has functions of the host and bounds, a [`Script`] is an accepted program, and a [`State`] has the variables of
//! a script and its runs.
//!
//! ```
//! use grain::engine::Engine;
//!
//! let mut engine = Engine::new();
//! engine.register("double", |n: i64| n * 2);
//! engine.register("fetch", |name: String| if name == "a" { Ok(7) } else { Err(format!("no {name}")) });
//! let script = engine.compile("fn step(n) { double(n) + fetch(\"a\") } step(10)")?;
//!
//! let mut state = engine.state(&script)?;
//! assert_eq!(state.run::<i64>()?, 27);
//! assert_eq!(state.call::<i64>("step", (1,))?, 9);
//! # Ok::<(), Box<dyn std::error::Error>>(())
//! ```
//!
//! Nothing of the host runs inside the library: a run pauses when it calls a function of the host, and [`State`] calls the
//! closure and answers. So a panic of a closure can't pass through the library, and a closure may call the script again through
//! the `&mut State` that it can take as its first argument.
//!
//! A host that answers later, such as an asynchronous one, declares functions without closures ([`Engine::declare`]), and takes the
//! run by steps: [`State::start`], [`State::step`], [`State::answer`].
//!
//! What is proved of the library's core: only accepted programs run, each run keeps to its instructions and operand stack, and a call
//! makes at most the turns that it is given. This module is plain Rust around it, tested and not proved.
mod equality;
mod error;
mod fault;
mod functions;
mod handle;
mod rows;
mod script;
mod state;
mod step;
mod values;

pub use error::{CompileError, HostError, LoadError, RunError, WrongType};
pub use fault::{Fault, FaultKind};
pub use functions::{Arguments, Changed, IntoAnswer, IntoFunction, IntoMethod, Plain, WithState};
pub use script::{Bounds, Engine, Interrupt, Script};
pub use state::State;
pub use step::{Call, Step};
pub use values::{Foreign, FromValue, IntoArguments, Value};
