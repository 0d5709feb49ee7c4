//! Engines and scripts.
use super::error::{CompileError, LoadError, RunError};
use super::functions::{Closure, Function, Functions, IntoFunction, IntoMethod, Served};
use super::handle::{First, Handle};
use super::state::State;
use super::values::FromValue;
use crate::{raw, Caps, Limits};
use std::error::Error;
use std::fmt;
use std::hash::{Hash, Hasher};
use std::sync::atomic::{AtomicBool, Ordering};
use std::sync::Arc;

/// What a script may use.
///
/// ```
/// let bounds = grain::engine::Bounds::new().turns(1_000_000).calls(200);
/// assert_eq!((bounds.turns, bounds.calls, bounds.runs), (1_000_000, 200, 16));
/// ```
#[derive(Clone, Copy, Debug, PartialEq, Eq, Hash)]
#[non_exhaustive]
pub struct Bounds {
    /// How many turns a call of [`State::run`], [`State::call`] or [`State::resume`] makes at most: operations that are done,
    /// functions that begin, and faults that are caught. They are no bound on time: one turn may sort a large array.
    pub turns: u64,
    /// How many calls of functions of the script may wait in one run.
    pub calls: usize,
    /// How many runs may wait for a function of the host while another run is under way.
    pub runs: usize,
    /// How many values and bytes of text one value has at most.
    pub value_size: usize,
    /// How deep values are nested at most, up to 256.
    pub value_depth: usize,
    /// How many bytes of output are kept until they are taken.
    pub printed: usize,
    /// How many bytes of memory the library takes for a state at most, and how many to compile or to read a script.
    pub memory: usize,
}

/// The usual bounds, as [`Bounds::new`] has them.
impl Default for Bounds {
    fn default() -> Bounds {
        Bounds::new()
    }
}

impl Bounds {
    /// The usual bounds: no bound on turns, 1000 calls, 16 runs, values of 16 million parts that are nested 64 deep, 1 MiB of output,
    /// and 256 MiB of memory.
    #[must_use]
    pub const fn new() -> Bounds {
        Bounds {
            turns: u64::MAX,
            calls: 1000,
            runs: 16,
            value_size: 16_000_000,
            value_depth: 64,
            printed: 1 << 20,
            memory: 1 << 28,
        }
    }

    /// With this many turns at most.
    #[must_use]
    pub const fn turns(mut self, turns: u64) -> Bounds {
        self.turns = turns;
        self
    }

    /// With this many calls that wait at most.
    #[must_use]
    pub const fn calls(mut self, calls: usize) -> Bounds {
        self.calls = calls;
        self
    }

    /// With this many runs that wait at most.
    #[must_use]
    pub const fn runs(mut self, runs: usize) -> Bounds {
        self.runs = runs;
        self
    }

    /// With values of this size at most.
    #[must_use]
    pub const fn value_size(mut self, size: usize) -> Bounds {
        self.value_size = size;
        self
    }

    /// With values that are nested this deep at most.
    #[must_use]
    pub const fn value_depth(mut self, depth: usize) -> Bounds {
        self.value_depth = depth;
        self
    }

    /// With this many bytes of output at most.
    #[must_use]
    pub const fn printed(mut self, bytes: usize) -> Bounds {
        self.printed = bytes;
        self
    }

    /// With this many bytes of memory of the library at most.
    #[must_use]
    pub const fn memory(mut self, bytes: usize) -> Bounds {
        self.memory = bytes;
        self
    }

    pub(crate) fn raw(&self) -> raw::Bounds {
        raw::Bounds {
            value_size: self.value_size,
            value_depth: self.value_depth,
            calls: self.calls,
            runs: self.runs,
            printed: self.printed,
            memory: self.memory,
        }
    }
}

/// Ends runs from another thread: each pauses after a few thousand turns more.
#[derive(Clone, Debug, Default)]
pub struct Interrupt(Arc<AtomicBool>);

impl Interrupt {
    /// Runs pause from now on.
    pub fn raise(&self) {
        self.0.store(true, Ordering::Relaxed);
    }

    /// Runs go on again.
    pub fn clear(&self) {
        self.0.store(false, Ordering::Relaxed);
    }

    /// Whether runs pause.
    #[must_use]
    pub fn is_raised(&self) -> bool {
        self.0.load(Ordering::Relaxed)
    }
}

/// Functions of the host, and bounds. A state keeps those that its engine had when it was made.
#[derive(Clone, Default)]
pub struct Engine {
    /// States share them.
    pub(crate) functions: Arc<Functions>,
    pub(crate) bounds: Bounds,
    pub(crate) interrupt: Interrupt,
}

impl fmt::Debug for Engine {
    fn fmt(&self, f: &mut fmt::Formatter<'_>) -> fmt::Result {
        f.debug_struct("Engine")
            .field("functions", &self.functions.keys().collect::<Vec<_>>())
            .field("bounds", &self.bounds)
            .field("interrupt", &self.interrupt)
            .finish()
    }
}

impl Engine {
    /// An engine without functions, with the usual bounds.
    #[must_use]
    pub fn new() -> Engine {
        Engine::default()
    }

    /// Gives scripts a function. A function of the script or of the language's library with the same name and number of
    /// parameters comes first. Of two that the engine is given, the later one stays.
    pub fn register<M: 'static, F>(&mut self, name: &str, function: F) -> &mut Engine
    where
        F: IntoFunction<M> + Send + Sync + 'static,
    {
        let closure: Closure =
            Arc::new(move |state, arguments| Served::function(function.call(state, arguments)));
        self.insert(name, F::ARGUMENTS, Function::Closure(closure))
    }

    /// Gives scripts a method, which may change its receiver. In `x.f(1)`, and in `f(x, 1)`, the variable `x` has afterwards what
    /// the closure has made of it, also if the closure failed. So has a part of a variable, such as `x[0]` in `x[0].f(1)`. Of any
    /// other value, and of a constant, the closure changes a copy.
    ///
    /// ```
    /// use grain::engine::{Engine, Value};
    ///
    /// let mut engine = Engine::new();
    /// engine.register_method("add", |this: &mut i64, more: i64| *this += more);
    /// engine.register_method("keep", |this: &mut Vec<Value>, count: i64| {
    ///     this.truncate(count.try_into().unwrap_or(0));
    ///     this.len() as i64
    /// });
    /// assert_eq!(engine.eval::<i64>("let x = 1; x.add(2); x")?, 3);
    /// assert_eq!(engine.eval::<i64>("let m = #{ a: [7, 8] }; m.a.keep(1); m.a.len()")?, 1);
    /// # Ok::<(), Box<dyn std::error::Error>>(())
    /// ```
    pub fn register_method<M: 'static, F>(&mut self, name: &str, method: F) -> &mut Engine
    where
        F: IntoMethod<M> + Send + Sync + 'static,
    {
        let closure: Closure =
            Arc::new(move |state, arguments| Served::method(method.call(state, arguments)));
        self.insert(name, F::ARGUMENTS, Function::Closure(closure))
    }

    /// Gives scripts a function that no closure does: a run that is taken by steps waits when it calls the function, and the host
    /// answers ([`State::step`], [`State::answer`]). In other runs such a call is a fault, which no script catches.
    pub fn declare(&mut self, name: &str, parameters: u32) -> &mut Engine {
        self.insert(name, parameters, Function::Declared)
    }

    fn insert(&mut self, name: &str, parameters: u32, function: Function) -> &mut Engine {
        let functions = Arc::make_mut(&mut self.functions);
        functions.insert(name, parameters, function);
        self
    }

    /// Sets the bounds of texts that are compiled, and of states that are made, from now on.
    pub fn bounds(&mut self, bounds: Bounds) -> &mut Engine {
        self.bounds = bounds;
        self
    }

    /// What ends runs of all states of this engine from another thread.
    #[must_use]
    pub fn interrupt(&self) -> Interrupt {
        self.interrupt.clone()
    }

    /// Compiles a text, which can't import modules. What the compiler makes is accepted.
    ///
    /// # Errors
    /// The text has an error.
    pub fn compile(&self, text: &str) -> Result<Script, CompileError> {
        compiled(Handle::compile(text, &self.bounds)?)
    }

    /// Compiles a text, and the modules that it imports, to one program. The modules are pairs of a name and a text, as of an array or
    /// a [`HashMap`](std::collections::HashMap).
    ///
    /// ```
    /// use grain::engine::Engine;
    ///
    /// let modules = [("shapes", "export const UNIT = 1; fn area(a, b) { a * b }")];
    /// let text = "import \"shapes\" as s; s::area(2, 3) + s::UNIT";
    /// let engine = Engine::new();
    /// let script = engine.compile_with_modules(text, modules)?;
    /// assert_eq!(engine.state(&script)?.run::<i64>()?, 7);
    /// # Ok::<(), Box<dyn std::error::Error>>(())
    /// ```
    ///
    /// # Errors
    /// The text or a module that is imported has an error, such as the import of a module that isn't among these; or two of them
    /// have the same name. A report of an error in a module begins with its name.
    pub fn compile_with_modules<N, T>(
        &self,
        text: &str,
        modules: impl IntoIterator<Item = (N, T)>,
    ) -> Result<Script, CompileError>
    where
        N: AsRef<str>,
        T: AsRef<str>,
    {
        let modules: Vec<(N, T)> = modules.into_iter().collect();
        let list: Vec<(&str, &str)> = modules
            .iter()
            .map(|(name, text)| (name.as_ref(), text.as_ref()))
            .collect();
        compiled(Handle::compile_modules(text, &list, &self.bounds)?)
    }

    /// Reads a program file and verifies it, within [`Limits::new`].
    ///
    /// # Errors
    /// The bytes aren't a program file, or the program is refused.
    pub fn load(&self, bytes: &[u8]) -> Result<Script, LoadError> {
        let handle = Handle::load(bytes, Caps::ALL, &Limits::new(), &self.bounds)?;
        Ok(Script::new(bytes, handle))
    }

    /// A state of a script, which has no variables. It shares the script's program.
    ///
    /// # Errors
    /// Out of memory, or the bound on nesting is above 256.
    pub fn state(&self, script: &Script) -> Result<State, RunError> {
        let handle = script.first.another(&self.bounds)?;
        State::new(handle, Arc::new(self.clone()))
    }

    /// The value of a text that is compiled and run once.
    ///
    /// # Errors
    /// The text has an error, or its run fails.
    pub fn eval<T: FromValue>(&self, text: &str) -> Result<T, Box<dyn Error>> {
        let script = self.compile(text)?;
        Ok(self.state(&script)?.run()?)
    }
}

/// The script that was compiled into a state.
fn compiled(handle: Handle) -> Result<Script, CompileError> {
    match handle.file() {
        Some(file) => Ok(Script::new(file, handle)),
        None => Err(CompileError::OutOfMemory),
    }
}

/// An accepted program, which its states share. Threads may share it too.
#[derive(Clone)]
pub struct Script {
    file: Arc<[u8]>,
    first: Arc<First>,
}

/// Scripts are equal if their program files are.
impl PartialEq for Script {
    fn eq(&self, other: &Script) -> bool {
        self.file == other.file
    }
}

impl Eq for Script {}

impl Hash for Script {
    fn hash<H: Hasher>(&self, state: &mut H) {
        self.file.hash(state);
    }
}

impl fmt::Debug for Script {
    fn fmt(&self, f: &mut fmt::Formatter<'_>) -> fmt::Result {
        f.debug_struct("Script")
            .field("size", &self.file.len())
            .finish_non_exhaustive()
    }
}

impl AsRef<[u8]> for Script {
    fn as_ref(&self) -> &[u8] {
        self.as_bytes()
    }
}

impl Script {
    fn new(file: impl Into<Arc<[u8]>>, handle: Handle) -> Script {
        Script {
            file: file.into(),
            first: Arc::new(First::new(handle)),
        }
    }

    /// The bytes of the program file, for [`Engine::load`].
    #[must_use]
    pub fn as_bytes(&self) -> &[u8] {
        &self.file
    }
}
