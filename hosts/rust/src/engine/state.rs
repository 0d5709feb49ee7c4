//! States of scripts, and their runs.
use super::error::{HostError, RunError};
use super::functions::{Arguments, Closure, Function, IntoAnswer, Served};
use super::handle::{done, Handle};
use super::script::Engine;
use super::step::{Call, Step};
use super::values::{Foreign, FromValue, IntoArguments, Value};
use crate::raw;
use std::fmt;
use std::mem;
use std::sync::Arc;

/// How many turns a run makes before the interrupt is looked at.
const SLICE: u64 = 4096;

/// How far a run is between two calls of the library.
#[derive(Clone, Copy, Debug, PartialEq, Eq)]
enum Stage {
    /// It can go on.
    Ready,
    /// It waits for [`State::answer`].
    Asks,
    /// A closure does the call for which it waits.
    Served,
}

/// A run that is under way.
#[derive(Debug)]
struct Run {
    /// How many runs of the state began before it.
    number: u64,
    stage: Stage,
}

/// Who does calls of functions that no closure does.
#[derive(Clone, Copy, PartialEq, Eq)]
enum Caller {
    /// The host, between two steps.
    Steps,
    /// Nobody: these calls fail.
    Nobody,
}

/// The variables of a script, and its runs. It stays on its thread.
///
/// The host begins a run and waits for its end by [`run`](State::run) or [`call`](State::call). Or it begins one by
/// [`start`](State::start) or [`start_call`](State::start_call), and takes it by steps, between which it does other things, such as
/// awaiting what the script asks for:
///
/// ```
/// use grain::engine::{Engine, Step};
///
/// let mut engine = Engine::new();
/// engine.declare("fetch", 1);
/// let script = engine.compile("fetch(\"a\") + 1")?;
/// let mut state = engine.state(&script)?;
///
/// state.start()?;
/// let Step::Calls(call) = state.step(1000)? else { panic!() };
/// assert_eq!((&*call.name, &*call.arguments), ("fetch", &["a".into()][..]));
/// state.answer(41)?;
/// assert_eq!(state.step(1000)?, Step::Returned(42.into()));
/// # Ok::<(), Box<dyn std::error::Error>>(())
/// ```
///
/// A state can't move to another thread:
///
/// ```compile_fail
/// fn is_send<T: Send>() {}
/// is_send::<grain::engine::State>();
/// ```
pub struct State {
    handle: Handle,
    engine: Arc<Engine>,
    /// The runs that are under way, the last one at the end. All others wait for the host.
    runs: Vec<Run>,
    /// How many runs began.
    begun: u64,
    used: u64,
    /// Memory for the arguments of calls.
    arguments: Vec<Value>,
}

impl fmt::Debug for State {
    fn fmt(&self, f: &mut fmt::Formatter<'_>) -> fmt::Result {
        f.debug_struct("State")
            .field("runs", &self.runs)
            .field("used", &self.used)
            .finish_non_exhaustive()
    }
}

/// Ends a run, and those that began under it, if it fails or a closure of the host panics: so the state goes on.
struct Guard<'a> {
    state: &'a mut State,
    /// The number of the run.
    number: u64,
}

impl Drop for Guard<'_> {
    fn drop(&mut self) {
        self.state.end_from(self.number);
    }
}

impl State {
    pub(crate) fn new(mut handle: Handle, engine: Arc<Engine>) -> Result<State, RunError> {
        for (name, parameters) in engine.functions.keys() {
            done(handle.register(name, parameters), name)?;
        }
        Ok(State {
            handle,
            engine,
            runs: Vec::new(),
            begun: 0,
            used: 0,
            arguments: Vec::new(),
        })
    }

    /// Runs the top level. Its local variables are new; named variables stay from run to run.
    ///
    /// # Errors
    /// Why it doesn't return a value of the type. A call of a function that [`Engine::declare`] declares is a fault.
    pub fn run<T: FromValue>(&mut self) -> Result<T, RunError> {
        self.start()?;
        self.go()
    }

    /// Calls a function of the script, by its name and the number of arguments.
    ///
    /// # Errors
    /// As [`State::run`].
    pub fn call<T: FromValue>(
        &mut self,
        name: &str,
        arguments: impl IntoArguments,
    ) -> Result<T, RunError> {
        self.start_call(name, arguments)?;
        self.go()
    }

    /// Goes on with a run that was paused as [`State::run`] does, for as many turns again.
    ///
    /// # Errors
    /// As [`State::run`], and [`RunError::NotNow`] if no run is paused.
    pub fn resume<T: FromValue>(&mut self) -> Result<T, RunError> {
        match self.stage() {
            Some(Stage::Ready) => self.go(),
            _ => Err(RunError::NotNow),
        }
    }

    /// Begins a run of the top level, for [`State::step`].
    ///
    /// # Errors
    /// [`RunError::NotNow`] if a run is under way, or out of memory. Nothing has changed.
    pub fn start(&mut self) -> Result<(), RunError> {
        self.begin(None, &[])
    }

    /// Begins a run of a function of the script, for [`State::step`]. If another run waits for an answer, it waits until this one has
    /// ended.
    ///
    /// # Errors
    /// - [`RunError::NoName`]: the script has no function of this name with as many parameters.
    /// - [`RunError::NotNow`]: the last run can go on, or as many runs wait as may.
    /// - [`RunError::BadValue`]: an argument isn't within the bounds.
    /// - Out of memory. With any error nothing has changed.
    pub fn start_call(
        &mut self,
        name: &str,
        arguments: impl IntoArguments,
    ) -> Result<(), RunError> {
        self.begin(Some(name), &arguments.into_arguments())
    }

    /// Goes on with the last run for at most this number of turns, whatever [`Bounds::turns`](super::Bounds::turns) is. Closures that are
    /// registered are called meanwhile. If the run waits for an answer already, the call is shown again.
    ///
    /// # Errors
    /// - [`RunError::NotNow`]: no run is under way, or the last run waits for the closure that makes this call.
    /// - With all others the run has ended: by a fault, since a value can't be shown, or since memory was refused.
    pub fn step(&mut self, turns: u64) -> Result<Step, RunError> {
        match self.stage() {
            Some(Stage::Ready) => self.advance(turns, Caller::Steps),
            Some(Stage::Asks) => self.asked_again(),
            Some(Stage::Served) | None => Err(RunError::NotNow),
        }
    }

    /// Ends the call for which the last run waits, with a value or an error as closures return them. [`State::step`] goes on.
    ///
    /// # Errors
    /// - [`RunError::NotNow`]: no run waits for an answer.
    /// - [`RunError::BadValue`]: the value isn't within the bounds.
    /// - Out of memory. With any error nothing has changed, and the call can be answered otherwise.
    pub fn answer(&mut self, answer: impl IntoAnswer) -> Result<(), RunError> {
        if self.stage() != Some(Stage::Asks) {
            return Err(RunError::NotNow);
        }
        done(self.handle.answer(answer.into_answer()), "")?;
        self.enter(Stage::Ready);
        Ok(())
    }

    /// Gives the receiver of the call for which the last run waits another value: when the call has ended, the variable has it, or the
    /// part of a variable. [`Engine::register_method`] does so by itself.
    ///
    /// # Errors
    /// - [`RunError::NotNow`]: no run waits for a call whose first argument is a variable or a part of one.
    /// - [`RunError::BadValue`]: the value isn't within the bounds.
    /// - Out of memory. With any error nothing has changed.
    pub fn set_receiver(&mut self, value: impl Into<Value>) -> Result<(), RunError> {
        done(self.handle.receiver(&value.into()), "")
    }

    /// Ends the last run, if it is paused or waits for an answer. A closure can't end the run that called it.
    pub fn stop(&mut self) {
        if matches!(self.stage(), Some(Stage::Ready | Stage::Asks)) {
            self.end();
        }
    }

    /// Ends all runs, and drops all variables and the output.
    pub fn reset(&mut self) {
        self.handle.reset();
        self.runs.clear();
    }

    /// Sets a variable that the script finds by its name, as it does variables that it doesn't declare. Until then the script can
    /// neither read nor assign it.
    ///
    /// # Errors
    /// The script has no such name, or the value isn't within the bounds.
    pub fn set(&mut self, name: &str, value: impl Into<Value>) -> Result<(), RunError> {
        done(self.handle.set(name, &value.into()), name)
    }

    /// The value of a variable that scripts find by its name. If there is none, it is the value that a variable of the top level had
    /// at the end of the last run: of one that is declared outside of blocks, and by the last `let` of its name.
    ///
    /// ```
    /// use grain::engine::Engine;
    ///
    /// let engine = Engine::new();
    /// let mut state = engine.state(&engine.compile("let x = 6; let y = x + 1; x *= y;")?)?;
    /// state.run::<()>()?;
    /// assert_eq!((state.get::<i64>("x")?, state.get::<i64>("y")?), (42, 7));
    /// # Ok::<(), Box<dyn std::error::Error>>(())
    /// ```
    ///
    /// # Errors
    /// There is none, or it is of another type.
    pub fn get<T: FromValue>(&mut self, name: &str) -> Result<T, RunError> {
        Ok(T::from_value(self.handle.get(name)?)?)
    }

    /// The values of the host's own of which the state has no copy left, each as often as it was passed. The state forgets them. Until
    /// then it remembers each of them, in its memory.
    ///
    /// # Errors
    /// Out of memory: it forgets none.
    pub fn dropped(&mut self) -> Result<Vec<Foreign>, RunError> {
        let values = self.handle.dropped()?.into_iter();
        Ok(values.map(Foreign::from_value).collect::<Result<_, _>>()?)
    }

    /// What was printed since it was last taken, each line with its line feed.
    pub fn take_printed(&mut self) -> String {
        self.handle.take_printed()
    }

    /// How many turns all runs took so far.
    #[must_use]
    pub fn used(&self) -> u64 {
        self.used
    }

    /// How many bytes of memory the library has taken for the state. Its program belongs to the script.
    #[must_use]
    pub fn memory(&self) -> usize {
        self.handle.memory()
    }

    fn begin(&mut self, name: Option<&str>, arguments: &[Value]) -> Result<(), RunError> {
        let status = self.handle.begin(name, arguments);
        done(status, name.unwrap_or_default())?;
        self.runs.push(Run {
            number: self.begun,
            stage: Stage::Ready,
        });
        self.begun += 1;
        Ok(())
    }

    /// How far the last run is.
    fn stage(&self) -> Option<Stage> {
        self.runs.last().map(|run| run.stage)
    }

    /// The number of the last run.
    fn number(&self) -> Option<u64> {
        self.runs.last().map(|run| run.number)
    }

    fn enter(&mut self, stage: Stage) {
        if let Some(run) = self.runs.last_mut() {
            run.stage = stage;
        }
    }

    /// Ends the last run.
    fn end(&mut self) {
        self.handle.stop();
        self.runs.pop();
    }

    /// Ends all runs from this number on.
    fn end_from(&mut self, number: u64) {
        while self.number().is_some_and(|last| last >= number) {
            self.end();
        }
    }

    /// The call for which the last run waits, which was shown before. A run that began meanwhile may have been shown since.
    fn asked_again(&mut self) -> Result<Step, RunError> {
        self.handle.go(0);
        match self.handle.asked() {
            Ok(shown) => Ok(Step::Calls(Call::of(shown.name(), shown.values()))),
            Err(error) => {
                self.end();
                Err(error)
            }
        }
    }

    /// Does the call for which the last run waits, if a closure does it or nobody answers. Otherwise it is returned.
    fn serve(
        &mut self,
        engine: &Engine,
        number: u64,
        caller: Caller,
    ) -> Result<Option<Call>, RunError> {
        let mut arguments = mem::take(&mut self.arguments);
        let shown = self.handle.asked()?;
        let name = shown.name();
        shown.fill(&mut arguments);
        let served = match engine.functions.get(name, arguments.len()) {
            Some(Function::Closure(closure)) => {
                let served = self.served(closure, Arguments::of(&mut arguments), number)?;
                self.arguments = arguments;
                served
            }
            _ if caller == Caller::Steps => return Ok(Some(Call::of(name, arguments))),
            _ => Served::function(Err(HostError::Fail(format!(
                "no closure does `{name}`, and the run isn't taken by steps"
            )))),
        };
        self.finish(served)?;
        Ok(None)
    }

    /// What a closure returns. Runs that it began and left are ended.
    fn served(
        &mut self,
        closure: &Closure,
        arguments: Arguments<'_>,
        number: u64,
    ) -> Result<Served, RunError> {
        self.enter(Stage::Served);
        let served = closure(self, arguments);
        self.end_from(number + 1);
        if self.number() != Some(number) {
            return Err(RunError::Stopped);
        }
        self.enter(Stage::Ready);
        Ok(served)
    }

    /// Ends the call for which the last run waits. It fails if its value or its receiver isn't within the bounds.
    fn finish(&mut self, served: Served) -> Result<(), RunError> {
        let answer = match served.receiver.map(|value| self.handle.receiver(&value)) {
            // A value that isn't a variable's has nowhere to go.
            None | Some(raw::ACCEPTED | raw::NOT_NOW) => served.answer,
            Some(raw::BAD_VALUE) => Err(HostError::Fail(
                "the receiver isn't within the bounds".into(),
            )),
            Some(status) => return done(status, ""),
        };
        match self.handle.answer(answer) {
            raw::BAD_VALUE => {
                let why = HostError::Fail("the value isn't within the bounds".into());
                done(self.handle.answer(Err(why)), "")
            }
            status => done(status, ""),
        }
    }

    /// Goes on with the last run as far as it can by itself.
    fn go<T: FromValue>(&mut self) -> Result<T, RunError> {
        let turns = self.engine.bounds.turns;
        match self.advance(turns, Caller::Nobody)? {
            Step::Returned(value) => Ok(T::from_value(value)?),
            Step::Paused | Step::Calls(_) => Err(RunError::Paused),
        }
    }

    /// Goes on with the last run until it has ended or waits for an answer, or its turns are used.
    fn advance(&mut self, turns: u64, caller: Caller) -> Result<Step, RunError> {
        let Some(number) = self.number() else {
            return Err(RunError::NotNow);
        };
        let guard = Guard {
            state: self,
            number,
        };
        let step = guard.state.slices(number, turns, caller)?;
        if !matches!(step, Step::Returned(_)) {
            mem::forget(guard);
        }
        Ok(step)
    }

    /// As [`State::advance`], but after an error the run may be there still.
    fn slices(&mut self, number: u64, turns: u64, caller: Caller) -> Result<Step, RunError> {
        let (engine, mut left) = (self.engine.clone(), turns);
        loop {
            let (event, used) = self.handle.go(left.min(SLICE));
            left -= used.min(left);
            self.used += used;
            match event {
                raw::EVENT_CALLS => {
                    if let Some(call) = self.serve(&engine, number, caller)? {
                        self.enter(Stage::Asks);
                        return Ok(Step::Calls(call));
                    }
                }
                raw::EVENT_PAUSED if left > 0 && !engine.interrupt.is_raised() => {}
                raw::EVENT_PAUSED => return Ok(Step::Paused),
                event => {
                    self.runs.pop();
                    return self.ended(event);
                }
            }
        }
    }

    /// What came of a run that has ended.
    fn ended(&mut self, event: u32) -> Result<Step, RunError> {
        match event {
            raw::EVENT_RETURNED => {
                let value = self.handle.asked()?.values().pop();
                Ok(Step::Returned(value.ok_or(RunError::BadValue)?))
            }
            raw::EVENT_FAULTED => Err(RunError::Fault(self.handle.fault())),
            _ => Err(RunError::OutOfMemory),
        }
    }
}
