//! How far runs are.
use super::values::Value;

/// How far a run is that the host takes by steps: [`State::step`](super::State::step).
#[derive(Clone, Debug, PartialEq, Eq, Hash)]
#[non_exhaustive]
#[must_use = "a run that waits goes on after `State::answer`"]
pub enum Step {
    /// It has ended, and returned this value.
    Returned(Value),
    /// It waits until [`State::answer`](super::State::answer) ends this call.
    Calls(Call),
    /// Its turns are used, or the interrupt was raised. Another step goes on.
    Paused,
}

/// A call of a function that [`Engine::declare`](super::Engine::declare) declares.
#[derive(Clone, Debug, PartialEq, Eq, Hash)]
#[non_exhaustive]
pub struct Call {
    /// The name of the function.
    pub name: String,
    /// The arguments, the receiver of a method first.
    pub arguments: Vec<Value>,
}

impl Call {
    pub(crate) fn of(name: &str, arguments: Vec<Value>) -> Call {
        Call {
            name: name.into(),
            arguments,
        }
    }
}
