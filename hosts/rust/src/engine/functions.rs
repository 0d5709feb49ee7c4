//! Closures as functions of the host.
use super::error::HostError;
use super::state::State;
use super::values::{FromValue, Value};
use std::marker::PhantomData;
use std::sync::Arc;
use std::vec::Drain;

/// What came of a call that a closure did.
pub(crate) struct Served {
    /// What the receiver of a method is afterwards.
    pub(crate) receiver: Option<Value>,
    pub(crate) answer: Result<Value, HostError>,
}

impl Served {
    /// A call of a function.
    pub(crate) fn function(answer: Result<Value, HostError>) -> Served {
        Served {
            receiver: None,
            answer,
        }
    }

    /// A call of a method, which leaves its receiver if it wasn't called.
    pub(crate) fn method(called: Result<Changed, HostError>) -> Served {
        match called {
            Ok(Changed { receiver, answer }) => Served {
                receiver: Some(receiver),
                answer,
            },
            Err(error) => Served::function(Err(error)),
        }
    }
}

/// The arguments of a call, of which each is taken once.
#[derive(Debug)]
pub struct Arguments<'a>(Drain<'a, Value>);

impl<'a> Arguments<'a> {
    /// All of these values. The memory of the list is kept for another call.
    pub(crate) fn of(values: &'a mut Vec<Value>) -> Arguments<'a> {
        Arguments(values.drain(..))
    }

    /// The next argument, as the type that the closure takes. The script may catch that it is of another type.
    fn next<T: FromValue>(&mut self) -> Result<T, HostError> {
        Ok(T::from_value(self.0.next().unwrap_or_default())?)
    }
}

/// A closure that does a function of the host.
pub(crate) type Closure = Arc<dyn Fn(&mut State, Arguments<'_>) -> Served + Send + Sync>;

/// A function of the host.
#[derive(Clone)]
pub(crate) enum Function {
    /// A closure does it.
    Closure(Closure),
    /// The host answers calls of it between two steps.
    Declared,
}

/// A function of a host by its name and number of arguments.
#[derive(Clone)]
struct Named {
    name: String,
    parameters: u32,
    function: Function,
}

/// The functions of a host, ordered by their names and numbers of arguments. A binary search is faster here than a hash of the name,
/// which each call of a script would take.
#[derive(Clone, Default)]
pub(crate) struct Functions(Vec<Named>);

impl Functions {
    fn find(&self, name: &str, parameters: u32) -> Result<usize, usize> {
        self.0
            .binary_search_by(|known| (&*known.name, known.parameters).cmp(&(name, parameters)))
    }

    pub(crate) fn insert(&mut self, name: &str, parameters: u32, function: Function) {
        match self.find(name, parameters) {
            Ok(index) => self.0[index].function = function,
            Err(index) => {
                let name = name.into();
                let named = Named {
                    name,
                    parameters,
                    function,
                };
                self.0.insert(index, named);
            }
        }
    }

    pub(crate) fn get(&self, name: &str, arguments: usize) -> Option<&Function> {
        let index = self.find(name, u32::try_from(arguments).ok()?).ok()?;
        Some(&self.0[index].function)
    }

    /// Their names and numbers of arguments.
    pub(crate) fn keys(&self) -> impl Iterator<Item = (&str, u32)> {
        self.0.iter().map(|known| (&*known.name, known.parameters))
    }
}

/// What a function of the host returns: a value, or a `Result` of one.
pub trait IntoAnswer {
    /// The value, or why there is none.
    ///
    /// # Errors
    /// The function failed.
    fn into_answer(self) -> Result<Value, HostError>;
}

impl<T: Into<Value>> IntoAnswer for T {
    fn into_answer(self) -> Result<Value, HostError> {
        Ok(self.into())
    }
}

impl<T: Into<Value>, E: Into<HostError>> IntoAnswer for Result<T, E> {
    fn into_answer(self) -> Result<Value, HostError> {
        self.map(Into::into).map_err(Into::into)
    }
}

/// Closures that can be registered: `|a: A, b: B| ..`, and with the state first, `|state: &mut State, a: A| ..`.
pub trait IntoFunction<Marker>: Sized {
    /// How many arguments a call has.
    const ARGUMENTS: u32;

    /// Calls the closure.
    ///
    /// # Errors
    /// An argument is of another type, or the closure failed.
    fn call(&self, state: &mut State, arguments: Arguments<'_>) -> Result<Value, HostError>;
}

/// What a method made of its receiver, and what it returned.
#[derive(Clone, Debug, PartialEq, Eq)]
pub struct Changed {
    receiver: Value,
    answer: Result<Value, HostError>,
}

impl Changed {
    fn of(receiver: impl Into<Value>, answer: impl IntoAnswer) -> Changed {
        Changed {
            receiver: receiver.into(),
            answer: answer.into_answer(),
        }
    }
}

/// Closures that can be registered as methods: `|this: &mut T, a: A| ..`, and with the state first,
/// `|state: &mut State, this: &mut T, a: A| ..`.
pub trait IntoMethod<Marker>: Sized {
    /// How many arguments a call has, the receiver among them.
    const ARGUMENTS: u32;

    /// Calls the closure with the first argument as its receiver.
    ///
    /// # Errors
    /// An argument is of another type, and the closure wasn't called.
    fn call(&self, state: &mut State, arguments: Arguments<'_>) -> Result<Changed, HostError>;
}

/// Marks closures that take arguments alone.
#[derive(Debug)]
pub struct Plain<T>(PhantomData<T>);

/// Marks closures that take the state first.
#[derive(Debug)]
pub struct WithState<T>(PhantomData<T>);

macro_rules! functions {
    ($(($count:literal; $($t:ident),*))*) => { $(
        impl<F, R, $($t),*> IntoFunction<Plain<($($t,)*)>> for F
        where
            F: Fn($($t),*) -> R,
            R: IntoAnswer,
            $($t: FromValue),*
        {
            const ARGUMENTS: u32 = $count;

            #[allow(unused_mut, unused_variables)]
            fn call(&self, _: &mut State, mut arguments: Arguments<'_>) -> Result<Value, HostError> {
                self($(arguments.next::<$t>()?),*).into_answer()
            }
        }

        impl<F, R, $($t),*> IntoFunction<WithState<($($t,)*)>> for F
        where
            F: Fn(&mut State, $($t),*) -> R,
            R: IntoAnswer,
            $($t: FromValue),*
        {
            const ARGUMENTS: u32 = $count;

            #[allow(unused_mut, unused_variables)]
            fn call(&self, state: &mut State, mut arguments: Arguments<'_>) -> Result<Value, HostError> {
                self(state, $(arguments.next::<$t>()?),*).into_answer()
            }
        }

        impl<F, R, T, $($t),*> IntoMethod<Plain<(T, $($t,)*)>> for F
        where
            F: Fn(&mut T, $($t),*) -> R,
            R: IntoAnswer,
            T: FromValue + Into<Value>,
            $($t: FromValue),*
        {
            const ARGUMENTS: u32 = $count + 1;

            fn call(&self, _: &mut State, mut arguments: Arguments<'_>) -> Result<Changed, HostError> {
                let mut this: T = arguments.next()?;
                let answer = self(&mut this, $(arguments.next::<$t>()?),*);
                Ok(Changed::of(this, answer))
            }
        }

        impl<F, R, T, $($t),*> IntoMethod<WithState<(T, $($t,)*)>> for F
        where
            F: Fn(&mut State, &mut T, $($t),*) -> R,
            R: IntoAnswer,
            T: FromValue + Into<Value>,
            $($t: FromValue),*
        {
            const ARGUMENTS: u32 = $count + 1;

            fn call(&self, state: &mut State, mut arguments: Arguments<'_>) -> Result<Changed, HostError> {
                let mut this: T = arguments.next()?;
                let answer = self(state, &mut this, $(arguments.next::<$t>()?),*);
                Ok(Changed::of(this, answer))
            }
        }
    )* };
}

functions! { (0;) (1; A) (2; A, B) (3; A, B, C) (4; A, B, C, D) (5; A, B, C, D, E) (6; A, B, C, D, E, G) }
