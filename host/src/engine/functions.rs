//! Host functions that scripts call.
use super::function::Found;
use super::{Call, EvalError, Function};
use crate::value::{TryFromValueError, Value};
use std::any::Any;
use std::fmt::Display;
use std::marker::PhantomData;
use std::panic::{catch_unwind, AssertUnwindSafe};

/// A Rust type that a [`Value`] can be converted to: a type with a `TryFrom<Value>` whose error is
/// a [`TryFromValueError`], and `Value` itself. [`Function`] is one too; it converts only from a
/// value in a scope.
pub trait Wanted: Sized {
    /// Converts a value.
    ///
    /// Errors: the value is of another type, or is a number out of the type's range.
    fn wanted(value: Value) -> Result<Self, TryFromValueError>;

    /// Converts a value in a scope.
    ///
    /// Errors: those of `wanted`, and an allocation that fails.
    fn found(found: &Found<'_>) -> Result<Self, EvalError> {
        Ok(Self::wanted(found.value()?)?)
    }
}

impl<T: TryFrom<Value, Error: Into<TryFromValueError>>> Wanted for T {
    fn wanted(value: Value) -> Result<T, TryFromValueError> {
        T::try_from(value).map_err(Into::into)
    }
}

/// The type of a parameter of a host function: a [`Wanted`] type, or `&str`.
pub trait Parameter {
    /// What an argument is converted to.
    type Held: Wanted;

    /// What the function gets, while it runs.
    type Lent<'h>;

    /// Passes on what an argument was converted to; a reference is to `room`.
    fn lend(held: Self::Held, room: &mut Option<Self::Held>) -> Self::Lent<'_>;
}

impl<T: Wanted> Parameter for T {
    type Held = T;
    type Lent<'h> = T;

    fn lend(held: T, _room: &mut Option<T>) -> T {
        held
    }
}

impl Parameter for &'static str {
    type Held = String;
    type Lent<'h> = &'h str;

    fn lend(held: String, room: &mut Option<String>) -> &str {
        room.insert(held)
    }
}

/// A value that is ignored, and not read.
pub(super) struct Unread;

impl Wanted for Unread {
    fn wanted(_value: Value) -> Result<Unread, TryFromValueError> {
        Ok(Unread)
    }

    fn found(_found: &Found<'_>) -> Result<Unread, EvalError> {
        Ok(Unread)
    }
}

/// What a host function returns.
#[derive(Debug)]
pub enum Given {
    /// A value.
    Value(Value),
    /// A function of the script.
    Function(Function),
}

/// Why a host function failed.
#[derive(Debug)]
pub enum Refused {
    /// An error that is thrown where the script calls.
    Thrown(String),
    /// An error that ends the run.
    Ends(EvalError),
}

/// What a host function may return: anything that converts to a [`Value`], a [`Function`], or a
/// `Result` of either and an error that implements `Display`. `K` separates these implementations.
pub trait Answers<K> {
    /// Converts the result.
    ///
    /// Errors: the function's own error; a number that doesn't fit an int.
    fn given(self) -> Result<Given, Refused>;
}

/// Marks results that convert to values.
#[derive(Debug)]
pub struct Plain;

/// Marks results that may be errors.
#[derive(Debug)]
pub struct Fallible<K>(PhantomData<K>);

/// Marks functions of scripts as results.
#[derive(Debug)]
pub struct Kept;

impl<R: TryInto<Value, Error: Display>> Answers<Plain> for R {
    fn given(self) -> Result<Given, Refused> {
        self.try_into().map(Given::Value).map_err(|error| Refused::Thrown(error.to_string()))
    }
}

impl Answers<Kept> for Function {
    fn given(self) -> Result<Given, Refused> {
        Ok(Given::Function(self))
    }
}

impl<K, R: Answers<K>, E: Display> Answers<Fallible<K>> for Result<R, E> {
    fn given(self) -> Result<Given, Refused> {
        match self {
            Ok(answer) => answer.given(),
            Err(error) => Err(Refused::Thrown(error.to_string())),
        }
    }
}

/// A Rust function that scripts may call. It takes up to six parameters, of types that a [`Value`]
/// converts to or `&str`. It returns something that converts to a [`Value`], or a `Result` of such
/// and an error that implements `Display`. A number that doesn't fit an int is thrown as such an
/// error. It may take a `&mut` [`Call`] before the parameters, and the first parameter as `&mut`.
/// `A` is the list of parameter types, and `K` separates the kinds of results.
pub trait HostFn<A, K>: Send + Sync + 'static {
    /// The number of parameters.
    const PARAMETERS: usize;

    /// Whether it may change the first argument.
    const CHANGES: bool;

    /// Calls it with the arguments of the script's call.
    ///
    /// Errors: the function's own error; an argument that isn't of its parameter's type.
    fn call(&self, call: &mut Call<'_>) -> Result<Given, Refused>;
}

/// The parameter list of a function that takes a [`Call`] before it.
#[derive(Debug)]
pub struct WithCall<A>(PhantomData<A>);

/// The parameter list of a function that changes its first argument.
#[derive(Debug)]
pub struct Changing<A>(PhantomData<A>);

/// Writes the changed first argument back.
fn put_back<M: TryInto<Value, Error: Display>>(call: &mut Call<'_>, changed: M) -> Result<(), Refused> {
    match changed.try_into() {
        Ok(value) => call.change(&value),
        Err(error) => Err(Refused::Thrown(error.to_string())),
    }
}

macro_rules! functions {
    ($($count:literal: $($type:ident $held:ident $number:tt),*;)*) => {
        $(
            impl<F, K, R: Answers<K>, $($type: Parameter,)*> HostFn<($($type,)*), K> for F
            where
                F: Fn($($type),*) -> R + for<'h> Fn($($type::Lent<'h>),*) -> R + Send + Sync + 'static,
            {
                const PARAMETERS: usize = $count;
                const CHANGES: bool = false;

                #[allow(unused_mut, unused_variables)]
                fn call(&self, call: &mut Call<'_>) -> Result<Given, Refused> {
                    // (of the two signatures of the function the one whose parameters are lent)
                    #[allow(clippy::too_many_arguments)]
                    fn called<R, $($type,)*>(function: impl Fn($($type),*) -> R, $($held: $type),*) -> R {
                        function($($held),*)
                    }
                    // (what references among the parameters lead to)
                    let mut rooms = ($(None::<$type::Held>,)*);
                    $(let $held = $type::lend(call.argument($number)?, &mut rooms.$number);)*
                    called(self, $($held),*).given()
                }
            }

            impl<F, K, R: Answers<K>, $($type: Parameter,)*> HostFn<WithCall<($($type,)*)>, K> for F
            where
                F: Fn(&mut Call<'_>, $($type),*) -> R + for<'h> Fn(&mut Call<'_>, $($type::Lent<'h>),*) -> R + Send + Sync + 'static,
            {
                const PARAMETERS: usize = $count;
                const CHANGES: bool = false;

                #[allow(unused_mut, unused_variables)]
                fn call(&self, call: &mut Call<'_>) -> Result<Given, Refused> {
                    #[allow(clippy::too_many_arguments)]
                    fn called<R, $($type,)*>(function: impl Fn(&mut Call<'_>, $($type),*) -> R, call: &mut Call<'_>, $($held: $type),*) -> R {
                        function(call, $($held),*)
                    }
                    // (what references among the parameters lead to)
                    let mut rooms = ($(None::<$type::Held>,)*);
                    $(let $held = $type::lend(call.argument($number)?, &mut rooms.$number);)*
                    called(self, call, $($held),*).given()
                }
            }

            impl<$($type: TryInto<Value, Error: Into<EvalError>>,)*> Arguments for ($($type,)*) {
                fn into_values(self) -> Result<Vec<Value>, EvalError> {
                    let ($($held,)*) = self;
                    Ok(vec![$($held.try_into().map_err(Into::into)?),*])
                }

                fn with_values<R>(self, work: impl FnOnce(&mut [Value]) -> R) -> Result<R, EvalError> {
                    let ($($held,)*) = self;
                    let mut values: [Value; $count] = [$($held.try_into().map_err(Into::into)?),*];
                    Ok(work(&mut values))
                }
            }
        )*
    };
}

macro_rules! changing {
    ($($count:literal: $($type:ident $held:ident $number:tt),*;)*) => {
        $(
            impl<F, K, R: Answers<K>, M: Wanted + TryInto<Value, Error: Display>, $($type: Parameter,)*> HostFn<Changing<(M, $($type,)*)>, K> for F
            where
                F: Fn(&mut M, $($type),*) -> R + for<'h> Fn(&mut M, $($type::Lent<'h>),*) -> R + Send + Sync + 'static,
            {
                const PARAMETERS: usize = $count;
                const CHANGES: bool = true;

                #[allow(unused_mut, unused_variables)]
                fn call(&self, call: &mut Call<'_>) -> Result<Given, Refused> {
                    #[allow(clippy::too_many_arguments)]
                    fn called<M, R, $($type,)*>(function: impl Fn(&mut M, $($type),*) -> R, first: &mut M, $($held: $type),*) -> R {
                        function(first, $($held),*)
                    }
                    let mut first = call.argument::<M>(0)?;
                    // (what references among the parameters lead to)
                    let mut rooms = ((), $(None::<$type::Held>,)*);
                    $(let $held = $type::lend(call.argument($number)?, &mut rooms.$number);)*
                    let given = called(self, &mut first, $($held),*).given();
                    put_back(call, first)?;
                    given
                }
            }

            impl<F, K, R: Answers<K>, M: Wanted + TryInto<Value, Error: Display>, $($type: Parameter,)*> HostFn<WithCall<Changing<(M, $($type,)*)>>, K> for F
            where
                F: Fn(&mut Call<'_>, &mut M, $($type),*) -> R + for<'h> Fn(&mut Call<'_>, &mut M, $($type::Lent<'h>),*) -> R + Send + Sync + 'static,
            {
                const PARAMETERS: usize = $count;
                const CHANGES: bool = true;

                #[allow(unused_mut, unused_variables)]
                fn call(&self, call: &mut Call<'_>) -> Result<Given, Refused> {
                    #[allow(clippy::too_many_arguments)]
                    fn called<M, R, $($type,)*>(
                        function: impl Fn(&mut Call<'_>, &mut M, $($type),*) -> R,
                        call: &mut Call<'_>,
                        first: &mut M,
                        $($held: $type),*
                    ) -> R {
                        function(call, first, $($held),*)
                    }
                    let mut first = call.argument::<M>(0)?;
                    // (what references among the parameters lead to)
                    let mut rooms = ((), $(None::<$type::Held>,)*);
                    $(let $held = $type::lend(call.argument($number)?, &mut rooms.$number);)*
                    let given = called(self, call, &mut first, $($held),*).given();
                    put_back(call, first)?;
                    given
                }
            }
        )*
    };
}

/// Arguments for a function of a script: a tuple of up to six, or a list of values.
pub trait Arguments {
    /// Converts the arguments to values.
    ///
    /// Errors: a number doesn't fit an int.
    fn into_values(self) -> Result<Vec<Value>, EvalError>;

    /// Converts the arguments to values, and lends these. For a tuple no list is allocated.
    ///
    /// Errors: those of `into_values`.
    fn with_values<R>(self, work: impl FnOnce(&mut [Value]) -> R) -> Result<R, EvalError>
    where
        Self: Sized,
    {
        self.into_values().map(|mut values| work(&mut values))
    }
}

impl Arguments for Vec<Value> {
    fn into_values(self) -> Result<Vec<Value>, EvalError> {
        Ok(self)
    }
}

functions! {
    0: ;
    1: A a 0;
    2: A a 0, B b 1;
    3: A a 0, B b 1, C c 2;
    4: A a 0, B b 1, C c 2, D d 3;
    5: A a 0, B b 1, C c 2, D d 3, G g 4;
    6: A a 0, B b 1, C c 2, D d 3, G g 4, H h 5;
}

changing! {
    1: ;
    2: B b 1;
    3: B b 1, C c 2;
    4: B b 1, C c 2, D d 3;
    5: B b 1, C c 2, D d 3, G g 4;
    6: B b 1, C c 2, D d 3, G g 4, H h 5;
}

/// What a host function panicked with.
pub(super) type Panic = Box<dyn Any + Send>;

/// The closure that is called for a host function.
type Called = Box<dyn Fn(&mut Call<'_>) -> Result<Given, Refused> + Send + Sync>;

/// A function that is registered with an engine.
pub(crate) struct Registered {
    name: String,
    parameters: usize,
    changes: bool,
    call: Called,
}

impl Registered {
    pub(crate) fn new<A, K, F: HostFn<A, K>>(name: &str, function: F) -> Registered {
        Registered {
            name: name.to_owned(),
            parameters: F::PARAMETERS,
            changes: F::CHANGES,
            call: Box::new(move |call| function.call(call)),
        }
    }

    /// Whether one call of a script could mean either.
    pub(crate) fn is_like(&self, other: &Registered) -> bool {
        self.name == other.name && self.parameters == other.parameters
    }

    /// Returns the line that names it for the library. In it a space ends a name, and a line feed ends the line; no script can write a name
    /// that contains either.
    pub(crate) fn line(&self) -> String {
        let name = self.name.replace([' ', '\n'], "?");
        format!("{name} {}{}\n", self.parameters, if self.changes { " mut" } else { "" })
    }

    /// Calls it; returns the panic if it panics.
    pub(crate) fn call(&self, call: &mut Call<'_>) -> Result<Result<Given, Refused>, Panic> {
        catch_unwind(AssertUnwindSafe(|| (self.call)(call)))
    }
}
