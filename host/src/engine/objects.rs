//! Values of the program's own types, which scripts hold by number.
use super::{EvalError, Scope};
use crate::snapshot::Shape;
use crate::value::{Array, FromItem, IntoItem, TryFromValueError, Value};
use std::any::{type_name, Any};
use std::collections::hash_map::{Entry, RandomState};
use std::collections::{HashMap, HashSet};
use std::fmt;
use std::hash::{BuildHasher, Hash, Hasher};
use std::ops::Deref;
use std::sync::atomic::{AtomicU64, Ordering};
use std::sync::{Arc, LazyLock, Mutex, MutexGuard, PoisonError, Weak};

/// Values of the program's own types. Scripts hold them by number: they pass them on, put them into
/// arrays and maps, compare them, and call functions of the program with them.
///
/// A script sees an [`Object`] as a function pointer with the name that the program gave. So it
/// prints as `Fn(Account)`, its `type_of` is `Fn`, and its property `name` is `"Account"`. Two are
/// equal if they are the same object. No script can make such a number or change it.
///
/// The values live here until they are removed, or until the last clone of `Objects` is dropped. A
/// script may hold a number longer: a function of the program then refuses it. In another process,
/// which read a saved scope, all numbers are refused.
///
/// ```
/// use rhai_world::{Engine, EvalError, Object, Objects};
/// use std::sync::atomic::{AtomicI64, Ordering};
///
/// struct Account(AtomicI64);
///
/// let objects = Objects::new();
/// let mut engine = Engine::new();
/// let made = objects.clone();
/// engine
///     .register_fn("account", move || made.add("Account", Account(AtomicI64::new(0))))
///     .register_fn("deposit", |to: Object<Account>, amount: i64| { to.0.fetch_add(amount, Ordering::Relaxed); })
///     .register_fn("balance", |of: Object<Account>| of.0.load(Ordering::Relaxed));
///
/// let script = "let a = account(); let b = account(); a.deposit(5); [a.balance(), b.balance(), if a == b { 1 } else { 0 }]";
/// assert_eq!(engine.eval::<[i64; 3]>(script)?, [5, 0, 0]);
/// assert_eq!(engine.eval::<String>("`${account()}`")?, "Fn(Account)");
/// assert_eq!(objects.len(), 3);
///
/// drop(engine); // (it has the other clone)
/// drop(objects);
/// # Ok::<(), EvalError>(())
/// ```
#[derive(Clone)]
pub struct Objects {
    pool: Arc<Pool>,
}

/// The values of a pool, by their numbers in it.
struct Pool {
    serial: u64,
    held: Mutex<Held>,
}

#[derive(Default)]
struct Held {
    values: HashMap<u64, Arc<dyn Any + Send + Sync>>,
    next: u64,
}

/// The pools of the process, by their serials.
static POOLS: LazyLock<Mutex<HashMap<u64, Weak<Pool>>>> = LazyLock::new(Mutex::default);

/// Makes serials that no other pool of this process has, and that can't be guessed.
static SERIALS: LazyLock<(RandomState, AtomicU64)> = LazyLock::new(|| (RandomState::new(), AtomicU64::new(0)));

fn locked<T>(of: &Mutex<T>) -> MutexGuard<'_, T> {
    of.lock().unwrap_or_else(PoisonError::into_inner)
}

impl Pool {
    fn new() -> Arc<Pool> {
        let mut pools = locked(&POOLS);
        loop {
            let (random, count) = &*SERIALS;
            let serial = random.hash_one(count.fetch_add(1, Ordering::Relaxed));
            if let Entry::Vacant(place) = pools.entry(serial) {
                let pool = Arc::new(Pool { serial, held: Mutex::default() });
                place.insert(Arc::downgrade(&pool));
                return pool;
            }
        }
    }

    /// Finds the value of a number, in whichever pool it is.
    fn find(number: u128) -> Option<Arc<dyn Any + Send + Sync>> {
        let (serial, at) = parts_of(number);
        let pool = locked(&POOLS).get(&serial)?.upgrade()?;
        let found = locked(&pool.held).values.get(&at).cloned();
        found
    }
}

impl Drop for Pool {
    fn drop(&mut self) {
        locked(&POOLS).remove(&self.serial);
    }
}

/// The number of a value: the serial of its pool, and its number there.
fn number_of(serial: u64, at: u64) -> u128 {
    u128::from(serial) << 64 | u128::from(at)
}

fn parts_of(number: u128) -> (u64, u64) {
    ((number >> 64) as u64, number as u64)
}

/// The number that a script holds, if the value is an object's.
fn number_in(value: &Value) -> Option<u128> {
    let Value::FnPtr(_, captured) = value else {
        return None;
    };
    match captured.as_slice() {
        [Value::U128(number)] => Some(*number),
        _ => None,
    }
}

impl Objects {
    /// Makes a pool without values.
    pub fn new() -> Objects {
        Objects { pool: Pool::new() }
    }

    /// Adds a value, with the name by which scripts show it.
    pub fn add<T: Any + Send + Sync>(&self, name: &str, value: T) -> Object<T> {
        let value = Arc::new(value);
        let mut held = locked(&self.pool.held);
        let at = held.next;
        held.next += 1;
        held.values.insert(at, Arc::clone(&value) as Arc<dyn Any + Send + Sync>);
        Object { number: number_of(self.pool.serial, at), name: name.into(), value }
    }

    /// Removes a value, and returns whether it was there. Scripts that hold its number are refused
    /// from then on; what Rust holds of it stays.
    pub fn remove<T>(&self, object: &Object<T>) -> bool {
        let (serial, at) = parts_of(object.number);
        let removed = (serial == self.pool.serial).then(|| locked(&self.pool.held).values.remove(&at));
        // (it is dropped here, when the pool is no longer locked)
        removed.flatten().is_some()
    }

    /// Removes all values.
    pub fn clear(&self) {
        let removed = std::mem::take(&mut locked(&self.pool.held).values);
        drop(removed);
    }

    /// Removes the values that no variable of the scope holds, also not inside of another value or
    /// in what a closure shares. A [`Function`](crate::Function) that the program keeps isn't looked
    /// into.
    ///
    /// Errors: an allocation fails, and nothing is removed.
    ///
    /// Cost: that of [`Scope::snapshot`].
    ///
    /// ```
    /// use rhai_world::{Engine, EvalError, Objects, Scope};
    ///
    /// let objects = Objects::new();
    /// let mut engine = Engine::new();
    /// let made = objects.clone();
    /// engine.register_fn("node", move |n: i64| made.add("Node", n));
    /// let mut scope = Scope::new()?;
    /// engine.run_with_scope(&mut scope, "let kept = [node(1), #{of: node(2)}]; for i in 0..10 { node(i); }")?;
    /// assert_eq!(objects.len(), 12);
    /// objects.retain_in(&scope)?;
    /// assert_eq!(objects.len(), 2);
    /// # Ok::<(), EvalError>(())
    /// ```
    pub fn retain_in(&self, scope: &Scope) -> Result<(), EvalError> {
        let snapshot = scope.snapshot()?;
        let cells = (0..).map_while(|number| snapshot.cell(number));
        let mut found = HashSet::new();
        for value in snapshot.variables().map(|(_, value)| value).chain(cells) {
            for inside in value.walk() {
                if let Shape::Other(Value::U128(number)) = inside.shape() {
                    let (serial, at) = parts_of(*number);
                    found.extend((serial == self.pool.serial).then_some(at));
                }
            }
        }
        let mut held = locked(&self.pool.held);
        let (kept, removed): (HashMap<_, _>, HashMap<_, _>) =
            std::mem::take(&mut held.values).into_iter().partition(|(at, _)| found.contains(at));
        held.values = kept;
        drop(held);
        drop(removed);
        Ok(())
    }

    /// Returns how many values there are.
    pub fn len(&self) -> usize {
        locked(&self.pool.held).values.len()
    }

    /// Returns whether there is no value.
    pub fn is_empty(&self) -> bool {
        self.len() == 0
    }
}

impl Default for Objects {
    fn default() -> Objects {
        Objects::new()
    }
}

impl fmt::Debug for Objects {
    fn fmt(&self, f: &mut fmt::Formatter<'_>) -> fmt::Result {
        f.debug_struct("Objects").field("len", &self.len()).finish_non_exhaustive()
    }
}

/// A value of [`Objects`], as a parameter or the result of a registered function, or as a variable.
/// It dereferences to the value.
///
/// As a parameter it accepts the values of its type alone; a function with a parameter of type
/// [`Value`] accepts all.
pub struct Object<T> {
    number: u128,
    name: Box<str>,
    value: Arc<T>,
}

impl<T> Object<T> {
    /// Returns the name by which scripts show it.
    pub fn name(&self) -> &str {
        &self.name
    }

    /// Returns the value, which lives as long as this does.
    pub fn into_inner(self) -> Arc<T> {
        self.value
    }
}

impl<T> Deref for Object<T> {
    type Target = T;

    fn deref(&self) -> &T {
        &self.value
    }
}

impl<T> From<Object<T>> for Value {
    fn from(object: Object<T>) -> Value {
        let captured: Array = [Value::U128(object.number)].into_iter().collect();
        Value::FnPtr(object.name.into(), captured)
    }
}

impl<T> IntoItem for Object<T> {}

impl<T: Any + Send + Sync> FromItem for Object<T> {}

impl<T: Any + Send + Sync> TryFrom<Value> for Object<T> {
    type Error = TryFromValueError;

    /// Fails for what is no object, for one of another type, and for one that was removed.
    fn try_from(value: Value) -> Result<Object<T>, TryFromValueError> {
        let Some(number) = number_in(&value) else {
            return Err(TryFromValueError::of_type(value, type_name::<T>()));
        };
        let Some(found) = Pool::find(number) else {
            return Err(TryFromValueError::new(value, "the object was removed"));
        };
        match (Arc::downcast(found), value) {
            (Ok(held), Value::FnPtr(name, _)) => Ok(Object { number, name: name.into(), value: held }),
            (_, value) => Err(TryFromValueError::of_type(value, type_name::<T>())),
        }
    }
}

impl<T> Clone for Object<T> {
    fn clone(&self) -> Object<T> {
        Object { number: self.number, name: self.name.clone(), value: Arc::clone(&self.value) }
    }
}

/// Compares identity: equal if they are clones of each other, or the same one as scripts hold it.
impl<T> PartialEq for Object<T> {
    fn eq(&self, other: &Object<T>) -> bool {
        self.number == other.number
    }
}

impl<T> Eq for Object<T> {}

impl<T> Hash for Object<T> {
    fn hash<H: Hasher>(&self, state: &mut H) {
        self.number.hash(state);
    }
}

impl<T: fmt::Debug> fmt::Debug for Object<T> {
    fn fmt(&self, f: &mut fmt::Formatter<'_>) -> fmt::Result {
        f.debug_struct("Object").field("name", &self.name).field("value", &self.value).finish_non_exhaustive()
    }
}
