//! Limits on what a script makes: nested calls, sizes of values, and memory.
use super::Engine;
use std::num::NonZeroUsize;

/// Limits on sizes.
impl Engine {
    /// Limits how deep calls may nest.
    ///
    /// ```
    /// use rhai_world::{Engine, EvalError};
    ///
    /// let mut engine = Engine::new();
    /// engine.set_max_call_levels(10).set_max_string_size(100).set_max_array_size(100).set_max_map_size(100);
    /// assert!(engine.run("fn f(n) { if n > 0 { f(n - 1); } } f(20)").is_err());
    /// assert!(engine.run("let text = \"ab\"; loop { text += text; }").is_err());
    /// assert!(engine.run("let items = []; loop { items.push(1); }").is_err());
    /// assert!(engine.run("let fields = #{}; for i in 0..200 { fields[\"key \" + i] = i; }").is_err());
    /// # Ok::<(), EvalError>(())
    /// ```
    pub fn set_max_call_levels(&mut self, calls: usize) -> &mut Engine {
        self.calls = calls;
        self
    }

    /// Limits the bytes of a script's texts; 0 means no limit.
    pub fn set_max_string_size(&mut self, bytes: usize) -> &mut Engine {
        self.limits = self.limits.with_text(NonZeroUsize::new(bytes));
        self
    }

    /// Limits the items of a script's arrays and the bytes of its blobs; 0 means no limit.
    pub fn set_max_array_size(&mut self, items: usize) -> &mut Engine {
        self.limits = self.limits.with_items(NonZeroUsize::new(items));
        self
    }

    /// Limits the entries of a script's maps; 0 means no limit.
    pub fn set_max_map_size(&mut self, entries: usize) -> &mut Engine {
        self.entries = entries;
        self
    }

    /// Limits the bytes of memory that a scope may hold while a script is compiled or runs over it;
    /// 0 means no limit. A run that needs more ends with [`EvalError::OutOfMemory`](crate::EvalError::OutOfMemory), which no
    /// script can catch. The variables keep their values, and the program may read and write them
    /// without that limit. The scope keeps the stack that a run allocated.
    /// [`World::set_max_memory`](crate::World::set_max_memory) says how bytes are counted; memory
    /// of the program's own functions isn't.
    ///
    /// ```
    /// use rhai_world::{Engine, EvalError, Scope};
    ///
    /// let mut engine = Engine::new();
    /// engine.set_max_memory(1_000_000);
    /// let mut scope = Scope::new()?;
    /// let run = engine.run_with_scope(&mut scope, "let n = 7; let all = []; loop { all.push(n); }");
    /// assert!(matches!(run, Err(EvalError::OutOfMemory { line: 1, .. })));
    /// assert_eq!(scope.get::<i64>("n"), Some(7));
    /// # Ok::<(), EvalError>(())
    /// ```
    pub fn set_max_memory(&mut self, bytes: usize) -> &mut Engine {
        self.limits = self.limits.with_memory(NonZeroUsize::new(bytes));
        self
    }
}
