//! A guide for programs that embed rhai or Lua: what is the same here, what has another name, and
//! what is missing and why.
//!
//! # From rhai
//!
//! | `rhai::Engine` | here |
//! |---|---|
//! | `new` | [`Engine::new`](crate::Engine::new) |
//! | `new_raw`, `register_global_module` | missing: the functions of the packages belong to the library, and the language has no modules |
//! | `compile` | [`compile`](crate::Engine::compile) |
//! | `compile_with_scope` | `compile`: a run compiles a script again for the variables that it runs over |
//! | `compile_file`, `eval_file`, `run_file` | missing: the program reads its files |
//! | `compile_expression`, `eval_expression` | missing: the language has no expression-only form |
//! | `eval`, `eval_with_scope`, `eval_ast`, `eval_ast_with_scope` | the same |
//! | `run`, `run_with_scope`, `run_ast`, `run_ast_with_scope` | the same |
//! | `call_fn` | [`call_fn`](crate::Engine::call_fn), and in pieces [`start_fn`](crate::Engine::start_fn) |
//! | `call_fn_with_options` | missing: a function that the host calls by its name has no `this` |
//! | `FnPtr::new`, its `call`, `call_within_context` | [`Scope::function`](crate::Scope::function), [`call`](crate::Function::call), [`call_within_context`](crate::Function::call_within_context) |
//! | `NativeCallContext` | [`Call`](crate::Call), as `&mut`: its [`call`](crate::Call::call), [`call_fn`](crate::Call::call_fn), its position and operations |
//! | `register_fn` | [`register_fn`](crate::Engine::register_fn), with up to six parameters, the first of which may be `&mut`; an error is any type that implements `Display` |
//! | `register_type`, `Dynamic::from` of a type of the program | [`Objects`](crate::Objects): scripts hold them by number; functions take an [`Object`](crate::Object) |
//! | `register_get`, `register_set`, `register_indexer_get` | missing: register functions, called as methods |
//! | `register_iterator`, `register_custom_operator`, `register_custom_syntax` | missing: the proved language is fixed |
//! | `on_print`, `on_debug` | [`on_print`](crate::Engine::on_print), a line at a time; [`on_debug`](crate::Engine::on_debug), with the line and the column |
//! | `on_progress` | [`on_progress`](crate::Engine::on_progress), at least every 1,024 operations; its error is [`Terminated`](crate::EvalError::Terminated) |
//! | `on_var`, `on_def_var`, `on_parse_token` | missing: names are resolved when a script is compiled |
//! | `register_debugger`, its `call_stack` | [`on_statement`](crate::Engine::on_statement), [`Run::stop_at_statements`](crate::Run::stop_at_statements), [`Run::calls`](crate::Run::calls), [`Run::variables`](crate::Run::variables) |
//! | `set_max_operations`, `set_max_call_levels`, `set_max_string_size`, `set_max_array_size` | the same |
//! | `set_max_map_size`, `set_max_variables`, `set_max_functions` | [`set_max_memory`](crate::Engine::set_max_memory) bounds them all |
//! | `set_max_expr_depths` | missing: a script nests at most 64 levels deep, and its calls use no native stack |
//! | `set_max_modules`, `set_module_resolver` | missing: the language has no modules |
//! | `set_optimization_level`, `set_strict_variables`, `disable_symbol` | missing: there is one compiler, and an unknown name is an error where it is used |
//!
//! | more of rhai | here |
//! |---|---|
//! | `Scope::new` | [`Scope::new`](crate::Scope::new), which can fail to allocate |
//! | `push`, `set_value`, `get_value` | [`push`](crate::Scope::push), [`set`](crate::Scope::set), [`get`](crate::Scope::get) or [`try_get`](crate::Scope::try_get) |
//! | `contains`, `len`, `is_empty`, `clear`, `rewind`, `iter` | the same |
//! | `clone`, and `Serialize` with the feature `serde` | [`save`](crate::Scope::save), and [`Saved::restore`](crate::Saved::restore), also on another thread |
//! | `push_constant`, `is_constant`, `remove`, `set_alias` | missing: the library offers them only for the scope of a [`World`](crate::World) |
//! | `Dynamic` | [`Value`](crate::Value), which shares nothing |
//! | `EvalAltResult`, `ParseError`, `Position` | [`EvalError`](crate::EvalError), with [`position`](crate::EvalError::position) and [`calls`](crate::EvalError::calls) |
//! | `AST` | [`Ast`](crate::Ast): its text; a scope keeps the code |
//! | the feature `sync` | an engine and a script can go to other threads; a scope stays on its own |
//!
//! # From mlua
//!
//! | `mlua::Lua` | here |
//! |---|---|
//! | `new` | [`Engine::new`](crate::Engine::new) for the functions, [`Scope::new`](crate::Scope::new) for the variables |
//! | `load(text).exec()`, `.eval()` | [`run`](crate::Engine::run), [`eval`](crate::Engine::eval) |
//! | `load(text).into_function()` | [`compile`](crate::Engine::compile) |
//! | `globals().set`, `.get` | [`Scope::push`](crate::Scope::push) or [`set`](crate::Scope::set), [`Scope::get`](crate::Scope::get) |
//! | `create_function`, `Function` | [`register_fn`](crate::Engine::register_fn), [`Function`](crate::Function), which its scope keeps |
//! | `create_table`, `create_string` | [`Map`](crate::Map), [`Array`](crate::Array) and `String` are Rust values |
//! | `create_userdata`, `AnyUserData` | [`Objects::add`](crate::Objects::add), [`Object`](crate::Object): the program says how long they live, [`retain_in`](crate::Objects::retain_in) frees what a scope doesn't hold |
//! | `register_userdata_type`, `UserData::add_methods` | registered functions with an [`Object`](crate::Object) as the first parameter |
//! | `create_thread`, `Thread::resume` | [`start`](crate::Engine::start), [`Run::go`](crate::Run::go): the program pauses a run, a script can't |
//! | `create_async_function`, `call_async` | missing: a task executes a run in pieces |
//! | `set_memory_limit`, `used_memory` | [`set_max_memory`](crate::Engine::set_max_memory), [`Scope::memory`](crate::Scope::memory) |
//! | `set_hook` by instructions, `set_interrupt` | [`on_progress`](crate::Engine::on_progress), [`interrupt`](crate::Engine::interrupt), [`set_max_time`](crate::Engine::set_max_time), [`set_deadline`](crate::Engine::set_deadline) |
//! | `set_hook` by lines | [`on_statement`](crate::Engine::on_statement) |
//! | `inspect_stack`, `Debug` | [`Run::calls`](crate::Run::calls), [`Run::variables`](crate::Run::variables) |
//! | `gc_collect`, `gc_stop` | missing: unreachable cells are freed as a script runs |
//! | `sandbox` | not needed: a script reaches only what was registered |
//! | `require`, `load_std_libs` | missing: the language has no modules |
//! | `FromLua`, `IntoLua` | `TryFrom<Value>`, `Into<Value>` or `TryInto<Value>`; [`FromItem`](crate::FromItem), [`IntoItem`](crate::IntoItem) |
//! | `Error` | [`EvalError`](crate::EvalError) |
