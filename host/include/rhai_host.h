/* A world of script values, and scripts, for a program in C: written by `tools/host_declarations` from the lines of `crates/rhai_host`.
 *
 * What the program owes:
 * - It defines the three doors of memory, and calls RHAI_HOST_STAMP once, so that a library of other declarations doesn't link.
 * - A handle is zeros or what a call left. It stays on its thread and in its place while a call has it. One that is open is closed in the end.
 * - An address is never NULL, also where the length beside it is 0. What it leads to is there for the call, and is read or written that far.
 * - `told`, `stop`, `end` and `number` lead to a whole one; what was in it doesn't count.
 * - Indices, numbers and texts may be any: what is none gets a status or a refusal.
 * - A call wants 512 KB of stack; one that begins with `rhai_host_script_`, and `rhai_host_run_script`, wants 2 MB.
 *
 * A function that answers a `uint32_t` ends with a RHAI_HOST_STATUS_*. What it answers besides is in `told`; its text or bytes are fetched by
 * `rhai_host_answer`. Hash bytes say a value. Numbers are little-endian in their own width, a count has eight bytes.
 *
 *   unit; boolean       0; 1, then 0 or 1
 *   text; character     2, the number of bytes, UTF-8; 3, four bytes
 *   int                 4, eight bytes
 *   array               5, the number of items, the items
 *   blob                6, the number of bytes, the bytes
 *   map                 7, the number of entries, each key (number of bytes, UTF-8) with its value, by rising
 *                       keys
 *   function pointer    8, the name (number of bytes, UTF-8), the number of curried values, these
 *   number of the host  9, its kind (`u8` 0, `u16` 1, `u32` 2, `u64` 3, `u128` 4, `i8` 5, `i16` 6, `i32` 7,
 *                       `i128` 8), the number
 *   range               9, 9 without its end or 10 with it, both ends in eight bytes
 */
#ifndef RHAI_HOST_H
#define RHAI_HOST_H

#include <stdbool.h>
#include <stddef.h>
#include <stdint.h>

#ifdef __cplusplus
extern "C" {
#define RHAI_HOST_ASSERT(holds) static_assert(holds, #holds)
#define RHAI_HOST_ALIGN(type) alignof(type)
#else
#define RHAI_HOST_ASSERT(holds) _Static_assert(holds, #holds)
#define RHAI_HOST_ALIGN(type) _Alignof(type)
#endif

/* Whether there is memory, and where. Where there is none, the address is still not NULL. */
typedef struct RhaiHostBlock {
    bool is_there;
    void *at;
} RhaiHostBlock;

/* The doors: the program defines these three, and the library asks for memory by them alone.
 * `align` is at most 16. Of no bytes the address is not NULL either. */
RhaiHostBlock rattle_alloc(size_t size, size_t align);
/* Gives the block room for `size` bytes, of which the first `kept` count; where there is none, the old block stays. */
RhaiHostBlock rattle_realloc(void *at, size_t kept, size_t size, size_t align);
void rattle_dealloc(void *at);

#define RHAI_HOST_HANDLE_SIZE 16
#define RHAI_HOST_HANDLE_ALIGN 8

/* A world and what belongs to it, or nothing: a handle is open or closed. Memory that is all zeros is a closed
 * one. The host provides its memory, and reads no field of it. Dropping an open one leaks it. Its fields are the
 * library's alone. */
typedef struct RhaiHostHandle {
    bool is_open;
    void *at;
} RhaiHostHandle;
RHAI_HOST_ASSERT(sizeof(RhaiHostHandle) == RHAI_HOST_HANDLE_SIZE);
RHAI_HOST_ASSERT(RHAI_HOST_ALIGN(RhaiHostHandle) == RHAI_HOST_HANDLE_ALIGN);

/* What a closed handle begins with. */
#define RHAI_HOST_CLOSED {false, NULL}

/* Why a script stopped. The answer is what it printed, followed by what went wrong, if that isn't empty. */
typedef struct RhaiHostScriptStop {
    /* 0 it is done, 1 it executed as many operations as it might, 2 it calls the host, 3 it is before a statement, 4
     * an allocation failed, 5 it failed, 6 the text is not a valid script, 7 a function that a host function called
     * is done, 8 such a function failed. */
    uint32_t kind;
    /* The number of the host function being called; else 0. */
    uint32_t function;
    /* How many arguments it is called with; else 0. */
    size_t arguments;
    /* The line where it is, or where it went wrong, counted from 1; else 0. */
    uint32_t line;
    /* The column, counted from 1; else 0. */
    uint32_t column;
    /* How many operations the run has used so far, including those for the size of values. */
    uint64_t operations;
    /* How many bytes of the answer it printed. */
    size_t printed;
    /* How many bytes after these say what went wrong. */
    size_t said;
    /* What the value of a stop of kind 0 or 7 is, or the first argument at one of kind 2: 0 unit, 1 a boolean, 2 an
     * int; 6 there is none, or `rhai_host_script_value` or `rhai_host_script_argument` returns it. */
    uint32_t value_kind;
    /* What the second argument is. */
    uint32_t second_kind;
    /* What the third argument is. */
    uint32_t third_kind;
    /* That value or first argument: a boolean as 0 or 1, or an int; else 0. */
    int64_t value;
    /* The second argument. */
    int64_t second;
    /* The third argument. */
    int64_t third;
} RhaiHostScriptStop;

/* How a script ended. The answer is what it printed, followed by what went wrong. */
typedef struct RhaiHostScriptEnd {
    /* 0 it ran to its end, 1 the text is not a valid script, 2 it failed while running. */
    uint32_t kind;
    /* The line where it went wrong, counted from 1; else 0. */
    uint32_t line;
    /* The column where it went wrong, counted from 1; else 0. */
    uint32_t column;
    /* How many bytes of the answer it printed. */
    size_t printed;
    /* How many bytes after these say what went wrong. */
    size_t said;
} RhaiHostScriptEnd;

/* An answer in numbers. Further calls fetch its text, its bytes and the names of types. */
typedef struct RhaiHostTold {
    /* 0 done, 1 a boolean, 2 a number, 3 a text, 4 bytes, 5 two numbers, 6 nothing, 7 a refusal. */
    uint32_t kind;
    /* Which refusal; else 0. */
    uint32_t reason;
    /* A boolean as 0 or 1, the lower 64 bits of a number, a length in bytes, the first of two numbers, or which one
     * of a kind of refusals. */
    uint64_t low;
    /* The upper 64 bits of a number, the second of two numbers, or the length of a second name. */
    uint64_t high;
} RhaiHostTold;

/* How a call ended. */
enum {
    /* The command is done. */
    RHAI_HOST_STATUS_DONE = 0,
    /* An allocation failed, and nothing has changed. */
    RHAI_HOST_STATUS_OUT_OF_MEMORY = 1,
    /* No world is open. */
    RHAI_HOST_STATUS_CLOSED = 2,
    /* The input is not a command. */
    RHAI_HOST_STATUS_NO_COMMAND = 3,
    /* An allocation for the command's operands failed, and nothing has changed. */
    RHAI_HOST_STATUS_NO_ROOM = 4,
};

/* What an answer is. */
enum {
    RHAI_HOST_KIND_DONE = 0,
    RHAI_HOST_KIND_BOOL = 1,
    RHAI_HOST_KIND_INT = 2,
    RHAI_HOST_KIND_TEXT = 3,
    RHAI_HOST_KIND_BYTES = 4,
    RHAI_HOST_KIND_PAIR = 5,
    RHAI_HOST_KIND_NOTHING = 6,
    RHAI_HOST_KIND_REFUSED = 7,
};

/* Which refusal. */
enum {
    RHAI_HOST_REASON_NO_VALUE = 0,
    RHAI_HOST_REASON_SAME_VALUE = 1,
    RHAI_HOST_REASON_NO_ENTRY = 2,
    RHAI_HOST_REASON_EMPTY_SCOPE = 3,
    RHAI_HOST_REASON_CONSTANT_ENTRY = 4,
    RHAI_HOST_REASON_SHARED_ENTRY = 5,
    RHAI_HOST_REASON_NO_MARK = 6,
    RHAI_HOST_REASON_WRONG_SOURCE = 7,
    RHAI_HOST_REASON_BIT_PLACE = 8,
    RHAI_HOST_REASON_BYTE_PLACE = 9,
    RHAI_HOST_REASON_NO_BUILTIN = 10,
    RHAI_HOST_REASON_NOT_HASHABLE = 11,
    RHAI_HOST_REASON_MISMATCH = 12,
    RHAI_HOST_REASON_ERROR_MISMATCH_DATA_TYPE = 13,
    RHAI_HOST_REASON_ERROR_DATA_RACE = 14,
    RHAI_HOST_REASON_ERROR_ARITHMETIC = 15,
    RHAI_HOST_REASON_ERROR_DATA_TOO_LARGE = 16,
    RHAI_HOST_REASON_ERROR_MEMORY = 17,
};

/* Why an arithmetic operation has no answer. */
enum {
    RHAI_HOST_ARITHMETIC_OVERFLOW = 0,
    RHAI_HOST_ARITHMETIC_DIVISION_BY_ZERO = 1,
    RHAI_HOST_ARITHMETIC_NEGATIVE_POWER = 2,
    RHAI_HOST_ARITHMETIC_POWER_TOO_LARGE = 3,
};

/* Which limit a value would grow past. */
enum {
    RHAI_HOST_SIZE_TEXT = 0,
    RHAI_HOST_SIZE_ITEMS = 1,
};

/* How a script ended. */
enum {
    RHAI_HOST_END_DONE = 0,
    RHAI_HOST_END_SYNTAX = 1,
    RHAI_HOST_END_FAULT = 2,
};

/* The types. */
enum {
    RHAI_HOST_TYPE_UNIT = 0,
    RHAI_HOST_TYPE_BOOL = 1,
    RHAI_HOST_TYPE_CHAR = 2,
    RHAI_HOST_TYPE_INT = 3,
    RHAI_HOST_TYPE_U8 = 4,
    RHAI_HOST_TYPE_U16 = 5,
    RHAI_HOST_TYPE_U32 = 6,
    RHAI_HOST_TYPE_U64 = 7,
    RHAI_HOST_TYPE_U128 = 8,
    RHAI_HOST_TYPE_I8 = 9,
    RHAI_HOST_TYPE_I16 = 10,
    RHAI_HOST_TYPE_I32 = 11,
    RHAI_HOST_TYPE_I128 = 12,
    RHAI_HOST_TYPE_STRING = 13,
    RHAI_HOST_TYPE_IMMUTABLE_STRING = 14,
    RHAI_HOST_TYPE_ARRAY = 15,
    RHAI_HOST_TYPE_BLOB = 16,
    RHAI_HOST_TYPE_MAP = 17,
    RHAI_HOST_TYPE_FN_PTR = 18,
    RHAI_HOST_TYPE_EXCLUSIVE_RANGE = 19,
    RHAI_HOST_TYPE_INCLUSIVE_RANGE = 20,
    RHAI_HOST_TYPE_DYNAMIC = 21,
    RHAI_HOST_TYPE_SHARED = 22,
};

/* The operators. */
enum {
    RHAI_HOST_OPERATOR_PLUS = 0,
    RHAI_HOST_OPERATOR_MINUS = 1,
    RHAI_HOST_OPERATOR_MULTIPLY = 2,
    RHAI_HOST_OPERATOR_DIVIDE = 3,
    RHAI_HOST_OPERATOR_MODULO = 4,
    RHAI_HOST_OPERATOR_POWER_OF = 5,
    RHAI_HOST_OPERATOR_RIGHT_SHIFT = 6,
    RHAI_HOST_OPERATOR_LEFT_SHIFT = 7,
    RHAI_HOST_OPERATOR_AMPERSAND = 8,
    RHAI_HOST_OPERATOR_PIPE = 9,
    RHAI_HOST_OPERATOR_XOR = 10,
    RHAI_HOST_OPERATOR_EQUALS_TO = 11,
    RHAI_HOST_OPERATOR_NOT_EQUALS_TO = 12,
    RHAI_HOST_OPERATOR_GREATER_THAN = 13,
    RHAI_HOST_OPERATOR_GREATER_THAN_EQUALS_TO = 14,
    RHAI_HOST_OPERATOR_LESS_THAN = 15,
    RHAI_HOST_OPERATOR_LESS_THAN_EQUALS_TO = 16,
    RHAI_HOST_OPERATOR_EXCLUSIVE_RANGE = 17,
    RHAI_HOST_OPERATOR_INCLUSIVE_RANGE = 18,
    RHAI_HOST_OPERATOR_EQUALS = 19,
    RHAI_HOST_OPERATOR_PLUS_ASSIGN = 20,
    RHAI_HOST_OPERATOR_MINUS_ASSIGN = 21,
    RHAI_HOST_OPERATOR_MULTIPLY_ASSIGN = 22,
    RHAI_HOST_OPERATOR_DIVIDE_ASSIGN = 23,
    RHAI_HOST_OPERATOR_MODULO_ASSIGN = 24,
    RHAI_HOST_OPERATOR_POWER_OF_ASSIGN = 25,
    RHAI_HOST_OPERATOR_RIGHT_SHIFT_ASSIGN = 26,
    RHAI_HOST_OPERATOR_LEFT_SHIFT_ASSIGN = 27,
    RHAI_HOST_OPERATOR_AND_ASSIGN = 28,
    RHAI_HOST_OPERATOR_OR_ASSIGN = 29,
    RHAI_HOST_OPERATOR_XOR_ASSIGN = 30,
};

/* Returns an argument of the host function being called: unit, a boolean and an int as they are, and others as
 * their hash bytes. */
uint32_t rhai_host_script_argument(RhaiHostHandle *handle, size_t number, RhaiHostTold *told);

/* Returns the run's value, as `rhai_host_script_argument` does. */
uint32_t rhai_host_script_value(RhaiHostHandle *handle, RhaiHostTold *told);

/* Passes the value of these hash bytes to the script, as the result of the host function being called. */
uint32_t rhai_host_script_answer(RhaiHostHandle *handle, const uint8_t *value, size_t value_len);

/* Passes unit (kind 0), a boolean (1, true unless the number is 0) or an int (2) to the script, as the result of
 * the host function being called, and continues the run for at most this many operations. */
uint32_t rhai_host_script_answer_and_go(
    RhaiHostHandle *handle,
    uint32_t kind,
    int64_t number,
    uint64_t operations,
    RhaiHostScriptStop *stop);

/* Fails the call of the host function with a text, which the script may catch: it continues then, and the stop
 * is of kind 1. */
uint32_t rhai_host_script_refuse(
    RhaiHostHandle *handle,
    const uint8_t *why,
    size_t why_len,
    RhaiHostScriptStop *stop);

/* Returns the tag of the value at the hand position. */
uint32_t rhai_host_tag(RhaiHostHandle *handle, size_t i, RhaiHostTold *told);

/* Returns whether the value at the hand position is of one of the host's types. */
uint32_t rhai_host_is_variant(RhaiHostHandle *handle, size_t i, RhaiHostTold *told);

/* Returns whether the value at the hand position is a holder. */
uint32_t rhai_host_is_shared(RhaiHostHandle *handle, size_t i, RhaiHostTold *told);

/* Returns whether the first content of the value at the hand position is a constant. */
uint32_t rhai_host_is_read_only(RhaiHostHandle *handle, size_t i, RhaiHostTold *told);

/* Returns whether the value at the hand position is, or contains, a holder of a marked cell. */
uint32_t rhai_host_is_locked(RhaiHostHandle *handle, size_t i, RhaiHostTold *told);

/* Returns the name of the type held at the hand position. */
uint32_t rhai_host_type_name(RhaiHostHandle *handle, size_t i, RhaiHostTold *told);

/* Returns whether the value at the hand position can be hashed. */
uint32_t rhai_host_is_hashable(RhaiHostHandle *handle, size_t i, RhaiHostTold *told);

/* Succeeds if unit is held at the hand position. */
uint32_t rhai_host_as_unit(RhaiHostHandle *handle, size_t i, RhaiHostTold *told);

/* Returns the int held at the hand position. */
uint32_t rhai_host_as_int(RhaiHostHandle *handle, size_t i, RhaiHostTold *told);

/* Returns the boolean held at the hand position. */
uint32_t rhai_host_as_bool(RhaiHostHandle *handle, size_t i, RhaiHostTold *told);

/* Returns the character held at the hand position, as a text. */
uint32_t rhai_host_as_char(RhaiHostHandle *handle, size_t i, RhaiHostTold *told);

/* Returns the text of the value at the hand position, in display format. */
uint32_t rhai_host_show(RhaiHostHandle *handle, size_t i, RhaiHostTold *told);

/* Returns the text of the value at the hand position, in debug format. */
uint32_t rhai_host_debug(RhaiHostHandle *handle, size_t i, RhaiHostTold *told);

/* Returns the hash bytes of the value at the hand position. */
uint32_t rhai_host_hash(RhaiHostHandle *handle, size_t i, RhaiHostTold *told);

/* Returns where a slice of a list of this length starts and how many items it has, for a start and a number of
 * items. */
uint32_t rhai_host_offset(
    RhaiHostHandle *handle,
    size_t length,
    int64_t start,
    int64_t count,
    RhaiHostTold *told);

/* Returns the position of an item in a list of this length, or nothing; with the flag a negative index counts
 * from the end. */
uint32_t rhai_host_index(
    RhaiHostHandle *handle,
    size_t length,
    int64_t index,
    bool from_end,
    RhaiHostTold *told);

/* Compiles a script for the present variables. The host functions are a line each: the name, a space and the
 * number of arguments, then ` mut` if it may change the first one; the first function has number 0. An
 * unfinished run ends. What is wrong with the text is reported as a stop of kind 6. */
uint32_t rhai_host_script_compile(
    RhaiHostHandle *handle,
    const uint8_t *text,
    size_t text_len,
    const uint8_t *names,
    size_t names_len,
    RhaiHostScriptStop *stop);

/* Starts a run of the script over the variables, with the largest sizes of texts, arrays and maps, 0 meaning no
 * limit, and the deepest nesting of calls. Without its body, it has ended at once, and functions can be called. */
uint32_t rhai_host_script_begin(
    RhaiHostHandle *handle,
    size_t text,
    size_t items,
    size_t entries,
    size_t calls,
    bool with_body);

/* Sets whether the run stops before each statement. */
uint32_t rhai_host_script_stop_at_statements(RhaiHostHandle *handle, bool stops);

/* Sets whether this run and later ones note which printed lines are those of `debug`, for
 * `rhai_host_script_debugs`. */
uint32_t rhai_host_script_note_debugs(RhaiHostHandle *handle, bool notes);

/* Continues the run for at most this many operations. */
uint32_t rhai_host_script_go(RhaiHostHandle *handle, uint64_t operations, RhaiHostScriptStop *stop);

/* Starts a call of a function of the script with these arguments: the hash bytes of an array of them. The
 * script's body has to be done, and no call may be open. */
uint32_t rhai_host_script_call(
    RhaiHostHandle *handle,
    const uint8_t *name,
    size_t name_len,
    const uint8_t *arguments,
    size_t arguments_len);

/* Starts a run as `rhai_host_script_begin` does, of a script that has no statements outside functions, calls one
 * of its functions as `rhai_host_script_call` does, and continues for at most this many operations. NO_COMMAND
 * means that there is no run: the script has such statements, or no such function, or no operation is left for
 * the function, or it is not a script for these variables. A run of the script that is done is started again,
 * and keeps the variables until `rhai_host_script_end`. */
uint32_t rhai_host_script_call_at_once(
    RhaiHostHandle *handle,
    size_t text,
    size_t items,
    size_t entries,
    size_t calls,
    const uint8_t *name,
    size_t name_len,
    const uint8_t *arguments,
    size_t arguments_len,
    uint64_t operations,
    RhaiHostScriptStop *stop);

/* As `rhai_host_script_call_at_once`, with at most six arguments in numbers: each is unit (kind 0), a boolean
 * (1, true unless the number is 0) or an int (2, the number has its bits). */
uint32_t rhai_host_script_call_numbers(
    RhaiHostHandle *handle,
    size_t text,
    size_t items,
    size_t entries,
    size_t calls,
    const uint8_t *name,
    size_t name_len,
    const uint8_t *kinds,
    size_t kinds_len,
    const size_t *numbers,
    size_t numbers_len,
    uint64_t operations,
    RhaiHostScriptStop *stop);

/* Ends the run, wherever it is: its variables can be read and written then. */
uint32_t rhai_host_script_end(RhaiHostHandle *handle);

/* Keeps a function of a script, with the cells that it captured, and reports its number: the function in an
 * argument of the host function being called (source 0), the value that the run or a call within it has just
 * returned (source 1), or the function in a variable (source 2). NO_COMMAND means that there is no function. */
uint32_t rhai_host_function_keep(RhaiHostHandle *handle, uint32_t source, size_t at, size_t *number);

/* Keeps a pointer to the function with this name, whether a script has one or not, and reports its number.
 * NO_COMMAND means that the bytes are not a text. */
uint32_t rhai_host_function_of(RhaiHostHandle *handle, const uint8_t *name, size_t name_len, size_t *number);

/* Frees the kept function of this number, which another one may get. NO_COMMAND means that there is none. */
uint32_t rhai_host_function_let_go(RhaiHostHandle *handle, size_t number);

/* Returns the hash bytes of the kept function of this number: its name, and its curried values. */
uint32_t rhai_host_function_value(RhaiHostHandle *handle, size_t number, RhaiHostTold *told);

/* Passes the kept function of this number to the script, as the result of the host function being called.
 * NO_COMMAND means that none is being called, or that there is no such kept function. */
uint32_t rhai_host_function_answer(RhaiHostHandle *handle, size_t number);

/* Replaces the first argument of the host function being called by the value of these hash bytes. If the
 * function was compiled with ` mut`, the place that the argument came from has the new value once the function
 * has returned. NO_COMMAND means that no host function is being called, or that it has no arguments. */
uint32_t rhai_host_script_change(RhaiHostHandle *handle, const uint8_t *value, size_t value_len);

/* Starts a call of a kept function with these arguments: the hash bytes of an array of them. While a host
 * function is being called, the run continues to a stop of kind 7 or 8, after which that call is open as before,
 * or of kind 0, by `exit`, after which it is not. Otherwise the script's body has to be done, and no call may be
 * open. NO_COMMAND means that neither is the case, or that no such function takes this many arguments. */
uint32_t rhai_host_function_call(
    RhaiHostHandle *handle,
    size_t number,
    const uint8_t *arguments,
    size_t arguments_len);

/* Fails the call of the host function with the value of these hash bytes, as if the script had thrown it: the
 * script may catch it and continues then, and the stop is of kind 1. */
uint32_t rhai_host_script_throw(
    RhaiHostHandle *handle,
    const uint8_t *value,
    size_t value_len,
    RhaiHostScriptStop *stop);

/* Removes this many values from the end of the hand, and appends an array of them in order. */
uint32_t rhai_host_make_array(RhaiHostHandle *handle, size_t count, RhaiHostTold *told);

/* Appends a copy of the value at the hand position. */
uint32_t rhai_host_copy(RhaiHostHandle *handle, size_t i, RhaiHostTold *told);

/* Appends a copy of the value at the hand position, without its holders. */
uint32_t rhai_host_flatten_clone(RhaiHostHandle *handle, size_t i, RhaiHostTold *told);

/* Moves the value at the hand position to the end, and leaves unit in its place. */
uint32_t rhai_host_take(RhaiHostHandle *handle, size_t i, RhaiHostTold *told);

/* Drops the last value. */
uint32_t rhai_host_drop(RhaiHostHandle *handle, RhaiHostTold *told);

/* Moves the value at the hand position into a new cell, and leaves a holder of that cell. A holder is left as it
 * is. */
uint32_t rhai_host_share(RhaiHostHandle *handle, size_t i, RhaiHostTold *told);

/* Replaces a holder at the hand position with the held value, without its holders. */
uint32_t rhai_host_flatten(RhaiHostHandle *handle, size_t i, RhaiHostTold *told);

/* Makes the value at the hand position a constant. */
uint32_t rhai_host_make_read_only(RhaiHostHandle *handle, size_t i, RhaiHostTold *told);

/* Sets the tag of the value at the hand position. */
uint32_t rhai_host_set_tag(RhaiHostHandle *handle, size_t i, int32_t tag, RhaiHostTold *told);

/* Overwrites the int held at the hand position. */
uint32_t rhai_host_write_int(RhaiHostHandle *handle, size_t i, int64_t n, RhaiHostTold *told);

/* Overwrites the first content of the value at the first hand position with the value at the second, and leaves
 * unit at the second. */
uint32_t rhai_host_write(RhaiHostHandle *handle, size_t i, size_t j, RhaiHostTold *told);

/* Sets the tag of each value that a scan of the hand position visits, and returns how many there are. */
uint32_t rhai_host_scan_tags(RhaiHostHandle *handle, size_t i, int32_t tag, RhaiHostTold *told);

/* Sets each int that a scan of the hand position visits to 0, and returns how many values it visited. */
uint32_t rhai_host_scan_zero(RhaiHostHandle *handle, size_t i, RhaiHostTold *told);

/* Replaces each holder that a scan of the hand position visits with unit, and returns how many values it
 * visited. */
uint32_t rhai_host_scan_no_share(RhaiHostHandle *handle, size_t i, RhaiHostTold *told);

/* Truncates each array that a scan of the hand position visits to this many items, and returns how many values
 * it visited. */
uint32_t rhai_host_scan_cut(RhaiHostHandle *handle, size_t i, size_t count, RhaiHostTold *told);

/* Executes the command of a line; `docs/LINES.md` has the lines. */
uint32_t rhai_host_line(RhaiHostHandle *handle, const uint8_t *line, size_t line_len, RhaiHostTold *told);

/* Runs lines on a new world, and returns the bytes that they print; the handle's world is unchanged. */
uint32_t rhai_host_run_lines(
    RhaiHostHandle *handle,
    const uint8_t *input,
    size_t input_len,
    RhaiHostTold *told);

/* Returns the journal of the commands in these lines: the lines as the library writes them, in order, each with
 * a line feed. */
uint32_t rhai_host_journal(
    RhaiHostHandle *handle,
    const uint8_t *lines,
    size_t lines_len,
    RhaiHostTold *told);

/* Removes as many values from the end of the hand as there are keys, and appends the map from the keys to these
 * values, in order; for duplicate keys the last value counts. */
uint32_t rhai_host_make_map(RhaiHostHandle *handle, const size_t *keys, size_t keys_len, RhaiHostTold *told);

/* Removes as many values from the end of the hand as there are names, and adds a writable entry for each name
 * and value. */
uint32_t rhai_host_extend(RhaiHostHandle *handle, const size_t *names, size_t names_len, RhaiHostTold *told);

/* Removes as many values from the end of the hand as there are names, and adds an entry for each name and value;
 * it is a constant if its flag is set. */
uint32_t rhai_host_extend_flagged(
    RhaiHostHandle *handle,
    const size_t *names,
    size_t names_len,
    const bool *constants,
    size_t constants_len,
    RhaiHostTold *told);

/* Gives the newest entry with the name this alias, unless it has it; an empty alias means the name itself. */
uint32_t rhai_host_set_alias(
    RhaiHostHandle *handle,
    size_t name,
    const uint8_t *alias,
    size_t alias_len,
    RhaiHostTold *told);

/* Appends the unit value. */
uint32_t rhai_host_put_unit(RhaiHostHandle *handle, RhaiHostTold *told);

/* Appends a boolean. */
uint32_t rhai_host_put_bool(RhaiHostHandle *handle, bool truth, RhaiHostTold *told);

/* Appends an int. */
uint32_t rhai_host_put_int(RhaiHostHandle *handle, int64_t n, RhaiHostTold *told);

/* Appends the range from one int to another, end excluded. */
uint32_t rhai_host_put_range(RhaiHostHandle *handle, int64_t start, int64_t end, RhaiHostTold *told);

/* Appends the range from one int to another, end included. */
uint32_t rhai_host_put_range_with_end(RhaiHostHandle *handle, int64_t start, int64_t end, RhaiHostTold *told);

/* Appends a `u8` of the host. */
uint32_t rhai_host_put_u8(RhaiHostHandle *handle, uint8_t n, RhaiHostTold *told);

/* Appends a `u16` of the host. */
uint32_t rhai_host_put_u16(RhaiHostHandle *handle, uint16_t n, RhaiHostTold *told);

/* Appends a `u32` of the host. */
uint32_t rhai_host_put_u32(RhaiHostHandle *handle, uint32_t n, RhaiHostTold *told);

/* Appends a `u64` of the host. */
uint32_t rhai_host_put_u64(RhaiHostHandle *handle, uint64_t n, RhaiHostTold *told);

/* Appends an `i8` of the host. */
uint32_t rhai_host_put_i8(RhaiHostHandle *handle, int8_t n, RhaiHostTold *told);

/* Appends an `i16` of the host. */
uint32_t rhai_host_put_i16(RhaiHostHandle *handle, int16_t n, RhaiHostTold *told);

/* Appends an `i32` of the host. */
uint32_t rhai_host_put_i32(RhaiHostHandle *handle, int32_t n, RhaiHostTold *told);

/* Removes the mark at this position from the list, and unlocks its cell. Later marks move up. */
uint32_t rhai_host_unmark(RhaiHostHandle *handle, size_t mark, RhaiHostTold *told);

/* Moves the value at the hand position into the cell of the mark at this position, and leaves unit in its place. */
uint32_t rhai_host_write_marked(RhaiHostHandle *handle, size_t mark, size_t i, RhaiHostTold *told);

/* Appends a copy of the content of the cell of the mark at this position. */
uint32_t rhai_host_read_marked(RhaiHostHandle *handle, size_t mark, RhaiHostTold *told);

/* Returns the name of a number, as a text. */
uint32_t rhai_host_name_text(RhaiHostHandle *handle, size_t number, RhaiHostTold *told);

/* Returns the name of the entry at this position, counted from the oldest, as a text, and reports whether the
 * entry is a constant. */
uint32_t rhai_host_entry(RhaiHostHandle *handle, size_t i, bool *is_constant, RhaiHostTold *told);

/* Removes this many values from the end of the hand, and appends the function pointer of the name with these
 * values curried in order. */
uint32_t rhai_host_make_fn(RhaiHostHandle *handle, size_t name, size_t count, RhaiHostTold *told);

/* Moves the value at the hand position into a new writable entry with the name, and leaves unit in its place. */
uint32_t rhai_host_push(RhaiHostHandle *handle, size_t name, size_t i, RhaiHostTold *told);

/* Moves the value at the hand position into a new entry with the name, and leaves unit in its place. The entry
 * is a constant if the value is. */
uint32_t rhai_host_push_dynamic(RhaiHostHandle *handle, size_t name, size_t i, RhaiHostTold *told);

/* Moves the value at the hand position into a new constant entry with the name, and leaves unit in its place. */
uint32_t rhai_host_push_constant(RhaiHostHandle *handle, size_t name, size_t i, RhaiHostTold *told);

/* Replaces the value of the newest entry with the name by the value at the hand position, and leaves unit in its
 * place. */
uint32_t rhai_host_set_entry(RhaiHostHandle *handle, size_t name, size_t i, RhaiHostTold *told);

/* Moves the value at the hand position into the newest entry with the name, or into a new entry if there is none
 * or it may not be written. */
uint32_t rhai_host_set_or_push(RhaiHostHandle *handle, size_t name, size_t i, RhaiHostTold *told);

/* Moves the value at the hand position into the newest entry with the name, or into a new entry if there is
 * none. */
uint32_t rhai_host_set_value(RhaiHostHandle *handle, size_t name, size_t i, RhaiHostTold *told);

/* Returns whether an entry has the name. */
uint32_t rhai_host_contains(RhaiHostHandle *handle, size_t name, RhaiHostTold *told);

/* Returns the position of the newest entry with the name, counted from 0, or nothing. */
uint32_t rhai_host_search(RhaiHostHandle *handle, size_t name, RhaiHostTold *told);

/* Returns whether the newest entry with the name is a constant, or nothing. */
uint32_t rhai_host_is_constant(RhaiHostHandle *handle, size_t name, RhaiHostTold *told);

/* Appends a copy of the value of the newest entry with the name. */
uint32_t rhai_host_get(RhaiHostHandle *handle, size_t name, RhaiHostTold *told);

/* Overwrites the int that the newest entry with the name itself is; returns nothing if there is no such int. */
uint32_t rhai_host_set_ref(RhaiHostHandle *handle, size_t name, int64_t value, RhaiHostTold *told);

/* Returns the aliases of the newest entry with the name, one a line. */
uint32_t rhai_host_aliases(RhaiHostHandle *handle, size_t name, RhaiHostTold *told);

/* Opens a world with these limits, 0 meaning no limit, and closes the one that was open before. */
uint32_t rhai_host_new(RhaiHostHandle *handle, size_t text, size_t items);

/* Closes the world, if one is open. */
void rhai_host_close(RhaiHostHandle *handle);

/* Returns whether a world is open. */
bool rhai_host_is_open(const RhaiHostHandle *handle);

/* Assigns a number to a name, which commands use in its place. It only allocates a slot if no freed number is
 * available. */
uint32_t rhai_host_name(RhaiHostHandle *handle, const uint8_t *text, size_t text_len, size_t *number);

/* Returns how many values are in the hand, 0 where no world is open. */
size_t rhai_host_hand_len(RhaiHostHandle *handle);

/* Copies the bytes of the last text, bytes or refusal that was returned, or those of its second name, as far as
 * there is room; returns how many there are. */
size_t rhai_host_answer(RhaiHostHandle *handle, bool second, uint8_t *room, size_t room_len);

/* Frees the number of a name. A new name may get it. */
uint32_t rhai_host_forget_name(RhaiHostHandle *handle, size_t number);

/* Frees each unreachable cell. */
uint32_t rhai_host_collect(RhaiHostHandle *handle);

/* Returns how many bytes a handle takes. */
size_t rhai_host_handle_size(void);

/* Returns the alignment of a handle. */
size_t rhai_host_handle_align(void);

/* Locks the cell of the holder at the place: from then on it is read and written only through the mark. Appends
 * the mark to the list of marks. */
uint32_t rhai_host_mark(RhaiHostHandle *handle, bool is_entry, size_t at, RhaiHostTold *told);

/* Writes the boolean at the hand position to this bit of the int at the place. */
uint32_t rhai_host_write_bit(
    RhaiHostHandle *handle,
    bool is_entry,
    size_t at,
    uint8_t bit,
    size_t j,
    RhaiHostTold *told);

/* Writes the int at the hand position, shifted left, to the bits of the mask in the int at the place. */
uint32_t rhai_host_write_field(
    RhaiHostHandle *handle,
    bool is_entry,
    size_t at,
    int64_t mask,
    uint8_t shift,
    size_t j,
    RhaiHostTold *told);

/* Writes the int at the hand position to the byte at this index of the blob at the place. */
uint32_t rhai_host_write_byte(
    RhaiHostHandle *handle,
    bool is_entry,
    size_t at,
    size_t index,
    size_t j,
    RhaiHostTold *told);

/* Writes the character at the hand position over the character at this index of the text at the place. */
uint32_t rhai_host_write_char(
    RhaiHostHandle *handle,
    bool is_entry,
    size_t at,
    size_t index,
    size_t j,
    RhaiHostTold *told);

/* Replaces the characters from the first index up to the second one with the printed value at the hand position.
 * The second one is replaced too, unless the slice is exclusive. */
uint32_t rhai_host_write_slice(
    RhaiHostHandle *handle,
    bool is_entry,
    size_t at,
    size_t start,
    size_t end,
    bool exclusive,
    size_t j,
    RhaiHostTold *told);

/* Drops the last entry. */
uint32_t rhai_host_pop(RhaiHostHandle *handle, RhaiHostTold *told);

/* Keeps the oldest entries, as many as the number says, and drops the others. */
uint32_t rhai_host_rewind(RhaiHostHandle *handle, size_t count, RhaiHostTold *told);

/* Drops all entries. */
uint32_t rhai_host_clear(RhaiHostHandle *handle, RhaiHostTold *told);

/* Returns how many entries there are. */
uint32_t rhai_host_len(RhaiHostHandle *handle, RhaiHostTold *told);

/* Returns whether there are no entries. */
uint32_t rhai_host_is_empty(RhaiHostHandle *handle, RhaiHostTold *told);

/* Keeps a copy of the newest entry of each name, newest first. */
uint32_t rhai_host_keep_visible(RhaiHostHandle *handle, RhaiHostTold *told);

/* Replaces the scope with a copy of all entries. */
uint32_t rhai_host_copy_scope(RhaiHostHandle *handle, RhaiHostTold *told);

/* Appends copies of the values of all entries, without their holders. */
uint32_t rhai_host_entries(RhaiHostHandle *handle, RhaiHostTold *told);

/* Returns the names of the entries, newest first, one a line, with `const ` before that of a constant. */
uint32_t rhai_host_names(RhaiHostHandle *handle, RhaiHostTold *told);

/* Returns the text of the scope. */
uint32_t rhai_host_show_scope(RhaiHostHandle *handle, RhaiHostTold *told);

/* Returns the hash bytes of the scope. */
uint32_t rhai_host_hash_scope(RhaiHostHandle *handle, RhaiHostTold *told);

/* Runs a script on values of its own, with limits on the sizes of texts and of arrays, 0 meaning no limit, on
 * operations, and on nested calls. What it prints is the answer, followed by what went wrong; the handle's world
 * is unchanged. */
uint32_t rhai_host_run_script(
    RhaiHostHandle *handle,
    const uint8_t *script,
    size_t script_len,
    size_t text,
    size_t items,
    uint64_t operations,
    size_t calls,
    RhaiHostScriptEnd *end);

/* Returns a snapshot: of the active functions with their visible variables while there is a run, otherwise of
 * the variables alone. `Engine::snapshot` describes the bytes. */
uint32_t rhai_host_script_snapshot(RhaiHostHandle *handle, RhaiHostTold *told);

/* Returns a snapshot of the world: the byte 2; the byte 1 for each open mark, the oldest first, and 0 after the
 * last one; the entries, the newest first, each behind the byte 1, and 0 after the last one; the values of the
 * hand in the same way; and what each cell holds. The first cells are those of the marks. */
uint32_t rhai_host_snapshot(RhaiHostHandle *handle, RhaiHostTold *told);

/* Returns the name of an active function, and reports where it is: number 0 runs, or failed, and each is called
 * by the next. The name is empty for the statements outside functions, and begins with `anon$` for a closure.
 * NO_COMMAND means that there is no such function. */
uint32_t rhai_host_script_function(
    RhaiHostHandle *handle,
    size_t number,
    size_t *line,
    size_t *column,
    RhaiHostTold *told);

/* Returns which lines `debug` printed of those that the last stop reported, for each four numbers of eight
 * bytes: how many printed bytes are before it, how many it has with its line feed, and the line and column of
 * the call. Each is returned once. There are none before `rhai_host_script_note_debugs`. */
uint32_t rhai_host_script_debugs(RhaiHostHandle *handle, RhaiHostTold *told);

/* Returns the name of the newest visible variable of an active function before the one of this number, and
 * reports its own number: starting from the largest number, each leads to the next. NO_COMMAND means that there
 * is none. */
uint32_t rhai_host_script_variable(
    RhaiHostHandle *handle,
    size_t function,
    size_t before,
    size_t *number,
    RhaiHostTold *told);

/* Returns the value of that variable, as `rhai_host_script_argument` does. NO_COMMAND means that there is none,
 * or that its value has no hash bytes. */
uint32_t rhai_host_script_variable_value(
    RhaiHostHandle *handle,
    size_t function,
    size_t before,
    RhaiHostTold *told);

/* Replaces the variables by those of a snapshot without functions, with everything that they share. A run ends,
 * and functions that the host kept are freed. NO_COMMAND means that the bytes are no such snapshot; the
 * variables are unchanged then. */
uint32_t rhai_host_script_restore(RhaiHostHandle *handle, const uint8_t *bytes, size_t bytes_len);

/* Appends a `u128` of the host, passed as its lower and its upper 64 bits. */
uint32_t rhai_host_put_u128(RhaiHostHandle *handle, uint64_t low, uint64_t high, RhaiHostTold *told);

/* Appends an `i128` of the host, passed as the lower and the upper 64 bits of its two's complement. */
uint32_t rhai_host_put_i128(RhaiHostHandle *handle, uint64_t low, uint64_t high, RhaiHostTold *told);

/* Appends a text of these bytes, which are UTF-8. */
uint32_t rhai_host_put_text(RhaiHostHandle *handle, const uint8_t *text, size_t text_len, RhaiHostTold *told);

/* Appends a blob of these bytes. */
uint32_t rhai_host_put_blob(
    RhaiHostHandle *handle,
    const uint8_t *bytes,
    size_t bytes_len,
    RhaiHostTold *told);

/* Appends the character with this code. */
uint32_t rhai_host_put_char(RhaiHostHandle *handle, uint32_t code, RhaiHostTold *told);

/* Appends the value at the hand position cast to this type, copied without its holders. */
uint32_t rhai_host_cast(RhaiHostHandle *handle, size_t i, uint32_t kind, RhaiHostTold *told);

/* Returns whether this type is held at the hand position. */
uint32_t rhai_host_is_held(RhaiHostHandle *handle, size_t i, uint32_t kind, RhaiHostTold *told);

/* Returns whether the value at the hand position is of this type: by its variant, or for a holder by the held
 * type. */
uint32_t rhai_host_is_type(RhaiHostHandle *handle, size_t i, uint32_t kind, RhaiHostTold *told);

/* Appends the operator's result for the values at the two hand positions. */
uint32_t rhai_host_binary(RhaiHostHandle *handle, uint32_t operator_, size_t i, size_t j, RhaiHostTold *told);

/* Applies the operator's assignment to the value at the place and the value at the hand position. */
uint32_t rhai_host_assign(
    RhaiHostHandle *handle,
    uint32_t operator_,
    bool is_entry,
    size_t at,
    size_t j,
    RhaiHostTold *told);

/* Appends the value of the newest entry with the name cast to this type, copied without its holders; returns
 * nothing if there is no such value. */
uint32_t rhai_host_get_value(RhaiHostHandle *handle, size_t name, uint32_t kind, RhaiHostTold *told);

/* Appends a copy of the newest entry's own value as a reference of this type; returns nothing if there is no
 * such value. */
uint32_t rhai_host_get_ref(RhaiHostHandle *handle, size_t name, uint32_t kind, RhaiHostTold *told);

/* Removes the newest entry with the name, and appends its value cast to this type, without its holders; returns
 * nothing if there is no such value. */
uint32_t rhai_host_remove(RhaiHostHandle *handle, size_t name, uint32_t kind, RhaiHostTold *told);

/* Declares a variable after the others, with the value of these hash bytes. */
uint32_t rhai_host_variable_push(
    RhaiHostHandle *handle,
    const uint8_t *name,
    size_t name_len,
    const uint8_t *value,
    size_t value_len);

/* Overwrites the variable of this number, the oldest being 0, with the value of these hash bytes. If closures
 * share the variable, they see the new value. */
uint32_t rhai_host_variable_set(
    RhaiHostHandle *handle,
    size_t number,
    const uint8_t *value,
    size_t value_len);

/* Drops the variables from this number on. */
uint32_t rhai_host_variable_rewind(RhaiHostHandle *handle, size_t count);

/* Returns the number of variables, 0 if no world is open. */
size_t rhai_host_variable_count(RhaiHostHandle *handle);

/* Returns the name of the variable of this number. */
uint32_t rhai_host_variable_name(RhaiHostHandle *handle, size_t number, RhaiHostTold *told);

/* Returns the value of the variable of this number, as `rhai_host_script_argument` does. */
uint32_t rhai_host_variable_value(RhaiHostHandle *handle, size_t number, RhaiHostTold *told);

/* Does nothing: its name is a sum of all that is exported, so that a host of other declarations doesn't link. */
void rhai_host_stamp_3b4407ede9898e77(void);

#define RHAI_HOST_STAMP rhai_host_stamp_3b4407ede9898e77

#undef RHAI_HOST_ASSERT
#undef RHAI_HOST_ALIGN

#ifdef __cplusplus
}
#endif

#endif
