"""The C header host/include/rhai_host.h, which tools/host_declarations writes from the same exports as Rust's declarations."""
import re
import textwrap

WIDTH = 110
SLICES = {"&[u8]": "uint8_t", "&[usize]": "size_t", "&[bool]": "bool"}
WORDS = {"operator", "new", "this", "class", "delete", "and", "or", "not", "xor", "private", "public", "template", "typename", "using", "try", "catch", "throw"}
NUMBERS = {"bool": "bool", "usize": "size_t", **{f"{sign}{bits}": f"{'u' * (sign == 'u')}int{bits}_t" for sign in "ui" for bits in (8, 16, 32, 64)}}

TOP = """\
/* A world of script values, and scripts, for a program in C: written by `tools/host_declarations` from the lines of `crates/rhai_host`.
 *
 * What the program owes:
 * - It defines the three doors of memory, and calls RHAI_HOST_STAMP once, so that a library of other declarations doesn't link.
 * - A handle is zeros or what a call left. It stays on its thread and in its place while a call has it. One that is open is closed in the end.
 * - An address is never NULL, also where the length beside it is 0. What it leads to is there for the call, and is read or written that far.
 * - `told`, `stop`, `end` and `number` lead to a whole one; what was in it doesn't count.
 * - Indices, numbers and texts may be any: what is none gets a status or a refusal.
 * - A call wants 512 KB of stack; one that begins with `rhai_host_script_`, and `rhai_host_run_script`, wants 2 MB.
 *
 * A function that answers a `uint32_t` ends with a RHAI_HOST_STATUS_*. What it answers besides is in `told`; its text or bytes are fetched by
 * `rhai_host_answer`. Hash bytes say a value. Numbers are little-endian in their own width, a count has eight bytes.
 *
@BYTES@ */
#ifndef RHAI_HOST_H
#define RHAI_HOST_H

#include <stdbool.h>
#include <stddef.h>
#include <stdint.h>

#ifdef __cplusplus
extern "C" {
#define RHAI_HOST_ASSERT(holds) static_assert(holds, #holds)
#define RHAI_HOST_ALIGN(type) alignof(type)
#else
#define RHAI_HOST_ASSERT(holds) _Static_assert(holds, #holds)
#define RHAI_HOST_ALIGN(type) _Alignof(type)
#endif

/* Whether there is memory, and where. Where there is none, the address is still not NULL. */
typedef struct RhaiHostBlock {
    bool is_there;
    void *at;
} RhaiHostBlock;

/* The doors: the program defines these three, and the library asks for memory by them alone.
 * `align` is at most 16. Of no bytes the address is not NULL either. */
RhaiHostBlock rattle_alloc(size_t size, size_t align);
/* Gives the block room for `size` bytes, of which the first `kept` count; where there is none, the old block stays. */
RhaiHostBlock rattle_realloc(void *at, size_t kept, size_t size, size_t align);
void rattle_dealloc(void *at);
"""

BOTTOM = """
#undef RHAI_HOST_ASSERT
#undef RHAI_HOST_ALIGN

#ifdef __cplusplus
}
#endif

#endif
"""


def upper(name):
    """Returns the name of a variant as a C constant."""
    return re.sub(r"(?<=[a-z0-9])(?=[A-Z])", "_", name).upper()


def struct_name(name):
    """Returns the name of a struct in C: no function has it."""
    return f"RhaiHost{name}"


def comment(docs, indent=""):
    """Returns a C comment from Rust's docs."""
    text = " ".join(filter(None, (it.strip().removeprefix("///").strip() for it in docs.strip().split("\n"))))
    if "*/" in text:
        raise ValueError(f"a comment ends in {text}")
    lines = textwrap.wrap(text, WIDTH, break_long_words=False, break_on_hyphens=False)
    return indent + "/* " + f"\n{indent} * ".join(lines) + " */\n"


def parameter(name, kind):
    """Returns a parameter's C declaration, or None if C has no form for it. A keyword of C++ gets an underscore after it."""
    name += "_" * (name in WORDS)
    if kind in SLICES:
        return [f"const {SLICES[kind]} *{name}", f"size_t {name}_len"]
    if kind == "&mut [u8]":
        return [f"uint8_t *{name}", f"size_t {name}_len"]
    if kind == "&Handle":
        return [f"const RhaiHostHandle *{name}"]
    if kind in NUMBERS:
        return [f"{NUMBERS[kind]} {name}"]
    bare = kind.removeprefix("&mut ")
    if bare != kind and (bare in NUMBERS or bare[0].isupper()):
        return [f"{NUMBERS.get(bare) or struct_name(bare)} *{name}"]
    return None


def declared(docs, name, params, arrow):
    """Returns the declaration of an export."""
    parts = [parameter(*it) for it in params]
    if None in parts:
        raise ValueError(f"no form in C for the parameters of {name}")
    words = [part for it in parts for part in it]
    line = f"{NUMBERS[arrow.removeprefix(' -> ')] if arrow else 'void'} {name}({', '.join(words) or 'void'});"
    if len(line) > WIDTH:
        start = line[: line.index("(") + 1]
        line = start + "\n    " + ",\n    ".join(words) + ");"
    return f"{comment(docs)}{line}\n"


def struct(docs, name, fields):
    """Returns a struct with its fields."""
    inner = ""
    for said, field, kind in re.findall(r"((?:\s*///[^\n]*\n)+)\s*pub (\w+): (\w+),", fields):
        inner += comment(said, "    ") + f"    {NUMBERS[kind]} {field};\n"
    return f"{comment(docs)}typedef struct {struct_name(name)} {{\n{inner}}} {struct_name(name)};\n"


def enum(docs, name, variants):
    """Returns the constants of an enum."""
    inner = "".join(
        (comment(said, "    ") if said else "") + f"    RHAI_HOST_{upper(name)}_{upper(it)} = {number},\n" for said, it, number in variants
    )
    return f"{comment(docs)}enum {{\n{inner}}};\n"


def handle(docs, size, align):
    """Returns the handle, whose memory C provides."""
    said = docs + "/// Its fields are the library's alone."
    return (
        f"#define RHAI_HOST_HANDLE_SIZE {size}\n#define RHAI_HOST_HANDLE_ALIGN {align}\n\n{comment(said)}"
        "typedef struct RhaiHostHandle {\n    bool is_open;\n    void *at;\n} RhaiHostHandle;\n"
        "RHAI_HOST_ASSERT(sizeof(RhaiHostHandle) == RHAI_HOST_HANDLE_SIZE);\n"
        "RHAI_HOST_ASSERT(RHAI_HOST_ALIGN(RhaiHostHandle) == RHAI_HOST_HANDLE_ALIGN);\n\n"
        "/* What a closed handle begins with. */\n#define RHAI_HOST_CLOSED {false, NULL}\n"
    )


def hash_bytes(page):
    """Returns the table of hash bytes, from its page, as lines of a comment."""
    rows = re.search(r"^\| value \| bytes \|\n\|---\|---\|\n((?:\|.*\n)+)", page, re.M)[1]
    found = ""
    for row in rows.strip().split("\n"):
        value, said = (it.strip() for it in row.strip("|").split("|"))
        lines = textwrap.wrap(said, WIDTH - 24, break_on_hyphens=False)
        found += f" *   {value:<20}{lines[0]}\n" + "".join(f" *   {'':<20}{it}\n" for it in lines[1:])
    return found


def header(found_handle, structs, enums, exports, stamp, page):
    """Returns the whole file."""
    parts = [TOP.replace("@BYTES@", hash_bytes(page)), handle(*found_handle)]
    parts += [struct(*it) for it in structs] + [enum(*it) for it in enums] + [declared(*it) for it in exports]
    parts.append(f"#define RHAI_HOST_STAMP {stamp}\n")
    return "\n".join(parts) + BOTTOM
