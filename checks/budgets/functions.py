"""Calls of each function of the packages and each operator, with values as large as limits of a million allow within a second."""

ARRAY = "let a = []; a.pad(100000, 1);"
TEXT = 'let t = "x"; t.pad(100000, "xy");'
WIDE = 'let u = "é"; u.pad(50000, "éà");'
MAP = "let m = #{}; for i in 0..20000 { m.set(`key ${i}`, i); }"
BLOB = "let b = blob(100000, 7);"
NESTED = "let n = []; for i in 0..300 { let row = []; row.pad(300, i); n.push(row); }"
HELD = "let h = []; h.pad(10000, 1); let f = || h; let w = []; w.pad(50, f);"

# the setup before the endless loop, and the loop's body
CALLS = [
    *((ARRAY, f"a.{it}") for it in (
        "len()", "is_empty()", "get(99999)", "extract(0)", "extract(1, 99998)", "extract(1..99999)", "contains(2)", "index_of(2)",
        "set(5, 1)", "reverse()", "truncate(100000)", "chop(100000)", "sort()", "all(|x| x == 1)", "some(|x| x == 2)", "to_string()",
        "to_debug()", "type_of()", "map(|x| x)", "filter(|x| x == 1)", "reduce(|s, x| s + x, 0)", "reduce_rev(|s, x| s + x, 0)",
        "find(|x| x == 2)", "find_map(|x| if x == 2 { x })", "index_of(|x| x == 2)", "index_of(2, 5)", "zip(a, |x, y| x + y)", "map(Fn(\"abs\"))",
        "len", "is_empty")),
    *((ARRAY, f"let c = a; c.{it}") for it in (
        "push(1)", "append([1])", "append(a)", "insert(0, 1)", "pad(100001, 1)", "pop()", "shift()", "remove(0)", "clear()", "split(50000)",
        "splice(0, 1, a)", "splice(0..1, a)", "dedup()", "sort(|x, y| x - y)", "dedup(|x, y| x == y)", "drain(|x| x == 1)", "retain(|x| x == 1)",
        "drain(0..1)", "drain(0, 99999)", "retain(0..1)", "retain(0, 99999)")),
    *((ARRAY, it) for it in (
        "a == a", "a != a", "a + a", "let c = a; c += a", "let c = a; c += [1]", "let c = [a, a]", "let c = #{a: a}", "a[0] = a", "1 in a",
        "`${a}`", '"" + a', "switch a { 1 => 1 }", "for x in a { break; }", "print(a)", "debug(a)", "|x| a")),
    *((NESTED, it) for it in (
        "n == n", "let c = n", "n.contains([])", "n.index_of([])", "n.to_string()", "n.len()", "n[0].len()", "n[299][299] += 1", "let r = n[0]",
        "n.extract(0)", "let c = n; c.dedup()", "let c = n; c.sort(|x, y| x.len() - y.len())", "`${n}`", "n.map(|r| r.len())", "print(n)")),
    *((HELD, it) for it in ("w == w", "w.to_string()", "`${w}`", "h.len()", "let c = w", "w.contains(1)", "f.call()", "print(w)")),
    *((TEXT, f"t.{it}") for it in (
        "len()", "is_empty()", 'contains("z")', 'starts_with("x")', 'ends_with("y")', 'index_of("z")', "sub_string(5)", "sub_string(5, 90000)",
        "to_upper()", "to_lower()", "chars()", 'split("z")', 'split("x")', "split(5)", "to_string()", "to_debug()", "type_of()", "split()",
        "contains('z')", "index_of('z')", "index_of('y', 5)", "sub_string(1..99999)", "split('x')", "split('x', 5)", "split('x', 100000)",
        "split_rev('x')", "split_rev('x', 5)", "to_chars()", "to_blob()", "bytes", "len", "chars", "is_empty")),
    ('let t = ""; t.pad(100000, " x");', "t.split()"),
    *((WIDE, it) for it in (
        "u.len()", "u.sub_string(5, 40000)", "u.index_of('z')", "u.to_upper()", "u.chars()", "u[40000]", "u[1..40000]", "u.split(25000)",
        "let c = u; c.crop(1)", "let c = u; c.truncate(40000)", "u.index_of(\"à\", 5)", "let c = u; c[5] = 'z'", "u.contains('z')")),
    *((TEXT, f"let c = t; c.{it}") for it in (
        "crop(1)", "crop(1, 99998)", "truncate(99999)", "trim()", 'replace("x", "y")', 'replace("z", "y")', 'pad(100001, "z")', "crop(1..99999)",
        "replace('x', 'y')", "remove('x')", "remove('z')", "clear()", "make_upper()", "make_lower()")),
    *((TEXT, it) for it in (
        "t == t", "t < t", "t + t", 't + "x"', 'let c = t; c += "x"', "let c = t; c += t", 't - "z"', '"z" in t', "t[99999]", "t[5] = 'z'", "t[1..9]",
        "`${t}`", "print(t)", "debug(t)", "for c in t { break; }", 'switch t { "x" => 1 }', '#{}[t]')),
    ('let t = "1"; t.pad(18, "1");', "t.parse_int()"), ('let t = "1"; t.pad(15, "1");', "t.parse_int(16)"),
    *((MAP, f"m.{it}") for it in (
        "len()", "is_empty()", 'contains("key 5")', 'get("key 5")', "keys()", "values()", 'set("key 5", 1)', "to_string()", "to_debug()", "to_json()",
        "filter(|k| true)", "filter(|k, v| v > 5)")),
    *((MAP, f"let c = m; c.{it}") for it in ('remove("key 5")', "clear()", "mixin(m)", "fill_with(m)", 'set("new", 1)',
        "drain(|k, v| v > 5)", "retain(|k, v| v > 5)")),
    *((MAP, it) for it in ("m == m", "m + m", "let c = m; c += m", 'm["key 5"] += 1', "m.a = 1", '"key 5" in m', "`${m}`", "print(m)")),
    *((BLOB, f"b.{it}") for it in ("len()", "get(5)", "extract(0)", "extract(1, 99998)", "to_array()", "set(5, 1)", "reverse()", "to_string()",
        "is_empty()", "contains(9)", "as_string()", "parse_le_int(5..9)", "parse_be_int(5, 8)", "write_le(5..9, 1)", "write_be(5, 8, 1)",
        'write_utf8(5..90000, "abc")', 'write_ascii(5, 90000, "abc")', "len")),
    ('let b = blob(100000, 7); let t = "x"; t.pad(100000, "xy");', "b.write_utf8(0..100000, t)"),
    ('let b = blob(100000, 7); let t = "x"; t.pad(100000, "xy");', "b.write_ascii(0..100000, t)"),
    *((BLOB, f"let c = b; c.{it}") for it in ("push(1)", "append(b)", "pop()", "remove(0)", "clear()")),
    *((BLOB, it) for it in ("b == b", "b + b", "let c = b; c += b", "b[5] = 1", "`${b}`", "print(b)")),
    *(("let x = 5;", it) for it in (
        "x += 1", "x * 3 / 2 % 7", "x << 2 >> 1", "x ** 2", "x.abs()", "x.min(3)", "x.max(3)", "x == 5", "x < 5", "-x", "!true", "x[3]", "x[1..3]",
        "let f = |y| y + x; f.call(1)", "type_of(x)", "is_shared(x)", "Fn(\"abs\")", "Fn(\"abs\").call(x)", "Fn(\"abs\").name", "blob(x, 1)", "x.sign()", "x.is_odd", "x.is_even()", "x.is_zero()",
        "x.to_hex()", "x.to_octal()", "x.to_binary()", "x.get_bit(3)", "x.get_bits(1..4)", "x.get_bits(1, 3)", "x.bits", "x.set_bit(1, true)",
        "x.set_bits(1..4, 3)", "x.set_bits(1, 3, 3)", "range(1, x)",
        "for i in range(1, 99, x) {}", "for i in range(1..99, x) {}", "(1..x).start", "(1..x).contains(3)", "(1..x).is_empty()",
        "'a'.to_upper()", "'a'.to_int()", "let c = 'a'; c.make_upper()", "1..x", "`${x}`", "x ?? 1", "switch x { 5 => 1 }")),
]
