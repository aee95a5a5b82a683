"""Random scripts of the language: each is well formed, and most run for a while. The same dice give the same script."""

NAMES = ["a", "b", "c", "d", "e"]
KEYS = ["x", "y", "z"]
TEXTS = ['"s"', '"tu"', '""', '"vwx"', '#"r\\"#', '"l\\\n m"']
BINARY = ["+", "-", "*", "/", "%", "==", "!=", "<", "<=", ">", ">=", "&", "|", "^", "..", "..=", "<<", ">>", "**", "??", "in", "!in"]
ASSIGNING = ["=", "=", "=", "+=", "+=", "-=", "*=", "/=", "%=", "|=", "**="]
ASKS = ["len()", "type_of()", "is_empty()", "to_string()", "abs()", "keys()", "values()", "is_shared()", "contains(1)", "index_of(2)", "get(0)", "chars()", "bytes()", "bytes", "is_odd", "to_hex()", "to_binary()", "split()", "split(1)", "split_rev(\"s\")", "to_chars()", "to_json()", "start", "end()", "is_exclusive", "bits(0..4)", "get_bits(1, 3)", "get_bit(2)", "get_bits(1..3)", "to_octal()", "to_int()", "to_upper()", "len", "is_inclusive()", "parse_be_int(0..2)", "starts_with(\"s\")", "sub_string(1..2)", "index_of('s')", "sign()", "blob(3)", "parse_int()", "to_blob()", "as_string()", "parse_le_int(0, 2)", "name", "extract(0..=1)"]
CHANGES = ["push({})", "pop()", "shift()", "reverse()", "insert(0, {})", "clear()", "truncate(2)", "set(0, {})", "remove(0)", "append([{}])", "pad(3, {})", "make_upper()", "trim()", "sort()", "dedup()", "splice(0, 1, [{}])", "crop(0..2)", "drain(0..1)", "retain(0..2)", "make_lower()", "replace('s', \"z\")", "remove('s')", "set_bit(1, true)", "set_bits(0..2, {})", "write_be(0, 2, {})", "write_le(0..2, {})", "write_ascii(0..2, \"xy\")", "write_utf8(0, 3, \"xyz\")", "mixin(#{{ x: {} }})", "fill_with(#{{ z: {} }})", "zip([{}], |p, q| p)"]
EACH = ["map", "filter", "all", "some", "find", "find_map", "index_of", "for_each", "drain", "retain", "dedup", "reduce_rev"]
NAMED_CALLBACK = '"f0"'
THIS = ["this", "this.x", "this += 1", "this.push(1)", "this[0]", "this.f0()", "print(this)", "this.x = [this]", "this = 3"]


class Maker:
    def __init__(self, chance):
        self.chance, self.loops, self.functions, self.declared = chance, 0, [], [[]]

    def pick(self, words):
        return self.chance.choice(words)

    def one_of(self, *ways):
        """Returns what one of these generates; the others aren't called."""
        return self.chance.choice(ways)()

    def known(self):
        names = [it for scope in self.declared for it in scope]
        return names or ["a"]

    def name(self):
        return self.pick(self.known()) if self.chance.random() < 0.995 else "unknown"

    def leaf(self):
        kind = self.chance.random()
        if kind < 0.4:
            return str(self.pick([0, 1, 2, 3, 7, -1, 100, 2**40, 2**63 - 1, "0o17"]))
        if kind < 0.75:
            return self.name()
        if kind < 0.85:
            return self.pick(TEXTS)
        return self.pick(["true", "false", "()", "'c'", "[]", "#{}", "[1, 2, 3]", "#{ x: 1, y: [2] }"])

    def place(self):
        steps = "".join(self.pick([f"[{self.value(1)}]", "[0]", "[1]", "[-1]", f".{self.pick(KEYS)}"]) for _ in range(self.pick([0, 0, 0, 1, 1, 2, 3])))
        return self.name() + steps

    def closure(self, depth):
        if self.chance.random() < 0.12:
            return f"|{self.pick(['', 'p'])}| {self.pick(THIS)}"
        names = self.pick([[], ["p"], ["p"], ["p", "q"]])
        self.declared.append(list(names))
        loops, self.loops = self.loops, 0
        body = self.value(depth - 1) if self.chance.random() < 0.5 else self.block(depth - 1)
        self.loops = loops
        self.declared.pop()
        return f"|{', '.join(names)}| {body}"

    def method(self, depth):
        kind = self.chance.random()
        if self.functions and kind < 0.06:
            name, count = self.pick(self.functions)
            return f"{name}({', '.join(self.value(1) for _ in range(self.pick([count, max(count - 1, 0)])))})"
        if kind < 0.09:
            return f"{self.pick(['f', 'x'])}({self.pick(['', self.value(1)])})"
        if kind < 0.11:
            return f"call({self.one_of(self.name, lambda: self.closure(depth))}{self.pick(['', ', 1'])})"
        if kind < 0.4:
            return self.pick(ASKS)
        if kind < 0.75:
            return self.pick(CHANGES).format(self.value(1))
        if kind < 0.83:
            return f"call({', '.join(self.value(1) for _ in range(self.pick([0, 1, 1, 2])))})"
        if kind < 0.87:
            return f"curry({self.value(1)})"
        if kind < 0.91:
            return f"reduce({self.closure(depth)}{self.pick(['', ', 0'])})"
        if kind < 0.94:
            return f"sort({self.pick(['|p, q| p - q', '|p, q| q - p', self.closure(depth)])})"
        return f"{self.pick(EACH)}({self.pick(['|p| p == 1', self.closure(depth), self.closure(depth), NAMED_CALLBACK])})"

    def step(self, depth):
        call, index = (lambda: f".{self.method(depth)}"), (lambda: f"[{self.value(1)}]")
        return self.one_of(call, call, index, index, lambda: f"?{call()}", lambda: f"?{index()}", lambda: f"?.{self.pick(KEYS)}")

    def chain(self, depth):
        root = self.place() if self.chance.random() < 0.7 else self.one_of(lambda: f"({self.value(depth - 1)})", lambda: f"[{self.value(depth - 1)}]", lambda: self.call(depth))
        more = "".join(self.step(depth - 1) for _ in range(self.pick([1, 1, 1, 2, 3])))
        return root + more

    def call(self, depth):
        if self.functions and self.chance.random() < 0.6:
            name, count = self.pick(self.functions)
            return f"{name}({', '.join(self.value(depth - 1) for _ in range(count))})"
        name = self.pick(["print", "debug", "type_of", "is_shared", "len", "push", "abs", "sort", "map", "pop", "missing", "curry", "call", "to_string", "range", "is_def_var", "is_def_fn", "Fn"])
        count = {"push": 2, "sort": self.pick([1, 2]), "map": 2, "curry": 2, "range": 2, "is_def_fn": 2}.get(name, 1)
        arguments = [self.value(depth - 1) if self.chance.random() < 0.5 else self.name() for _ in range(count)]
        if name in ("map", "sort") and count == 2:
            arguments[1] = self.closure(depth - 1) if self.chance.random() < 0.6 else "|p, q| p - q"
        return f"{name}({', '.join(arguments)})"

    def value(self, depth):
        if depth <= 0:
            return self.leaf()
        kind = self.chance.random()
        if kind < 0.25:
            return self.leaf()
        if kind < 0.5:
            left, right = self.value(depth - 1), self.value(depth - 1)
            return f"{left} {self.pick(BINARY + ['+'] * 6)} {right}" if self.chance.random() < 0.6 else f"({left} {self.pick(BINARY)} {right})"
        if kind < 0.56:
            return f"{self.pick(['a == 1', 'true', 'false', 'b < 3', self.value(depth - 1)])} {self.pick(['&&', '||'])} {self.pick(['c != 2', 'true', 'false', self.value(depth - 1)])}"
        if kind < 0.6:
            return self.pick(["-", "!", "+"]) + f"({self.value(depth - 1)})"
        if kind < 0.72:
            return self.chain(depth)
        if kind < 0.8:
            return self.call(depth)
        if kind < 0.84:
            return f"[{', '.join(self.value(depth - 1) for _ in range(self.pick([1, 2, 3])))}]"
        if kind < 0.87:
            return "#{ " + ", ".join(f"{key}: {self.value(depth - 1)}" for key in KEYS[: self.pick([1, 2, 3])]) + " }"
        if kind < 0.88:
            return f"#{{ x: {self.leaf()}, f: {self.closure(depth)} }}"
        if kind < 0.9:
            return f"({self.closure(depth)})"
        if kind < 0.915:
            return self.switch(depth)
        if kind < 0.925:
            return f"`s${{{self.value(depth - 1)}}}t`"
        if kind < 0.94:
            return f"if {self.condition(depth)} {self.block(depth - 1)} else {self.block(depth - 1)}"
        if kind < 0.97:
            return self.block(depth - 1)
        return self.pick([self.loop(depth - 1), "{ " + self.attempt(depth - 1) + " }"]) if depth > 1 else self.leaf()

    def condition(self, depth):
        return self.pick([f"{self.name()} {self.pick(['<', '<=', '>', '>=', '==', '!='])} {self.value(depth - 1)}", f"({self.value(depth - 1)}) == ({self.value(depth - 1)})", "true", "false", f"!({self.value(depth - 1)})", f"{self.name()} == 1 {self.pick(['&&', '||'])} {self.name()} != 2"])

    def switch(self, depth):
        arms = [f"{self.pick(['0', '1 | 2', '3..7', '8..=9', chr(39) + 'c' + chr(39), *TEXTS, 'true'])}{self.pick(['', '', ' if a == 1'])} => {self.value(depth - 1)}" for _ in range(self.pick([0, 1, 2, 3]))]
        return f"switch {self.value(1)} {{ {', '.join([*arms, *self.pick([[], ['_ => ' + self.value(1)]])])} }}"

    def block(self, depth):
        self.declared.append([])
        body = self.statements(depth, self.pick([0, 1, 1, 2, 3]))
        if self.chance.random() < 0.4:
            body += self.value(depth - 1)
        self.declared.pop()
        return "{ " + body + " }"

    def loop(self, depth):
        self.loops += 1
        self.declared.append([])
        kind = self.pick(["for", "for", "for", "while", "do", "loop"])
        if kind == "for":
            source = self.pick(["0..3", "1..=3", "[1, 2, 3]", '"abc"', self.place(), self.value(1), self.stepped()])
            pair = self.chance.random() < 0.25
            item = self.pick(NAMES)
            index = self.pick([it for it in NAMES if it != item])
            self.declared[-1] += [item] + ([index] if pair else [])
            made = f"for {f'({item}, {index})' if pair else item} in {source} {self.block(depth)}"
        else:
            counter = f"n{self.chance.randrange(1000)}"
            body = self.block(depth)
            if kind == "while":
                made = f"{{ let {counter} = 0; while {counter} < 3 {{ {counter} += 1; {body} }} }}"
            elif kind == "do":
                made = f"{{ let {counter} = 0; do {{ {counter} += 1; {body} }} {self.pick([f'while {counter} < 3', f'until {counter} > 2'])} }}"
            else:
                made = f"{{ let {counter} = 0; loop {{ {counter} += 1; if {counter} > 3 {{ break {self.value(1)}; }} {body} }} }}"
        self.declared.pop()
        self.loops -= 1
        return made

    def stepped(self):
        step = self.pick(["2", "-1", "3", "0", "2 ** 62", self.value(1)])
        return f"range({self.pick(['0, 5', '5, 0', '0..7', f'{self.value(1)}, {self.value(1)}', self.value(1)])}{self.pick(['', f', {step}', f', {step}', f', {step}'])})"

    def attempt(self, depth):
        body = self.block(depth)
        name = self.pick(NAMES)
        self.declared.append([name])
        handler = self.block(depth)
        self.declared.pop()
        return f"try {body} catch ({name}) {handler}"

    def statement(self, depth):
        kind = self.chance.random()
        if kind < 0.22 or not self.known():
            name = self.pick(NAMES)
            word = "const" if self.chance.random() < 0.12 else "let"
            made = f"{word} {name} = {self.value(depth)};"
            self.declared[-1].append(name)
            return made
        if kind < 0.5:
            return f"{self.place()} {self.pick(ASSIGNING)} {self.value(depth)};"
        if kind < 0.6:
            return f"print({self.value(depth)});"
        if kind < 0.7:
            return f"{self.chain(depth)};"
        if kind < 0.76:
            return f"if {self.condition(depth)} {self.block(depth - 1)}"
        if kind < 0.84 and depth > 0:
            return self.loop(depth - 1)
        if kind < 0.9 and depth > 0:
            return self.attempt(depth - 1)
        if kind < 0.93 and self.loops:
            return self.pick(["break;", "continue;", f"break {self.value(1)};"])
        if kind < 0.95:
            return self.pick([f"throw {self.value(1)};", "return;", f"return {self.value(1)};"] * 3 + [f"exit({self.pick(['', self.value(1)])});"])
        return f"{self.value(depth)};"

    def statements(self, depth, count):
        return " ".join(self.statement(depth) for _ in range(count)) + " "

    def script(self):
        made = ""
        for number in range(self.pick([0, 1, 2])):
            count = self.pick([0, 1, 2, 3])
            outer, self.declared = self.declared, [NAMES[:count] or ["a"]]
            first = "" if count else "let a = 1; "
            first += self.pick(["", "", f"{self.pick(THIS)}; "])
            made += f"fn f{number}({', '.join(NAMES[:count])}) {{ {first}{self.block(2)} }}\n"
            self.declared = outer
            self.functions.append((f"f{number}", count))
        if self.chance.random() < 0.3:
            made += f"fn {self.pick(['int', 'array', 'map', 'string', 'bool'])}.f0() {{ {self.pick(THIS)} }}\n"
        for name in NAMES[: self.pick([2, 3, 5])]:
            made += f"let {name} = {self.leaf() if self.declared[0] else 1};\n"
            self.declared[0].append(name)
        for _ in range(self.pick([2, 4, 8])):
            self.declared.append([])
            made += f"try {{ {self.statements(3, self.pick([1, 1, 2, 3]))} }} catch (oops) {{ print(oops); }}\n"
            self.declared.pop()
        for name in dict.fromkeys(self.declared[0]):
            made += f"print({name});\n"
        return made


def made(chance):
    return Maker(chance).script()
