#!/usr/bin/env python3
"""Random lines for rhai_world, the same for the same seed: lines.py SEED COUNT prints COUNT lines.

Most positions are in the hand, as far as the lines alone determine its length; a few aren't, and one line in thirty is not a valid line."""
import random
import sys

KINDS = "() bool char i64 u8 u16 u32 u64 u128 i8 i16 i32 i128 String string array blob map Fn range rangeeq Dynamic <shared>".split()
BINARY = "+ - * / % ** >> << & | ^ == != > >= < <= .. ..=".split()
ASSIGNING = "+= -= *= /= %= **= >>= <<= &= |= ^= =".split()
HOSTS = {"u8": (0, 8), "u16": (0, 16), "u32": (0, 32), "u64": (0, 64), "u128": (0, 128), "i8": (1, 8), "i16": (1, 16), "i32": (1, 32), "i128": (1, 128)}
INTS = [0, 1, -1, 2, 3, 7, 63, 64, 255, -128, 2**31, 2**62, 2**63 - 1, -(2**63)]
NAMES = "x y z p q".split()
TEXTS = ["", "a", "hello", "é1", "a  b", "'\"\\", "\t~", "aaa"]
BAD = ["", "int", "int +1", "int  1", " unit", "show", "show -1", "copy a", "op 0 0", "push é 0", "Unit", "int 9223372036854775808", "char ab", "blob 0"]

# each form of line, with what it certainly adds to the hand's length
FORMS = """unit +1|bool B +1|int N +1|int N +1|char C +1|text T +1|text T +1|blob H +1|host V +1|range N N +1|rangeeq N N +1
array K +1|array K +1|map M +1|fn NAME K +1|copy I +1|copy I +1|flatclone I +1|cast I KIND 0|op I BIN I 0|op I BIN I 0|op I ASG I 0
take I 0|drop -1|share I 0|share I 0|write I N 0|flatten I 0|tag I TAG 0|readonly I 0|store I I 0|store I I 0
ask I tag 0|ask I variant 0|ask I shared 0|ask I readonly 0|ask I locked 0|ask I hashable 0|ask I type 0|ask I is KIND 0|ask I held KIND 0
ask I unit 0|ask I int 0|ask I bool 0|ask I char 0|show I 0|show I 0|debug I 0|hash I 0
scan I zero 0|scan I cut K 0|scan I noshare 0|scan I tags TAG 0
push NAME I 0|push NAME I 0|pushdyn NAME I 0|pushconst NAME I 0|pop 0|rewind K 0|clear 0|len 0|empty 0|get NAME 0|get NAME 0|contains NAME 0|search NAME 0
constant NAME 0|value NAME KIND 0|ref NAME KIND 0|refint NAME N 0|remove NAME KIND 0|set NAME I 0|setorpush NAME I 0|setvalue NAME I 0
alias NAME NAME 0|alias NAME 0|aliases NAME 0|copyscope 0|visible 0|iter +1|names 0|showscope 0|hashscope 0|extend X 0|extendflagged Y 0
mark P 0|mark P 0|unmark K 0|unmark K 0|readmarked K 0|writemarked K I 0|assign P ASG I 0|assign P ASG I 0|assign P ASG I 0
bit P K I 0|field P N K I 0|byte P K I 0|charat P K I 0|slice P K K I 0|sliceeq P K K I 0|offset K N K 0|index K N B 0"""
FORMS = [it.rsplit(" ", 1) for it in FORMS.replace("\n", "|").split("|")]


def lines(seed, count):
    """Yields this many lines."""
    rng = random.Random(seed)
    hand = 0

    def position():
        return str(rng.randrange(hand) if hand and rng.random() < 0.97 else rng.choice([hand, 99, 2**64 - 1]))

    def word(kind):
        nonlocal hand
        if kind in ("I", "P"):
            return f"@{rng.choice(NAMES)}" if kind == "P" and rng.random() < 0.4 else position()
        if kind == "K":
            return str(rng.choice([0, 0, 1, 1, 2, 3, 8, 64]))
        if kind == "V":
            host, (signed, bits) = rng.choice(list(HOSTS.items()))
            low = -(2 ** (bits - 1)) if signed else 0
            return f"{host} {rng.choice([0, 1, low, low + 2 ** bits - 1])}"
        if kind == "M":
            keys = [rng.choice(NAMES) for _ in range(rng.randrange(min(hand, 3) + 1))]
            hand -= len(keys)
            return " ".join(keys)
        if kind in ("X", "Y"):
            names = [rng.choice(NAMES) for _ in range(rng.randrange(min(hand, 3) + 1))]
            hand -= len(names)
            return " ".join(("!" if kind == "Y" and rng.random() < 0.4 else "") + it for it in names)
        among = {"B": ["true", "false"], "N": INTS, "C": "aé'z ", "T": TEXTS, "H": ["", "00", "0a0B", "ffffffff"], "NAME": NAMES, "KIND": KINDS,
                 "BIN": BINARY, "ASG": ASSIGNING, "TAG": [0, 5, -5, 2**31 - 1]}
        return str(rng.choice(among[kind])) if kind in among else kind

    for _ in range(count):
        if rng.random() < 1 / 30:
            yield rng.choice(BAD)
            continue
        form, adds = rng.choice(FORMS)
        line = " ".join(word(it) for it in form.split(" "))
        if form.startswith(("array", "fn")):
            hand -= min(int(line.rsplit(" ", 1)[1]), hand)
        hand = max(hand + int(adds), 0)
        # (no space follows a verb alone)
        yield line if form.startswith(("char", "text")) else line.rstrip(" ")


if __name__ == "__main__":
    for line in lines(int(sys.argv[1]), int(sys.argv[2])):
        print(line)
