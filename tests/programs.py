"""Codec programs drawn at random: a source, a specification and samples, each by its seed alone.

`write(seed, folder)` puts s.toml, a.c, w.toml and samples.bin into the folder. A program has inputs of 16 and 32 bits, scalars and
arrays that keep their values from frame to frame, a table of constants, up to two functions with views, and a frame of assignments,
branches and loops up to two inside one another. Most programs are accepted; what a site may do is left to chance.
"""
import random
import struct
from pathlib import Path

# operators with the widths of their arguments and of their result
OPERATORS = {
    16: [
        ("add", (16, 16)), ("sub", (16, 16)), ("abs_s", (16,)), ("negate", (16,)), ("mult", (16, 16)), ("mult_r", (16, 16)),
        ("shr", (16, 0)), ("shl", (16, 0)), ("shr_r", (16, 0)), ("extract_h", (32,)), ("extract_l", (32,)), ("round", (32,)),
        ("norm_s", (16,)), ("norm_l", (32,)), ("s_max", (16, 16)), ("s_min", (16, 16)), ("mac_r", (32, 16, 16)),
        ("msu_r", (32, 16, 16)), ("div_s", (16, 16)),
    ],
    32: [
        ("L_add", (32, 32)), ("L_sub", (32, 32)), ("L_abs", (32,)), ("L_negate", (32,)), ("L_mult", (16, 16)),
        ("L_mac", (32, 16, 16)), ("L_msu", (32, 16, 16)), ("L_shr", (32, 0)), ("L_shl", (32, 0)), ("L_shr_r", (32, 0)),
        ("L_deposit_h", (16,)), ("L_deposit_l", (16,)), ("L_max", (32, 32)), ("L_min", (32, 32)), ("L_mult0", (16, 16)),
        ("L_mac0", (32, 16, 16)), ("L_msu0", (32, 16, 16)),
    ],
}
RELATIONS = ["<", "<=", ">", ">=", "==", "!="]
TYPES = {16: "Word16", 32: "Word32"}


class Program:
    """What has been drawn so far, with the names that may be used at the place that is drawn next."""

    def __init__(self, seed):
        self.draw = random.Random(seed)
        self.inputs = []  # name, width, cells (0 for a scalar), low, high
        self.scalars = {16: [], 32: []}
        self.arrays = []  # name, width, cells, whether it may be written
        self.helpers = []  # name
        self.counters = []  # name, greatest value, of the loops around the place
        self.loops = 0
        self.lines = []

    def number(self, width):
        """A constant of this width, as it is written."""
        top = (1 << (width - 1)) - 1
        number = self.draw.choice([0, 1, -1, 2, 3, 7, 100, 16384, top, -top - 1, self.draw.randint(-top - 1, top)])
        return "MIN_32" if number < -(1 << 31) + 1 else str(number)

    def range_of(self, width):
        top = (1 << (width - 1)) - 1
        ends = [self.draw.choice([-top - 1, -1000, -8, 0, 1, 5, 300, top]) for _ in range(2)]
        return min(ends), max(ends)

    def declare(self):
        """The objects of static storage."""
        for number in range(self.draw.randint(1, 3)):
            width = self.draw.choice([16, 16, 16, 32])
            cells = self.draw.choice([0, 0, 4, 8])
            self.inputs.append((f"in{number}", width, cells, *self.range_of(width)))
            self.lines.append(f"{TYPES[width]} in{number}{f'[{cells}]' if cells else ''};")
            if cells:
                self.arrays.append((f"in{number}", width, cells, False))
            else:
                self.scalars[width].append(f"in{number}")
        for number in range(self.draw.randint(1, 4)):
            width = self.draw.choice([16, 16, 32])
            begin = self.draw.choice(["", f" = {self.draw.randint(-9, 9)}"])
            self.lines.append(f"static {TYPES[width]} state{number}{begin};")
            self.scalars[width].append(f"state{number}")
        for number in range(self.draw.randint(0, 2)):
            width, cells = self.draw.choice([16, 16, 32]), self.draw.randint(1, 9)
            self.lines.append(f"static {TYPES[width]} line{number}[{cells}];")
            self.arrays.append((f"line{number}", width, cells, True))
        cells = self.draw.randint(2, 6)
        values = ", ".join(self.number(16) for _ in range(cells))
        self.lines.append(f"const Word16 table[{cells}] = {{ {values} }};")
        self.arrays.append(("table", 16, cells, False))

    def index(self, cells):
        """An index, mostly one that is in the array."""
        fitting = [name for name, most in self.counters if most < cells]
        if fitting and self.draw.random() < 0.8:
            return self.draw.choice(fitting)
        if self.counters and self.draw.random() < 0.1:
            return f"{self.draw.choice(self.counters)[0]} + 1"
        return str(self.draw.randrange(cells))

    def leaf(self, width):
        arrays = [array for array in self.arrays if array[1] == width]
        if arrays and self.draw.random() < 0.4:
            name, _, cells, _ = self.draw.choice(arrays)
            return f"{name}[{self.index(cells)}]"
        if self.scalars[width] and self.draw.random() < 0.75:
            return self.draw.choice(self.scalars[width])
        return self.number(width)

    def value(self, width, depth):
        """An expression of this width; width 0 is a count of shifts."""
        if width == 0:
            return str(self.draw.choice([0, 1, 2, 3, 5, 15])) if self.draw.random() < 0.9 else self.leaf(16)
        if depth == 0 or self.draw.random() < 0.25:
            return self.leaf(width)
        if width == 16 and self.helpers and self.draw.random() < 0.15:
            name = self.draw.choice(self.helpers)
            view, _, cells, _ = self.draw.choice([array for array in self.arrays if array[1] == 16])
            place = self.draw.choice([view, view, f"&{view}[{self.draw.randrange(cells)}]"])
            return f"{name}({self.value(16, depth - 1)}, {place})"
        name, widths = self.draw.choice(OPERATORS[width])
        return f"{name}({', '.join(self.value(one, depth - 1) for one in widths)})"

    def condition(self, depth=1):
        draw = self.draw.random()
        if depth and draw < 0.2:
            mark = self.draw.choice(["&&", "||"])
            return f"{self.condition(0)} {mark} {self.condition(0)}"
        if depth and draw < 0.3:
            return f"!({self.condition(0)})"
        width = self.draw.choice([16, 32])
        if draw < 0.6:
            return f"{'L_sub' if width == 32 else 'sub'}({self.leaf(width)}, {self.leaf(width)}) {self.draw.choice(RELATIONS)} 0"
        return f"{self.leaf(width)} {self.draw.choice(RELATIONS)} {self.leaf(width)}"

    def assignment(self, pad):
        places = [array for array in self.arrays if array[3]]
        if places and self.draw.random() < 0.35:
            name, width, cells, _ = self.draw.choice(places)
            self.lines.append(f"{pad}{name}[{self.index(cells)}] = {self.value(width, 2)};")
            return
        width = self.draw.choice([16, 16, 32])
        mine = [name for name in self.scalars[width] if not name.startswith("in")]
        if mine:
            self.lines.append(f"{pad}{self.draw.choice(mine)} = {self.value(width, 3)};")

    def branch(self, pad, depth):
        word, other = self.draw.choice([("if", "else"), ("IF", "ELSE")])
        self.lines.append(f"{pad}{word} ({self.condition()}) {{")
        self.statements(pad + "  ", depth - 1, 2)
        if self.draw.random() < 0.5:
            self.lines.append(f"{pad}}} {other} {{")
            self.statements(pad + "  ", depth - 1, 2)
        self.lines.append(f"{pad}}}")

    def loop(self, pad, depth):
        if self.loops == 4 or len(self.counters) == 2:
            return
        counter, most = f"i{self.loops}", self.draw.choice([1, 3, 4, 8])
        self.loops += 1
        word = self.draw.choice(["for", "FOR"])
        self.lines.append(f"{pad}{word} ({counter} = 0; {counter} < {most}; {counter}++) {{")
        self.counters.append((counter, most - 1))
        self.statements(pad + "  ", depth - 1, 3)
        if self.draw.random() < 0.2:
            self.lines.append(f"{pad}  if ({self.condition(0)}) {self.draw.choice(['break', 'continue'])};")
        self.counters.pop()
        self.lines.append(f"{pad}}}")

    def statements(self, pad, depth, most):
        for _ in range(self.draw.randint(1, most)):
            kind = self.draw.random()
            if depth and kind < 0.2:
                self.branch(pad, depth)
            elif depth and kind < 0.45:
                self.loop(pad, depth)
            elif kind < 0.55:
                self.lines.append(f"{pad}{self.draw.choice(['move16', 'move32', 'logic16', 'test'])}();")
            else:
                self.assignment(pad)

    def helper(self, name):
        """A function of a number and a view."""
        outside = self.scalars, self.arrays
        self.scalars = {16: ["a"] + [one for one in outside[0][16] if not one.startswith("in")], 32: outside[0][32]}
        self.arrays = [("v", 16, 1, False)] + [array for array in outside[1] if array[0] == "table"]
        self.lines.append(f"static Word16 {name}(Word16 a, const Word16 v[]) {{")
        if self.draw.random() < 0.5:
            self.lines.append(f"  if ({self.condition(0)}) return {self.value(16, 1)};")
        self.lines.append(f"  return {self.value(16, 2)};")
        self.lines.append("}")
        self.scalars, self.arrays = outside

    def frame(self):
        self.lines.append("void frame(void) {")
        self.lines.append("  Word16 i0, i1, i2, i3;")
        self.lines.append("  Word16 local = 0;")
        self.lines.append("  Word32 sum = 0;")
        self.scalars[16].append("local")
        self.scalars[32].append("sum")
        self.statements("  ", 3, 7)
        self.lines.append("}")

    def source(self):
        self.declare()
        for number in range(self.draw.randint(0, 2)):
            self.helper(f"part{number}")
            self.helpers.append(f"part{number}")
        self.frame()
        return "\n".join(self.lines) + "\n"

    def specification(self):
        ranges = [f"{name} = [{low}, {high}]" for name, _, _, low, high in self.inputs]
        return "\n".join(['source = "a.c"', 'weights = "w.toml"', 'certificate = "c.txt"', "[range]", *ranges]) + "\n"

    def weights(self):
        words = [name for rows in OPERATORS.values() for name, _ in rows]
        words += ["move16", "move32", "logic16", "test", "IF", "ELSE", "FOR"]
        return "".join(f"{word} = {self.draw.choice([0, 1, 1, 2, 5, 18])}\n" for word in words)

    def samples(self, frames):
        """Numbers in their ranges, often at their ends."""
        cells = [
            (width, low, high)
            for name, width, cells, low, high in self.inputs
            for _ in range(cells or 1)
        ]
        data = bytearray()
        for _ in range(frames):
            for width, low, high in cells:
                number = self.draw.choice([low, high, self.draw.randint(low, high)])
                data += struct.pack("<h" if width == 16 else "<i", number)
        return bytes(data)


def write(seed, folder, frames=20):
    """Writes the program of this seed."""
    program = Program(seed)
    folder = Path(folder)
    (folder / "a.c").write_text(program.source())
    (folder / "s.toml").write_text(program.specification())
    (folder / "w.toml").write_text(program.weights())
    (folder / "samples.bin").write_bytes(program.samples(frames))
