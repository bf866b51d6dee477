"""Writes random scripts for comparison of `vx` with the reading of the rules in reference.py."""
import random

from reference import RANGES, Beyond, Fault, fit_together, run_line, run_script, same_type, validity_weight, weight
from rows import Rows

MOST_LINES = 24
MOST_FORMED = 300  # rows of an operand that is formed
UNTOLD = "beyond the other reading"
NAMES = ["ints"] * 6 + ["bools"] * 2 + ["const"] * 2 + ["listview"] * 6 + ["slice"] * 2
NAMES += ["dict"] * 3 + ["narrow"] * 2
NAMES += ["concat"] * 2 + ["texts"] * 2 + ["fixed"] * 3 + ["struct"] * 3 + ["project"] * 2
NAMES += ["take"] * 3 + ["filter"] * 2 + ["mask"] * 2 + ["rebuild"] * 3 + ["show"] * 3 + ["parts"] * 2
BAD_WORDS = ["", "-", "x", "-1", "1,", "null", "true", "u8", "i32?", "99999999999999999999", "zctl"]
BAD_WORDS += ["a=", "=0", "a=b", "a-b", "a=0=0"]
LITERALS = ("ints", "bools", "texts", "const")
MAKERS = ("listview", "slice", "take", "filter", "mask", "concat", "rebuild", "dict")  # after which the parts or the rows are often printed
FORMS = ("constant", "dictionary", "slice", "slice", "taken")
COMMANDS = tuple(dict.fromkeys(NAMES))

# each refusal that a script can meet, with the commands that are asked for it here. What needs more rows than the other reading
# can list, as the `Overflow` of `rebuild` and `concat` does, is left to the cases.
REFUSALS = {
    "Syntax": COMMANDS,
    "NoRegister": tuple(name for name in COMMANDS if name not in LITERALS),
    "MismatchedTypes": (
        *("const", "listview", "fixed", "dict", "struct", "take", "filter", "mask", "rebuild"),
        *("narrow", "project"),
    ),
    "LengthMismatch": ("listview", "fixed", "struct", "filter", "mask"),
    "OutOfBounds": ("listview", "dict", "slice", "take"),
    "Negative": ("listview", "dict", "take"),
    "Overflow": ("listview", "fixed"),
    "NotImplemented": ("rebuild",),
    "HasNulls": LITERALS,
    "UnknownField": ("project",),
    "EmptyInput": ("concat",),
    "DifferingDtypes": ("concat",),
    "NotUtf8": ("texts",),
    "DegenerateElements": ("fixed",),
}
LARGE_REFUSALS = {"Overflow": 0.8, "Memory": 0.2}  # and how often a line is kept that meets it
MOST_STARTS = 20  # scripts that are begun to meet a refusal,
MOST_TRIES = 100  # and lines that are tried in each
LARGE = [2**31, 2**32, 2**40, 2**53, 2**60, 2**62, 2**63 - 1, 2**63, 2**64 - 1]
LARGE_NAMES = ["const"] * 12 + ["fixed", "dict", "listview", "concat", "mask", "filter", "struct"] * 2
LARGE_NAMES += ["take"] * 4
NESTED = ("fixed", "listview", "struct")
MOST_TEXT = 10_000
MOST_MADE = 2**22  # bytes of an array that is made: others take far more than there is
FIELDS = ["a", "b", "B", "a1", "_", "7"]
TEXTS = ["x", "x6869", "xC3a9", "xc3", "x" + "61" * 12, "x" + "61" * 13, "x" + "e282ac" * 9]


class Writer:
    """Writes a random script, line by line, knowing the arrays that it has made."""

    def __init__(self, seed: int):
        self.random = random.Random(seed)
        self.arrays = []
        # the refusal that every other script ends with, and a command that it is met by
        self.refusal = [*REFUSALS][seed // 2 % len(REFUSALS)] if seed % 2 == 0 else None
        self.refused = self.random.choice(REFUSALS[self.refusal]) if self.refusal else None
        # how often a number is one of the ends of its type, or -1
        self.extreme = 0.2 if self.refusal in ("Negative", "Overflow") else 0.05
        # how many rows many arrays of the script have: now and then more than a word of bits holds, mostly any
        lengths = random.Random(f"length {seed}")
        self.length = lengths.choice([*[lengths.randint(65, 200)] * 2, *[lengths.randint(2, 9)] * 2, *[None] * 6])

    def register(self, fits=lambda array: True) -> str:
        """A register, of an array that fits where there is one."""
        fitting = [i for i, array in enumerate(self.arrays) if fits(array)]
        if fitting and self.random.random() < 0.95:
            return str(self.random.choice(fitting[-4:]))
        return str(self.random.randrange(len(self.arrays) + 2))

    def number(self, kind: str, most: int) -> str:
        """A number of a type, mostly from 0 to `most`."""
        if self.random.random() < self.extreme:
            extremes = [RANGES[kind].start, RANGES[kind].stop - 1, max(-1, RANGES[kind].start)]
            return str(self.random.choice(extremes))
        return str(self.random.randint(0, min(most, RANGES[kind].stop - 1)))

    def item(self, kind: str, nullable: bool) -> str:
        if self.random.random() < (0.2 if nullable else 0.01):
            return "null"
        if kind in ("utf8", "binary"):
            return self.random.choice(TEXTS)
        return self.random.choice(["true", "false"]) if kind == "bool" else self.number(kind, 5)

    def items(self, kind: str, nullable: bool) -> str:
        count = self.random.choice([0, 1, 2, 3, 3, 3, 4, 9])
        if self.length is not None and self.random.random() < 0.7:
            count = self.length
        return self.list_of(kind, nullable, count)

    def list_of(self, kind: str, nullable: bool, count: int) -> str:
        return ",".join(self.item(kind, nullable) for _ in range(count)) or "-"

    def kind(self) -> str:
        """An integer type: mostly the one with sums that pass 64 bits, where a script is to meet `Overflow`."""
        if self.refusal == "Overflow" and self.random.random() < 0.7:
            return "u64"
        return self.random.choice(list(RANGES))

    def made(self, register: str):
        """The array of a register, or nothing where it is not made yet."""
        return self.arrays[int(register)] if int(register) < len(self.arrays) else None

    def count_of(self, register: str) -> int:
        """How many rows a register has, none where it is not made yet."""
        made = self.made(register)
        return made.rows.count if made else 0

    def literal(self, name: str):
        """The operands of a line that spells an array out."""
        nullable = self.random.random() < 0.4
        kinds = {"ints": [self.kind()], "bools": ["bool"], "texts": ["utf8", "binary"]}
        kinds["const"] = [self.kind(), self.kind(), "bool", "bool", "utf8", "binary"]
        kind = self.random.choice(kinds[name])
        type_name = kind + ("?" if nullable else "")
        if name == "const":
            return [type_name, self.item(kind, nullable), str(self.random.randint(0, 5))]
        return [type_name, self.items(kind, nullable)]

    def mask(self, count) -> str:
        """A mask, mostly of so many rows."""
        fits = lambda array: count is None or array.rows.count == count
        return self.register(
            lambda array: array.kind == "bool" and not array.nullable and fits(array)
        )

    def validity(self, count: int) -> str:
        mask = self.mask(count)
        return self.random.choice(["nonnull", "allvalid", "allinvalid", mask, mask])

    def list_view(self):
        """The parts of a list view, which mostly have one length."""
        offsets = self.register(lambda array: array.is_plain_integers())
        made = self.made(offsets)
        count = self.count_of(offsets)
        is_number = made is not None and made.is_plain_integers()
        least = max(made.rows.different(), default=0) if is_number else 0
        sizes = self.register(lambda array: array.is_plain_integers() and array.rows.count == count)
        elements = self.register(lambda array: array.rows.count > least)
        return [elements, offsets, sizes, self.validity(count)]

    def fixed(self):
        """The parts of lists of one size, which mostly take all elements."""
        elements = self.register()
        count = self.count_of(elements)
        sizes = [size for size in range(1, count + 1) if count % size == 0] or [0, 0, 1, 2**32 - 1]
        size = self.random.choice(sizes)
        length = count // size if count > 0 else self.random.randint(0, 3) * int(size == 0)
        if self.random.random() < 0.1:
            size = self.random.choice([0, 1, 3, 2**32 - 1, 2**32])
            length = self.random.choice([length, 2**33 if size >= 2**32 - 1 else length])
        return [elements, str(size), self.validity(length), str(length)]

    def struct(self):
        """The parts of records, of which the columns mostly have one length."""
        count = self.count_of(self.register())
        column = lambda: self.register(lambda array: array.rows.count == count)
        fields = self.random.choices(FIELDS, k=self.random.choice([0, 1, 2, 2, 3]))
        columns = [f"{name}={column()}" for name in fields]
        return [str(count), self.validity(count), *columns]

    def project(self):
        """Records, and names that are mostly those of their fields."""
        records = self.register(lambda array: array.layout == "struct")
        made = self.made(records)
        is_known = made and made.names and self.random.random() < 0.9
        names = made.names if is_known else FIELDS
        return [records, *self.random.choices(names, k=self.random.randint(0, 3))]

    def dict(self):
        """Codes, and values of which there are mostly enough."""
        codes = self.register(lambda array: array.kind in RANGES)
        made = self.made(codes)
        rows = made.rows.different() if made and made.kind in RANGES else []
        most = max((code or 0 for code in rows), default=0)
        return [codes, self.register(lambda array: array.rows.count > most)]

    def concat(self):
        """Arrays mostly of one type."""
        if self.random.random() < 0.05:
            return []
        first = self.register()
        made = self.made(first)
        fits = lambda array: made is None or same_type(array, made)
        return [first, *(self.register(fits) for _ in range(self.random.randint(0, 2)))]

    def slice(self):
        """An array, and bounds that are small, or anywhere in it."""
        register = self.register()
        most = self.random.choice([4, self.count_of(register)])
        return [register, *map(str, sorted(self.random.randint(0, most) for _ in range(2)))]

    def operands(self, name: str):
        if name in LITERALS:
            return self.literal(name)
        writers = {"listview": self.list_view, "fixed": self.fixed, "struct": self.struct}
        writers.update({"project": self.project, "dict": self.dict, "concat": self.concat})
        if name in writers:
            return writers[name]()
        if name == "slice":
            return self.slice()
        if name == "narrow":
            return [self.register(lambda array: array.layout == "primitive")]
        if name == "take":
            return [self.register(), self.register(lambda array: array.kind in RANGES)]
        if name in ("filter", "mask"):
            array = self.register()
            return [array, self.mask(self.count_of(array) if self.made(array) else None)]
        if name == "rebuild":
            modes = ["zctl"] * 4 + ["trim"] * 4 + ["exact"] * 3 + ["overlap"] * 2
            lists = self.register(lambda array: array.layout == "listview")
            return [lists, self.random.choice(modes)]
        return [self.register(lambda array: name == "show" or array.is_exact)]

    def formed(self):
        """Lines that make numbers or truth values as a constant, a dictionary, a slice or what was taken, of a length that is met."""
        kind, form = self.random.choice([self.kind(), "bool", "bool"]), self.random.choice(FORMS)
        count = self.count_of(self.register()) if self.length is None else self.length
        command, first = "bools" if kind == "bool" else "ints", len(self.arrays)
        if count > MOST_FORMED:
            return []
        if form == "constant":
            return [f"const {kind} {self.small(kind)} {count}"]
        start, more, held = self.random.randint(0, 9), self.random.randint(0, 2), self.random.randint(1, 4)
        rows = start + count + more if form == "slice" else held
        values = ",".join(self.small(kind) for _ in range(rows)) or "-"
        if form == "slice":
            return [f"{command} {kind} {values}", f"slice {first} {start} {start + count}"]
        places = ",".join(str(self.random.randrange(held)) for _ in range(count)) or "-"
        last = f"dict {first} {first + 1}" if form == "dictionary" else f"take {first + 1} {first}"
        return [f"ints u8 {places}", f"{command} {kind} {values}", last]

    def small(self, kind: str) -> str:
        return self.random.choice(["true", "false"]) if kind == "bool" else str(self.random.randint(0, 3))

    def told(self, name: str):
        """After a command that makes an array of others, now and then a line that prints that."""
        register = str(len(self.arrays) - 1)
        what = self.random.choice(["parts", "show", "parts" if name == "rebuild" else "none"])
        is_told = name in MAKERS and what != "none" and self.is_told([what, register])
        return [f"{what} {register}"] if is_told else []

    def line(self, name: str, spoiled: float) -> str:
        """A random line of a command, with a chance of being malformed."""
        words = [name, *self.operands(name)]
        if self.random.random() < spoiled:
            place = self.random.randrange(len(words))
            ways = [[self.random.choice(BAD_WORDS)], [words[place], "0"], []]
            words[place : place + 1] = self.random.choice(ways)
        return " ".join(words)

    def fault_of(self, line: str):
        """Runs a line; gives why it is refused, if it is, or that the other reading says nothing of it."""
        try:
            run_line(self.arrays, line.split())
        except Fault as fault:
            return str(fault)
        except Beyond:
            return UNTOLD
        return None

    def made_lines(self):
        """Lines that are run, of which at most the last is refused: few scripts end so by chance."""
        lines = []
        while len(lines) < MOST_LINES:
            if self.random.random() < (0.05 if self.length is None else 0.15):
                formed = self.formed()
                lines += [line for line in formed if self.fault_of(line) is None]
            name = self.random.choice(NAMES)
            line = self.line(name, 0.01)
            fault = self.fault_of(line) if self.is_told(line.split()) else UNTOLD
            if fault == UNTOLD or fault is not None and self.random.random() < 0.97:
                continue
            lines += [line, *([] if fault else self.told(name))]
            if fault is not None:
                break
        return lines

    def lines_to_a_refusal(self):
        """Lines of which the last meets the refusal by the command, or none where it is not met."""
        self.arrays = []
        least = self.random.randrange(MOST_LINES)
        lines = []
        for _ in range(MOST_TRIES):
            is_end = len(lines) >= least
            name = self.refused if is_end and self.random.random() < 0.5 else self.random.choice(NAMES)
            line = self.line(name, 0.3 if self.refusal == "Syntax" and is_end else 0.0)
            if not self.is_told(line.split()):
                continue
            made = len(self.arrays)
            fault = self.fault_of(line)
            if is_end and fault == self.refusal and name == self.refused:
                return [*lines, line]
            if fault is None and len(lines) < MOST_LINES:
                lines.append(line)
            else:
                del self.arrays[made:]
        return []

    def script(self) -> str:
        """A script, of which at most the last line is refused."""
        starts = range(MOST_STARTS if self.refusal else 0)
        lines = next(filter(None, (self.lines_to_a_refusal() for _ in starts)), None)
        if lines is None:
            self.arrays = []
            lines = self.made_lines()
        return "\n".join(lines) + "\n"

    def is_told(self, words) -> bool:
        """Whether a rule says all that the line of these words prints."""
        return words[:1] != ["parts"] or self.fits_parts(words[1:])

    def fits_parts(self, operands) -> bool:
        """Whether a rule fixes all that `parts` prints of these operands."""
        if len(operands) != 1 or not operands[0].isdigit():
            return True
        register = int(operands[0])
        return register >= len(self.arrays) or self.arrays[register].is_exact


def text_size(row) -> int:
    """About how long the text of a row is."""
    if isinstance(row, Rows):
        return sum(count * (1 + text_size(one)) for one, count in row.runs)
    if isinstance(row, tuple):
        return sum(len(name) + 2 + text_size(field) for name, field in row)
    return 2 * len(row) if isinstance(row, bytes) else 4


def most_weight(array) -> int:
    """How many bytes an array takes at most."""
    return weight(array, array.rows.count) + validity_weight(array, array.rows.count)


def parts_of(array):
    """An array, and the elements and columns in it, at every depth."""
    inner = [*array.columns] if array.elements is None else [array.elements]
    return [array, *(part for one in inner for part in parts_of(one))]


def same_types(arrays) -> bool:
    """Whether arrays are of one type."""
    return all(same_type(arrays[0], array) for array in arrays)


class LargeWriter(Writer):
    """Writes a random script over constants of up to 2^64 rows, which asks for little memory or for far too much."""

    def __init__(self, seed: int):
        super().__init__(seed)
        self.refusal = self.refused = self.length = None
        self.lengths = [*self.random.sample(LARGE, 2), *self.random.sample(range(4), 1)]

    def literal(self, name: str):
        words = super().literal(name)
        return [*words[:2], str(self.random.choice(self.lengths))] if name == "const" else words

    def fixed(self):
        elements = self.register()
        count = self.count_of(elements)
        sizes = [size for size in (1, 2, 3, 2**10, 2**20, 2**31) if count % size == 0] + [2**32 - 1]
        size = self.random.choice(sizes if count > 0 else [0, 1, 2**31])
        length = count // size if size > 0 else self.random.choice(LARGE)
        return [elements, str(size), self.validity(length), str(length)]

    def slice(self):
        register = self.register()
        count = self.count_of(register)
        ends = [0, 1, count // 2, count - 1, count, count, count]
        bounds = sorted(max(end, 0) for end in self.random.choices(ends, k=2))
        bounds[1] += int(self.random.random() < 0.02)
        return [register, *map(str, bounds)]

    def take(self):
        """Indices that are mostly many, and lists or records, of which there may be none."""
        is_index = lambda array: array.kind in RANGES and (None in array.rows or 0 in array.rows)
        indices = self.register(lambda array: is_index(array) and array.rows.count > MOST_MADE)
        return [self.register(lambda array: array.layout in NESTED), indices]

    def operands(self, name: str):
        if name == "take" and self.random.random() < 0.5:
            return self.take()
        return self.slice() if name == "slice" else super().operands(name)

    def made_lines(self):
        lines = []
        while len(lines) < MOST_LINES:
            line = self.line(self.random.choice(NAMES + LARGE_NAMES), 0.0)
            made = len(self.arrays)
            if not self.is_told(line.split()):
                continue
            fault = self.fault_of(line)
            if fault == UNTOLD:
                continue
            new = self.arrays[made:]
            if any(most_weight(part) > MOST_MADE for one in new for part in parts_of(one)):
                del self.arrays[made:]
            elif fault is None or self.random.random() < LARGE_REFUSALS.get(fault, 0.01):
                lines.append(line)
                if fault is not None:
                    break
        return lines

    def is_costly(self, words) -> bool:
        """Whether a line asks for what is known to take time or memory for each of many rows (docs/PROVED.md)."""
        arrays = [self.made(word) for word in words[1:] if word.isdigit()]
        if words[0] == "dict" and None not in arrays:
            return arrays[0].layout == "dict"
        if words[0] == "listview" and None not in arrays:
            return any(one.rows.count > MOST_MADE and one.layout != "constant" for one in arrays[1:3])
        if words[0] == "concat" and arrays and None not in arrays:
            counts = [array.rows.count for array in arrays]
            is_constant = all(array.layout == "constant" for array in arrays)
            is_joined = same_types(arrays) and fit_together(arrays, counts)
            return is_joined and not is_constant and any(
                array.nullable and array.rows.count > MOST_MADE for array in arrays
            )
        return False

    def is_told(self, words) -> bool:
        """Whether a rule says all that a line prints, and that is short."""
        if words[0] not in ("show", "parts"):
            return not self.is_costly(words)
        array = self.made(words[1])
        if array is None or not super().is_told(words):
            return array is None
        parts = {"listview": [array.offsets, array.sizes], "dict": [array.codes]}
        printed = [array] if words[0] == "show" else parts.get(array.layout, [])
        return all(text_size(part.rows) < MOST_TEXT for part in printed)


def scripts(writer, count: int, seed: int):
    """So many random scripts, each with its number and what it should print."""
    for trial in range(seed, seed + count):
        script = writer(trial).script()
        yield trial, script, run_script(script)
