"""The tape once more, for the test of the corpus: which tapes are accepted, and how large they are.

Written from docs/SUPPLIER.md's protocol and document 01's table of codes; nothing of the kit is asked.
"""

# What may stand at a place: names of kinds, and the codes of each.
CONDITION = tuple(range(1, 14))
TERM = tuple(range(20, 34))
KINDS = {
    "condition": CONDITION,
    "term": TERM,
    "aggregate": (34, 35, 36),
    "slot": (43, 44, 45),
    "type": (46, 47),
    "within": (48, 49, 50, 51, 52, 64),
    "interval": (48, 49, 50, 51, 64),
    "argument": (55, 56, 57),
    "body": (61, 62, 63),
    "call": (54,),
    "definition": (60,),
    "text": (40,),
    "span": (42,),
    "operator": (53,),
    "sigil": (58, 59),
    "provider argument": (71, 72, 73, 74, 75, 76),
    "any": CONDITION + TERM + (41, 54, 60),
    "provider": (70, 71, 72, 73, 74, 75, 76),
}

# What follows an entry; a list in brackets is a 41 with that for each of its items.
PARTS = {
    1: ["condition", "condition"],
    2: ["condition", "condition"],
    3: ["condition"],
    4: ["within", "condition"],
    5: ["within", "condition"],
    6: ["condition", "within", "condition"],
    7: ["span", ["text"], "text", "text", ["text", "term"]],
    8: ["operator", "term", "term"],
    9: ["slot", "type", "condition"],
    10: ["slot"],
    11: ["call"],
    12: ["sigil"],
    13: ["span", "condition", ["text", "term"]],
    20: ["text", "text"],
    30: ["aggregate"],
    31: ["term", "term"],
    34: ["slot", ["slot", "type"], "condition"],
    35: [["slot", "type"], "condition"],
    36: ["call"],
    54: ["text", ["argument"]],
    55: ["condition"],
    56: ["term"],
    57: ["interval"],
    60: ["text", ["span", "text"], "body"],
    62: ["condition"],
    63: ["term"],
    70: ["text", ["provider argument"]],
}
# What follows as often as the value says. A 41 at a root is a registry.
ITEMS = {25: ["text"], 26: ["text"], 29: ["term"], 41: ["definition"], 47: ["text"], 71: ["text"], 76: ["provider argument"]}

SPANS = {*range(1, 14), 34, 35, 36, 42, 54, 60, 70}
TEXTS = {22, 23, 27, 32, 33, 40, 43, 44, 45, 52, 58, 59, 72, 74}
ANY = {21, 48, 49, 50, 51, 64, 73}
BELOW = {24: 2, 75: 2, 31: 3, 53: 6}
NODES = {*range(1, 14), *range(20, 37), *range(71, 77)}

ENTRIES, TEXT, NESTING, CALLS, PARAMETERS, LITERAL, NAME = 1024, 3072, 64, 4, 16, 255, 64

# The roots of each operation's tapes.
ROOTS = {
    "check": [60],
    "registry": [41],
    "substitute": [60, 54],
    "expand": [41, "condition"],
    "preview": [41, "condition"],
    "check_library": [41],
    "check_at": [41],
    "judge": [41, "condition", "condition"],
    "merge": [41, 41],
    "older": ["any"],
    "profile": ["condition"],
    "provider": ["provider"],
    "argument_to_term": ["provider argument"],
    "term_to_argument": ["term"],
}


class Refused(Exception):
    """2 or 3."""


class Figures:
    """What of a tape is measured, and what it comes to when each `or` is rewritten."""

    def __init__(self):
        self.entries = self.text = self.nesting = self.calls = 0
        self.rewritten_entries = self.rewritten_nesting = 0
        self.is_over = self.has_at = False

    def single(self, is_, largest):
        """A figure of one entry, such as the length of a text."""
        self.is_over |= is_ > largest
        self.has_at |= is_ == largest

    def at_a_figure(self):
        whole = [(self.entries, ENTRIES), (self.rewritten_entries, ENTRIES), (self.text, TEXT), (self.nesting, NESTING)]
        whole += [(self.rewritten_nesting, NESTING), (self.calls, CALLS)]
        return self.has_at or any(is_ == largest for is_, largest in whole)


def number(data):
    return int.from_bytes(data, "little")


def sizes(tape):
    """N and T; 0 and 0 where there is no room for them."""
    return (number(tape[0:4]), number(tape[4:8])) if len(tape) >= 8 else (0, 0)


def codes(tape):
    """The codes, as far as the tape goes."""
    return tape[8 : 8 + sizes(tape)[0]]


def text(tape):
    """The text, as far as the tape goes."""
    entries, length = sizes(tape)
    return tape[8 + 9 * entries :][:length]


class Reader:
    def __init__(self, tape, longest_name):
        entries, _ = sizes(tape)
        self.codes, self.values, self.text = tape[8 : 8 + entries], tape[8 + entries : 8 + 9 * entries], text(tape)
        self.at = self.text_at = 0
        self.longest_name, self.figures = longest_name, Figures()

    def malformed_unless(self, holds):
        if not holds:
            raise Refused(2)

    def read(self, allowed, items, nesting=(0, 0), calls=0):
        """The tree that begins at the next entry. `nesting` is how many nodes are above it, as given and rewritten."""
        self.malformed_unless(self.at < len(self.codes))
        code, value = self.codes[self.at], number(self.values[8 * self.at : 8 * self.at + 8])
        self.malformed_unless(code in allowed)
        self.at += 1
        figures = self.figures
        figures.entries += 1
        figures.rewritten_entries += 4 if code == 2 else 1
        if code in NODES:
            nesting = (nesting[0] + 1, nesting[1] + (3 if code == 2 else 1))
        calls += code == 54
        figures.nesting, figures.rewritten_nesting = max(figures.nesting, nesting[0]), max(figures.rewritten_nesting, nesting[1])
        figures.calls = max(figures.calls, calls)
        self.check_value(code, value)
        if code in ITEMS:
            for _ in range(value):
                self.read_all(items or ITEMS[code], nesting, calls)
        if code == 60:
            parameters = self.at + 1
            self.read_all(PARTS[60], nesting, calls)
            figures.single(number(self.values[8 * parameters : 8 * parameters + 8]), PARAMETERS)
        else:
            self.read_all(PARTS.get(code, []), nesting, calls)

    def read_all(self, parts, nesting, calls):
        for part in parts:
            if isinstance(part, list):
                self.read((41,), part, nesting, calls)
            else:
                self.read(KINDS[part], None, nesting, calls)

    def check_value(self, code, value):
        if code in TEXTS:
            self.take_text(code, value)
        elif code in BELOW:
            self.malformed_unless(value < BELOW[code])
        elif code not in SPANS and code not in ANY and code not in ITEMS:
            self.malformed_unless(value == 0)

    def take_text(self, code, length):
        taken = self.text[self.text_at : self.text_at + length]
        self.malformed_unless(len(taken) == length)
        self.text_at += length
        try:
            taken.decode("utf-8")
        except UnicodeDecodeError:
            raise Refused(2) from None
        self.malformed_unless(all(0x20 <= byte != 0x7F for byte in taken))
        if code in (22, 23, 72, 74):
            self.figures.single(length, LITERAL)
        else:
            self.figures.single(length, self.longest_name if code in (27, 43) else NAME)


def accept(tape, root, longest_name=NAME):
    """The figures of an accepted tape; otherwise Refused, with its number."""
    if len(tape) < 8:
        raise Refused(2)
    entries, length = sizes(tape)
    if entries > ENTRIES or length > TEXT:
        raise Refused(3)
    if len(tape) != 8 + 9 * entries + length:
        raise Refused(2)
    reader = Reader(tape, longest_name)
    reader.read((root,) if isinstance(root, int) else KINDS[root], None)
    figures = reader.figures
    figures.text = length
    reader.malformed_unless(reader.at == entries and reader.text_at == length)
    over = figures.is_over or figures.nesting > NESTING or figures.calls > CALLS
    if over or figures.rewritten_entries > ENTRIES or figures.rewritten_nesting > NESTING:
        raise Refused(3)
    return figures


def longest_name(operation, tape, file):
    """The longest name that a tape may hold: where generated ones may stand, those too."""
    if operation == "judge" and tape == 2:
        return 81 if file else 75
    return 81 if operation == "profile" else NAME
