"""Orders the functions of a WebAssembly module so that it packs smaller.

gzip finds what it has met in the last 32 KB alone. So each function is followed by the one of which most stands in the functions before
it. Nothing else of the module changes: its calls and exports name the same functions by their new numbers.

A module with anything that isn't known here is refused, so that nothing is changed by mistake.
"""
import collections
import zlib

# How many bytes of functions before a function count.
WINDOW = 30_000
# Functions are compared by their runs of so many bytes, of which one in so many is looked at.
RUN, SAMPLE = 6, 8
# A run that more functions have tells nothing.
MOST = 800

TYPES, IMPORTS, FUNCTIONS, TABLES, ELEMENTS, EXPORTS, START, CODE = 1, 2, 3, 4, 9, 7, 8, 10

# The instructions by what follows them: nothing, so many numbers, or so many bytes.
NUMBERS = {
    **dict.fromkeys([0x02, 0x03, 0x04, 0x0C, 0x0D, *range(0x20, 0x25), 0x3F, 0x40, 0x41, 0x42], 1),
    **dict.fromkeys([0x00, 0x01, 0x05, 0x0B, 0x0F, 0x1A, 0x1B, *range(0x45, 0xC5)], 0),
    **dict.fromkeys(range(0x28, 0x3F), 2),
}
BYTES = {0x43: 4, 0x44: 8}
# The same for those behind the prefix 0xFC: conversions, and what is done with whole ranges of memory.
PREFIX = 0xFC
PREFIXED = {**dict.fromkeys(range(8), 0), 8: 2, 9: 1, 10: 2, 11: 1}
CALL, TABLE_OF_BRANCHES = 0x10, 0x0E


class Unknown(Exception):
    """What a module has that isn't known here."""


def number_at(data, at):
    """The number at a place, and the place behind it."""
    number = shift = 0
    while True:
        byte = data[at]
        at += 1
        number |= (byte & 0x7F) << shift
        shift += 7
        if byte < 0x80:
            return number, at


def behind(data, at, count=1):
    """The place behind so many numbers."""
    for _ in range(count):
        while data[at] >= 0x80:
            at += 1
        at += 1
    return at


def written(number):
    """A number as a module has it."""
    made = bytearray()
    while number >= 0x80:
        made.append(number & 0x7F | 0x80)
        number >>= 7
    return bytes([*made, number])


def sized(data):
    return written(len(data)) + data


def sections_of(module):
    """The sections, each with its id."""
    found, at = [], 8
    while at < len(module):
        size, start = number_at(module, at + 1)
        found.append((module[at], module[start : start + size]))
        at = start + size
    return found


def listed(section):
    """The numbers of a list."""
    count, at = number_at(section, 0)
    found = []
    for _ in range(count):
        number, at = number_at(section, at)
        found.append(number)
    return found


def bodies_in(code):
    """The bodies of the functions."""
    count, at = number_at(code, 0)
    found = []
    for _ in range(count):
        size, start = number_at(code, at)
        found.append(code[start : start + size])
        at = start + size
    return found


def imported(section):
    """How many functions are imported, where nothing else is."""
    count, at = number_at(section, 0)
    for _ in range(count):
        for _ in ("the name of the module", "the name"):
            size, at = number_at(section, at)
            at += size
        if section[at] != 0:
            raise Unknown("an import that is no function")
        at = behind(section, at + 1)
    return count


def next_instruction(body, at):
    """The place behind an instruction that is no call."""
    code = body[at]
    if code in NUMBERS:
        return behind(body, at + 1, NUMBERS[code])
    if code in BYTES:
        return at + 1 + BYTES[code]
    if code == TABLE_OF_BRANCHES:
        count, at = number_at(body, at + 1)
        return behind(body, at, count + 1)
    if code == PREFIX:
        which, at = number_at(body, at + 1)
        if which in PREFIXED:
            return behind(body, at, PREFIXED[which])
    raise Unknown(f"the instruction {code:#x}")


def pieces_of(body):
    """What stands between the numbers of called functions, and these numbers."""
    between, called = [], []
    runs, at = number_at(body, 0)
    for _ in range(runs):
        at = behind(body, at, 2)
    start = 0
    while at < len(body):
        if body[at] == CALL:
            between.append(body[start : at + 1])
            number, at = number_at(body, at + 1)
            called.append(number)
            start = at
        else:
            at = next_instruction(body, at)
    return [*between, body[start:]], called


def runs_in(body):
    """A sample of the runs of bytes in a body, each as a number."""
    found = {zlib.crc32(body[at : at + RUN]) for at in range(len(body) - RUN)}
    return {it for it in found if it % SAMPLE == 0}


class Window:
    """How much of each function stands in the functions before. A rare run counts more than one that many functions have."""

    def __init__(self, bodies):
        having = collections.defaultdict(list)
        for at, body in enumerate(bodies):
            for run in runs_in(body):
                having[run].append(at)
        self.having = {run: all_ for run, all_ in having.items() if 1 < len(all_) < MOST}
        self.weight = {run: (len(bodies) // len(all_)).bit_length() for run, all_ in self.having.items()}
        self.runs = [[] for _ in bodies]
        for run, all_ in self.having.items():
            for at in all_:
                self.runs[at].append(run)
        self.sizes = [len(body) for body in bodies]
        self.whole = [1 + sum(self.weight[run] for run in runs) for runs in self.runs]
        self.met = [0] * len(bodies)
        self.counts = collections.Counter()
        self.inside, self.size = collections.deque(), 0

    def count(self, run, by):
        for at in self.having[run]:
            self.met[at] += by * self.weight[run]

    def add(self, function):
        self.inside.append(function)
        self.size += self.sizes[function]
        for run in self.runs[function]:
            self.counts[run] += 1
            if self.counts[run] == 1:
                self.count(run, 1)
        while self.size > WINDOW and len(self.inside) > 1:
            self.drop(self.inside.popleft())

    def drop(self, function):
        self.size -= self.sizes[function]
        for run in self.runs[function]:
            self.counts[run] -= 1
            if self.counts[run] == 0:
                self.count(run, -1)

    def share(self, function):
        return self.met[function] / self.whole[function]


def order_of(bodies):
    """The numbers of the functions in their new order. Of equally good ones the first comes first."""
    window, left, order = Window(bodies), list(range(len(bodies))), []
    while left:
        best = max(left, key=window.share)
        left.remove(best)
        order.append(best)
        window.add(best)
    return order


def renamed_exports(section, name):
    """The exports, with functions by their new numbers."""
    count, at = number_at(section, 0)
    made = bytearray(written(count))
    for _ in range(count):
        size, start = number_at(section, at)
        at = start + size
        number, end = number_at(section, at + 1)
        made += sized(section[start:at]) + section[at : at + 1] + written(name(number) if section[at] == 0 else number)
        at = end
    return bytes(made)


def renamed_body(body, name):
    """A body, with called functions by their new numbers."""
    between, called = pieces_of(body)
    return b"".join([between[0], *(written(name(number)) + piece for number, piece in zip(called, between[1:]))])


def ordered(module):
    """The module with its functions in the order in which it packs well."""
    sections = sections_of(module)
    having = dict(sections)
    if len(having) != len(sections) or {TABLES, ELEMENTS, START, 0} & set(having):
        raise Unknown("a section that is given twice, or that names functions")
    imports = imported(having[IMPORTS]) if IMPORTS in having else 0
    bodies, types = bodies_in(having[CODE]), listed(having[FUNCTIONS])
    order = order_of(bodies)
    places = {old: new for new, old in enumerate(order)}
    name = lambda number: number if number < imports else imports + places[number - imports]
    having[FUNCTIONS] = written(len(order)) + b"".join(written(types[old]) for old in order)
    having[CODE] = written(len(order)) + b"".join(sized(renamed_body(bodies[old], name)) for old in order)
    having[EXPORTS] = renamed_exports(having[EXPORTS], name)
    return module[:8] + b"".join(bytes([kind]) + sized(having[kind]) for kind, _ in sections)
