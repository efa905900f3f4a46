"""What the program whysheet writes for a sheet, by the model: typesheet's two lines, and after them the lines that say why.

"where the sheet was refused with 8, of the item that was refused; where it is accepted, of its last item, if that is an operator or a call".
"""
import model
from model import Refused

MOST_ENTRIES = 256
MOST_VALUES = 64
HEADER = 3
LONGEST = 60000

# The kinds of an item, and how long its payload may be in version 1.
PUSH, UNARY, BINARY, CALL, CALL_TEMPLATE, TAKE = range(1, 7)
PAYLOADS = {PUSH: [1], UNARY: [1], BINARY: [1], CALL: range(2, 34), CALL_TEMPLATE: range(3, 35), TAKE: [7]}
MARKED = [PUSH, TAKE]


class Ended(Exception):
    """Why a sheet is refused: the refusal, the place, and the text, which only 8 has."""

    def __init__(self, number, place, lacking=0, text=""):
        super().__init__(number)
        self.number, self.place, self.lacking, self.text = number, place, lacking, text


def absent(table, t):
    """The entries that a type lacks, an element before its container."""
    if t in table:
        return []
    return absent(table, model.elem(t)) + [t]


def entered(table, t):
    """Enters a type where it is absent."""
    missing = absent(table, t)
    free = MOST_ENTRIES - len(table)
    if len(missing) > free:
        raise Refused(9, len(missing) - free)
    table += missing


def entry(table, kind, p, q, elem):
    """The type of an entry; 5 where it breaks the rule of its kind."""
    if kind < len(model.SCALARS):
        if p or q or elem:
            raise Refused(5)
        return model.SCALARS[kind]
    if elem >= len(table):
        raise Refused(5)
    of = table[elem]
    storable = model.kind(of) not in ("ptr", "ref", "runtime")
    pointed = model.kind(of) not in ("ptr", "ref") and not model.abstract_at_any_depth(of)
    fract = of in model.FLOAT or model.kind(of) == "vec" and model.elem(of) in model.FLOAT
    rules = {
        7: (2 <= p <= 4 and q == 0 and model.is_scalar(of), lambda: ("vec", p, of)),
        8: (2 <= p <= 4 and 2 <= q <= 4 and of in model.FLOAT, lambda: ("mat", p, q, of)),
        9: (p >= 1 and q == 0 and storable, lambda: ("array", p, of)),
        10: (p == q == 0 and storable, lambda: ("runtime", of)),
        11: (p == q == 0 and of in model.BITS, lambda: ("atomic", of)),
        12: (p < 5 and q < 3 and pointed, lambda: ("ptr", model.SPACES[p], model.ACCESSES[q], of)),
        13: (p < 6 and q < 3 and pointed, lambda: ("ref", model.SPACES[p], model.ACCESSES[q], of)),
        14: (p == q == 0 and fract, lambda: ("frexp", of)),
        15: (p == q == 0 and fract, lambda: ("modf", of)),
        16: (p == q == 0 and of in model.BITS, lambda: ("exchange", of)),
    }
    right, made = rules.get(kind, (False, None))
    if not right:
        raise Refused(5)
    return made()


class Machine:
    """A sheet's table and stack; a value is a type and whether it is running."""

    def __init__(self, profile):
        self.profile, self.table, self.stack = profile, list(model.SCALARS), []
        self.text, self.no_value = "", False

    def popped(self, k):
        if len(self.stack) < k:
            raise Refused(11)
        values = self.stack[len(self.stack) - k:]
        del self.stack[len(self.stack) - k:]
        return [t for t, _ in values], [running for _, running in values]

    def type_of(self, number):
        if number >= len(self.table):
            raise Refused(2)
        return self.table[number]

    def pushed(self, t, running):
        if len(self.stack) == MOST_VALUES:
            raise Refused(11)
        entered(self.table, t)
        self.stack.append((t, running))

    def answered(self, answer, last):
        """What an operator or a call answered."""
        result, running, self.text = answer
        if result is None:
            raise Refused(8)
        if result != model.NO_VALUE:
            self.pushed(result, running)
        elif self.stack or not last:
            raise Refused(11)
        else:
            self.no_value = True

    def item(self, kind, payload, running, last):
        self.text = ""
        if kind == PUSH:
            self.pushed(self.type_of(payload[0]), running)
        elif kind == TAKE:
            p = int.from_bytes(payload[1:5], "big")
            self.pushed(entry(self.table, payload[0], p, payload[5], payload[6]), running)
        elif kind == UNARY:
            self.answered(model.unary(payload[0], *self.popped(1)), last)
        elif kind == BINARY:
            self.answered(model.binary(payload[0], *self.popped(2)), last)
        else:
            given = payload if kind == CALL else payload[1:]
            types, marks = self.popped(given[0])
            templates = [] if kind == CALL else [self.type_of(payload[0])]
            self.answered(model.call(self.profile, given[1:].decode("latin-1"), templates, types, marks), last)


def framed(sheet, place):
    """The item at a place: its kind, its payload without the mark, its mark."""
    size = sheet[place]
    if size == 0 or place + 1 + size > len(sheet):
        raise Refused(10)
    kind, payload = sheet[place + 1], sheet[place + 2:place + 1 + size]
    mark = 0
    if sheet[0] == 2 and kind in MARKED:
        if not payload or payload[-1] > 1:
            raise Refused(10)
        payload, mark = payload[:-1], payload[-1]
    if len(payload) not in PAYLOADS.get(kind, []):
        raise Refused(10)
    return kind, payload, bool(mark)


def run(machine, sheet):
    """Runs a sheet to its end; a refusal is raised with its place."""
    if len(sheet) < HEADER or sheet[0] not in (1, 2) or int.from_bytes(sheet[1:3], "big") > LONGEST or len(sheet) != HEADER + int.from_bytes(sheet[1:3], "big"):
        raise Ended(10, 0)
    if machine.profile not in (0, 1):
        raise Ended(4, 0)
    place = HEADER
    while place < len(sheet):
        after = place + 1 + sheet[place]
        try:
            kind, payload, running = framed(sheet, place)
            machine.item(kind, payload, running, after == len(sheet))
        except Refused as why:
            raise Ended(why.number, place, why.lacking, machine.text if why.number == 8 else "")
        if sheet[0] == 1:
            machine.stack = [(t, False) for t, _ in machine.stack]
        place = after
    if len(machine.stack) != (0 if machine.no_value else 1):
        raise Ended(11, len(sheet))


def written(profile, sheet):
    """The whole output."""
    machine = Machine(profile)
    try:
        run(machine, sheet)
        first, text = "none", machine.text
        if not machine.no_value:
            t = machine.stack[0][0]
            first = f"type {machine.table.index(t)} {model.spelled(t)}"
    except Ended as ended:
        first, text = f"refused {ended.number} at {ended.place}", ended.text
        if ended.number == 9:
            first += f" lacking {ended.lacking}"
    return f"{first}\nentries {len(machine.table)}\n{text}"
