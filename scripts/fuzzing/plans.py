"""Plans and assemblies that are made at random. A plan is written as a text and as a container, by docs/FORMATS.md.

A form is its constant and the factors of slots. A line of a procedure is a label, `("label", frame)`, or an
instruction: its word and its operands, in which labels and procedures stand by their numbers.
"""
import collections
import itertools
import struct

DIRECTIONS = ("+x", "-x", "+y", "-y", "+z", "-z")
CODE = {
    "halt": (0x00, ""), "push": (0x01, "n"), "load": (0x02, "v"), "store": (0x03, "v"), "add": (0x04, ""),
    "sub": (0x05, ""), "drop": (0x06, ""), "grip": (0x10, "s"), "step": (0x11, "d"), "aside": (0x12, "dt"),
    "tray": (0x13, "t"), "jump": (0x20, "L"), "down": (0x21, "vL"), "ask": (0x22, "nn"), "pick": (0x23, "LLLLLLLL"),
    "call": (0x24, "q"), "ret": (0x25, ""),
}
PACKED = {"n": ">h", "s": ">I", "L": ">H"}
ZERO = (0, {})
Frame = collections.namedtuple("Frame", "tray grip slots guards stack cost places")
Exit = collections.namedtuple("Exit", "tray grip results guards places")
Procedure = collections.namedtuple("Procedure", "parameters exit lines")
Plan = collections.namedtuple("Plan", "version name pieces budget procedures")


def form_text(form):
    """A form as it is written."""
    return str(form[0]) + "".join(f"{factor:+d}v{slot}" for slot, factor in sorted(form[1].items()) if factor)


def form_bytes(form, live):
    """A form over these live slots, in a container."""
    return struct.pack(f">i{len(live)}h", form[0], *(form[1].get(slot, 0) for slot in live))


def forms_bytes(forms, live):
    """Forms after their number."""
    return bytes([len(forms)]) + b"".join(form_bytes(form, live) for form in forms)


def set_text(pieces):
    """A set of pieces as it is written."""
    return ",".join(map(str, sorted(pieces))) or "-"


def set_bits(pieces):
    """A set as a number with a bit for each."""
    return sum(1 << piece for piece in pieces)


def place_text(place):
    """Where a piece lies, as it is written."""
    return f"{place[0]} {' '.join(map(form_text, place[1]))}" if place else "apart"


def place_bytes(place, live):
    """Where a piece lies, in a container."""
    return bytes([place[0]]) + b"".join(form_bytes(form, live) for form in place[1]) if place else b"\xff"


def frame_lines(frame):
    """The lines of a frame."""
    yield f"frame {frame.tray} {set_text(frame.grip)}"
    yield from (f"slot {slot} {low} {high}" for slot, (low, high) in sorted(frame.slots.items()))
    yield from (f"guard {form_text(form)}" for form in frame.guards)
    yield from (f"stack {form_text(form)}" for form in frame.stack)
    yield f"cost {form_text(frame.cost)}"
    yield from (f"at {piece} {place_text(place)}" for piece, place in enumerate(frame.places))


def exit_lines(exit_frame):
    """The lines of an exit frame."""
    yield f"exit {exit_frame.tray} {set_text(exit_frame.grip)}"
    yield from (f"result {low} {high}" for low, high in exit_frame.results)
    yield from (f"guard {form_text(form)}" for form in exit_frame.guards)
    yield from (f"at {piece} {place_text(place)}" for piece, place in enumerate(exit_frame.places))


def code_line(line, label, procedure):
    """An instruction as it is written, with the names of labels and procedures before their numbers."""
    word, *operands = line
    if word == "byte":
        return f"byte {operands[0]:02x}"
    shown = {"d": DIRECTIONS.__getitem__, "s": set_text, "L": f"{label}{{}}".format, "q": f"{procedure}{{}}".format}
    return " ".join([word, *(shown.get(kind, str)(operand) for kind, operand in zip(CODE[word][1], operands))])


def plan_lines(plan, label="L", procedure="p"):
    """The lines of a plan's text."""
    yield f"{'plan2' if plan.version == 2 else 'plan'} {plan.name} {plan.pieces} {plan.budget}"
    for number, (parameters, exit_frame, lines) in enumerate(plan.procedures):
        results = f" {len(exit_frame.results) if exit_frame else 0}" if plan.version == 2 else ""
        yield f"proc {procedure}{number} {parameters}{results}"
        yield from exit_lines(exit_frame) if exit_frame else ()
        labels = (f"{label}{number}" for number in range(300))
        for line in lines:
            if line[0] == "label":
                yield f"label {next(labels)}"
                yield from frame_lines(line[1])
            else:
                yield code_line(line, label, procedure)


def text_of(plan, *names):
    """The text of a plan."""
    return "".join(f"{line}\n" for line in plan_lines(plan, *names)).encode()


def frame_bytes(frame):
    """A frame in a container."""
    live = sorted(frame.slots)
    made = struct.pack(">BIB", frame.tray, set_bits(frame.grip), set_bits(live))
    made += b"".join(struct.pack(">hh", *frame.slots[slot]) for slot in live)
    made += forms_bytes(frame.guards, live) + forms_bytes(frame.stack, live) + form_bytes(frame.cost, live)
    return made + b"".join(place_bytes(place, live) for place in frame.places)


def exit_bytes(parameters, exit_frame, version):
    """An exit frame in a container of this version."""
    live = range(parameters + len(exit_frame.results))
    made = struct.pack(">BI", exit_frame.tray, set_bits(exit_frame.grip))
    if version == 2:
        made += b"".join(struct.pack(">hh", *bounds) for bounds in exit_frame.results)
        made += forms_bytes(exit_frame.guards, live)
    return made + b"".join(place_bytes(place, live) for place in exit_frame.places)


def code_bytes(line):
    """An instruction, or a raw byte, in a container."""
    word, *operands = line
    if word == "byte":
        return bytes(operands)
    opcode, kinds = CODE[word]
    values = (set_bits(operand) if kind == "s" else operand for kind, operand in zip(kinds, operands))
    packed = b"".join(struct.pack(PACKED.get(kind, ">B"), value) for kind, value in zip(kinds, values))
    return bytes([opcode] + [len(operands)] * (word == "pick")) + packed


def procedure_bytes(procedure, version):
    """A procedure in a container of this version."""
    parameters, exit_frame, lines = procedure
    made = bytes([parameters] + [len(exit_frame.results) if exit_frame else 0] * (version == 2))
    made += exit_bytes(parameters, exit_frame, version) if exit_frame else b""
    labels, code = [], b""
    for line in lines:
        if line[0] == "label":
            labels.append(struct.pack(">H", len(code)) + frame_bytes(line[1]))
        else:
            code += code_bytes(line)
    return made + struct.pack(">H", len(labels)) + b"".join(labels) + struct.pack(">H", len(code)) + code


def container_of(plan, version=None):
    """The container of a plan, of its own version or of this one."""
    version, name = version or plan.version, plan.name.encode()
    made = b"BPLN" + struct.pack(">HIBB", version, plan.budget, plan.pieces, len(name)) + name
    return made + bytes([len(plan.procedures)]) + b"".join(procedure_bytes(p, version) for p in plan.procedures)


class Wild:
    """Makes plans that a text may stand for, more or less of which is made at random."""

    def __init__(self, chance, assembly):
        self.chance = chance
        self.share = chance.choice((0, 0.01, 0.01, 0.05, 0.05, 0.2, 0.2, 1))
        self.version = chance.choice((1, 2))
        self.pieces = assembly.count(b"\npiece ")
        self.name = assembly.split()[1].decode()
        if self.odd() and self.odd():
            self.pieces, self.name = chance.randint(2, 32), random_name(chance)
        self.procedures = 1 + min(15, int(chance.expovariate(0.7)))

    def odd(self):
        """Whether something is made at random."""
        return self.chance.random() < self.share

    def number(self, low, high):
        """A number of this range, mostly a small one or one at an end."""
        way = self.chance.random()
        if way < 0.6:
            return min(high, max(low, self.chance.randint(-3, 6)))
        return self.chance.choice((low, high)) if way < 0.75 else self.chance.randint(low, high)

    def bounds(self):
        """A lowest and a highest number."""
        return tuple(sorted(self.number(-32767, 32767) for _ in range(2)))

    def form(self, live):
        """A form over some of these slots."""
        slots = [slot for slot in live if self.odd()]
        return self.number(-(2**31), 2**31 - 1), {slot: self.number(-32768, 32767) for slot in slots}

    def forms(self, most, live):
        """So many forms at most over some of these slots."""
        return [self.form(live) for _ in range(self.chance.randint(0, most) if self.odd() else 0)]

    def pieces_of(self, count):
        """Some of the first so many pieces."""
        return frozenset(piece for piece in range(count) if self.chance.random() < 0.4)

    def places(self, live):
        """Where pieces lie: at home, or anywhere."""
        return [
            (self.number(0, 31), tuple(self.form(live) for _ in range(3))) if self.odd() and self.chance.random() < 0.7
            else None if self.odd() else (0, (ZERO, ZERO, ZERO))
            for _ in range(self.pieces)
        ]

    def frame(self, parameters):
        """A frame of a procedure with so many parameters."""
        live = (slot for slot in range(8) if slot < parameters or self.odd() and self.chance.random() < 0.5)
        slots = {slot: self.bounds() for slot in live}
        cost = self.form(slots) if self.odd() else (self.number(0, 900), {})
        grip = self.pieces_of(self.pieces) if self.odd() else frozenset()
        tray = self.number(0, 31) if self.odd() else 0
        return Frame(tray, grip, slots, self.forms(4, slots), self.forms(8, slots), cost, self.places(slots))

    def exit(self, parameters):
        """An exit frame of a procedure with so many parameters."""
        results = [self.bounds() for _ in range(self.chance.randint(0, 2) if self.version == 2 else 0)]
        live = range(parameters + len(results))
        grip = self.pieces_of(self.pieces) if self.odd() else frozenset()
        guards = self.forms(4, live) if self.version == 2 else []
        return Exit(self.number(0, 31) if self.odd() else 0, grip, results, guards, self.places(live))

    def instruction(self, labels, most):
        """An instruction, or a raw byte, of so many bytes at most."""
        word = self.chance.choice([*CODE, "byte"])
        makers = {
            "n": lambda: self.number(-32767, 32767), "v": lambda: self.number(0, 7), "t": lambda: self.number(0, 31),
            "d": lambda: self.chance.randrange(6), "L": lambda: self.chance.randrange(labels),
            "s": lambda: self.pieces_of(32 if self.odd() else self.pieces) or frozenset([0]),
            "q": lambda: self.chance.randrange(self.procedures),
        }
        kinds = "b" if word == "byte" else CODE[word][1]
        operands = [makers[kind]() if kind != "b" else self.chance.randrange(256) for kind in kinds]
        if word == "pick":
            operands = operands[: self.chance.randint(2, 8)]
        line = (word, *(sorted(operands) if word == "ask" else operands))
        return line if len(code_bytes(line)) <= most else ("drop",)

    def procedure(self, number):
        """A procedure: a label before each part of its code."""
        parameters = self.chance.randint(0, 4) if number else 0
        exit_frame = self.exit(parameters) if number else None
        is_long = self.odd() and self.chance.random() < 0.05
        labels = self.chance.randint(200, 256) if is_long else self.chance.randint(1, 5)
        most = 12 if is_long else 18
        lines = []
        for _ in range(labels):
            lines.append(("label", self.frame(parameters)))
            lines += [self.instruction(labels, most) for _ in range(1 if is_long else self.chance.randint(1, 8))]
        return Procedure(parameters, exit_frame, lines)

    def plan(self):
        """A plan."""
        budget = self.number(1, 1_000_000)
        return Plan(self.version, self.name, self.pieces, budget, [self.procedure(n) for n in range(self.procedures)])


    def largest(self):
        """A plan with as much as there may be of all but code."""
        self.share, self.pieces = 1, 32
        frame = self.frame(0)._replace(slots={slot: (0, 9) for slot in range(8)})
        frame = frame._replace(guards=[self.form(range(8))] * 4, stack=[self.form(range(8))] * 8)
        lines = [line for _ in range(256) for line in (("label", frame), ("drop",))]
        callee = Procedure(4, self.exit(4), lines)
        return Plan(self.version, self.name, 32, 1_000_000, [Procedure(0, None, lines), *[callee] * 15])


def random_name(chance):
    """A name, of the greatest length too."""
    letters = "ABCDEFGHIJKLMNOPQRSTUVWXYZabcdefghijklmnopqrstuvwxyz"
    length = chance.choice((0, 1, 2, 5, 31))
    return chance.choice(letters) + "".join(chance.choices(letters + "0123456789_-", k=length))


def turns():
    """The 24 orientations."""
    for axes, signs in itertools.product(itertools.permutations("xyz"), itertools.product("+-", repeat=3)):
        swaps = sum(one > other for one, other in itertools.combinations(axes, 2))
        if (swaps + signs.count("-")) % 2 == 0:
            yield "".join(sign + axis for sign, axis in zip(signs, axes))


TURNS = list(turns())


def shape_lines(chance, name, side):
    """A shape in a cube of this side."""
    weights = (2, 1) if side < 8 else (2, 23)
    marks = ["".join(chance.choices("#.", weights, k=side)) for _ in range(side * side)]
    marks[0] = "#" + marks[0][1:]
    yield f"shape {name}"
    for first in range(0, side * side, side):
        yield "layer"
        yield from marks[first : first + side]
    yield "end"


def row_of_pieces(chance):
    """An assembly whose pieces lie one beside the other along an axis. Gives its text, its name, how many pieces it
    has, and the axis."""
    side, axis, name = chance.choice((1, 1, 1, 2, 2, 2, 3, 3, 16)), chance.randrange(3), random_name(chance)
    shapes = chance.randint(1, 3)
    count = min(chance.choice((2, 2, 3, 3, 4, 6, 32)), 128 // (2 * side) + 1)
    lines = [f"assembly {name}", *(line for shape in range(shapes) for line in shape_lines(chance, f"s{shape}", side))]
    first = chance.randint(-64, 64 - 2 * side * (count - 1))
    for piece in range(count):
        place = [chance.randint(-1, 1) for _ in range(3)]
        place[axis] = first + 2 * side * piece
        words = [f"piece p{piece}", f"s{piece % shapes}", chance.choice(TURNS), *map(str, place)]
        lines.append(" ".join(words))
    return ("\n".join(lines) + "\n").encode(), name, count, axis
