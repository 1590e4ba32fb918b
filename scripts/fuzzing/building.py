"""Plans that are made so that they are accepted, and plans that would be, but for one fault that is known.

The pieces of their assemblies lie one beside the other along an axis, so that all ways across it are free.
"""
from fuzzing.plans import ZERO, Exit, Frame, Plan, Procedure, row_of_pieces


def plus(form, other, times=1):
    """The sum of two forms, of which the second one is taken so many times."""
    slots = form[1].keys() | other[1].keys()
    factors = {slot: form[1].get(slot, 0) + times * other[1].get(slot, 0) for slot in sorted(slots)}
    return form[0] + times * other[0], {slot: factor for slot, factor in factors.items() if factor}


def instead(form, forms):
    """The form with other forms in place of its slots."""
    made = (form[0], {})
    for slot, factor in form[1].items():
        made = plus(made, forms[slot], factor)
    return made


def places_instead(places, forms):
    """Places with other forms in place of the slots."""
    return [place and (place[0], tuple(instead(form, forms) for form in place[1])) for place in places]


def slots_of(places):
    """The slots that say where pieces lie."""
    return sorted({slot for place in places if place for form in place[1] for slot in form[1]})


def held(number):
    """The form that is what a slot holds."""
    return 0, {number: 1}


def units_of(plan):
    """How many units a plan of loops and steps comes to."""
    return plan if isinstance(plan, int) else plan[0] * units_of(plan[1])


def numbered(lines):
    """Lines with numbers in place of the keys of labels."""
    labels = [line[1] for line in lines if line[0] == "label"]
    numbers = {key: number for number, key in enumerate(labels)}
    return [
        ("label", line[2]) if line[0] == "label" else tuple(numbers.get(operand, operand) for operand in line)
        for line in lines
    ]


def lay(nodes, rest):
    """The lines of nodes, and what may be spent before them, where `rest` is what may be spent after them. A node is a
    call that gives this of one part of the code."""
    lines = []
    for node in reversed(nodes):
        part, rest = node(rest)
        lines[:0] = part
    return lines, rest


def code(*line):
    """A node that is one instruction."""
    return lambda rest: ([line], plus(rest, (1, {})))


def label(key, frame):
    """A node that is a label."""
    return lambda rest: ([("label", key, frame._replace(cost=rest))], rest)


def loop(key, frame, body, counter, most):
    """A node that is a loop with a counter, which is so great at first at most."""
    turn = lay(body, ZERO)[1][0] + 1

    def laid(rest):
        lines, before = lay([label(key, frame), *body, code("down", counter, key)], plus(rest, (0, {counter: turn})))
        return lines, plus(rest, (turn * (most + 1), {}))

    return laid


def asked_loop(keys, frames, body, counter, most):
    """A node that is a loop with its test at its head, which goes on after it by a jump."""
    (head, turn, behind), (head_frame, turn_frame) = keys, frames
    cost = lay(body, ZERO)[1][0] + 2

    def laid(rest):
        spent = lay([label(turn, turn_frame), *body, code("jump", head)], plus(rest, (2, {counter: cost})))[0]
        start = [("label", head, head_frame._replace(cost=plus(rest, (2, {counter: cost})))), ("down", counter, turn)]
        return start + [("jump", behind)] + spent, plus(rest, (2 + cost * most, {}))

    return laid


def choice(keys, frames, ways, join):
    """A node that is a choice of ways, all of which go on at one label."""

    def laid(rest):
        starts = [label(key, frame) for key, frame in zip(keys, frames)]
        laid_ways = [lay([start, *way, code("jump", join)], rest) for start, way in zip(starts, ways)]
        lines = [line for way, _ in laid_ways for line in way]
        return [("pick", *keys), *lines], plus(rest, (1 + max(before[0] - rest[0] for _, before in laid_ways), {}))

    return laid


class State:
    """What is known at a place of the code: forms are over slots that are live. `sizes` are those of the ranges of all
    that is open, and `kept` the slots that frames may not leave out."""

    def __init__(self, places, tray, grip, slots):
        self.places, self.tray, self.grip, self.slots = places, tray, grip, slots
        self.kept, self.guards, self.stack = set(slots), [], []
        self.sizes = [high - low + 1 for low, high in slots.values()]

    def frame(self):
        """The frame of this state, without its cost."""
        slots, guards, stack = dict(self.slots), list(self.guards), list(self.stack)
        return Frame(self.tray, self.grip, slots, guards, stack, None, list(self.places))

    def moved(self, direction, units):
        """The places after the grip has gone so many units, which are a form."""
        axis, sign = direction // 2, 1 - direction % 2 * 2
        return [
            (place[0], tuple(plus(form, units, sign) if which == axis else form for which, form in enumerate(place[1])))
            if piece in self.grip else place
            for piece, place in enumerate(self.places)
        ]

    def is_far(self, units):
        """Whether a piece may lie out of bounds after so many units more."""
        most = {slot: max(map(abs, bounds)) for slot, bounds in self.slots.items()}
        forms = [form for place in self.places if place for form in place[1]]
        reach = (abs(form[0]) + sum(abs(factor) * most[slot] for slot, factor in form[1].items()) for form in forms)
        return max(reach) + units > 256

    def has_room(self, sizes):
        """Whether so many numbers more may be open."""
        points = 1
        for size in self.sizes + sizes:
            points *= size
        return len(self.sizes) + len(sizes) <= 6 and points <= 4096

    def free_slot(self):
        """A slot that is not live, 0 to 6, of which there is always one: no more are open than six numbers."""
        return next(number for number in range(7) if number not in self.slots)

    def open(self, number, bounds):
        """Makes a slot live."""
        self.slots[number] = bounds
        self.sizes.append(bounds[1] - bounds[0] + 1)

    def close(self):
        """Forgets what is open but for the live slots, as a label does."""
        self.guards = [guard for guard in self.guards if guard[1].keys() <= self.slots.keys()][:4]
        self.sizes = [high - low + 1 for low, high in self.slots.values()]


class Builder:
    """Makes a plan that is accepted: parts of code that go along with what is known."""

    def __init__(self, chance, slack):
        self.chance, self.slack = chance, slack
        self.version = chance.choice((1, 2, 2))
        self.assembly, self.name, self.pieces, axis = row_of_pieces(chance)
        self.ways = [direction for direction in range(6) if direction // 2 != axis]
        self.procedures, self.keys, self.is_deep = [None], 0, chance.random() < 0.1

    def key(self):
        """A new key for a label."""
        self.keys += 1
        return f"key {self.keys}"

    def plan(self):
        """A plan: parts, and then all that is left goes out."""
        state = State([(0, (ZERO, ZERO, ZERO))] * self.pieces, 0, frozenset(), {})
        nodes = [label(self.key(), state.frame()), *self.block(state, self.chance.randint(0, 6))]
        while part := self.out(state):
            nodes += part
        lines, (cost, _) = lay([*nodes, code("halt")], (self.slack, {}))
        self.procedures[0] = Procedure(0, None, numbered(lines))
        budget = min(1_000_000, cost + self.chance.choice((0, 0, 1, 1000)))
        return Plan(self.version, self.name, self.pieces, budget, self.procedures)

    def block(self, state, many):
        """So many parts."""
        parts = [self.gripped, self.out_of, self.mark, self.ask, self.carry, self.ask_way, self.pick_way, self.call,
                 self.call, self.idle, self.operands, self.turn]
        nodes = []
        for _ in range(many):
            if not state.grip and self.chance.random() < 0.6:
                nodes += self.gripped(state)
            nodes += self.chance.choice(parts)(state)
        return nodes

    def gripped(self, state):
        """Grips pieces of the current tray."""
        lying = [piece for piece, place in enumerate(state.places) if place and place[0] == state.tray]
        if not lying:
            return []
        state.grip = frozenset(self.chance.sample(lying, self.chance.randint(1, min(len(lying), 4))))
        return [code("grip", state.grip)]

    def turn(self, state):
        """Makes a tray current."""
        state.tray, state.grip = self.chance.choice([0, 0, 1, 2, 31]), frozenset()
        return [code("tray", state.tray)]

    def out(self, state):
        """Takes some pieces out of a tray; nothing where all are apart."""
        trays = sorted({place[0] for place in state.places if place})
        if not trays:
            return []
        tray = self.chance.choice(trays)
        lying = [piece for piece, place in enumerate(state.places) if place and place[0] == tray]
        group = frozenset(self.chance.sample(lying, self.chance.randint(1, len(lying) - 1)))
        nodes = [code("tray", tray)] if state.tray != tray else []
        state.tray, state.grip = tray, frozenset()
        return nodes + [code("grip", group)] + self.aside(state, group, frozenset(lying) - group)

    def out_of(self, state):
        """Takes some pieces out, or none."""
        return self.out(state) if self.chance.random() < 0.5 else []

    def aside(self, state, group, left):
        """Takes a group out of the current tray, in which others are left."""
        target = self.chance.choice(sorted(set(range(32)) - {place[0] for place in state.places if place}))
        for piece in group:
            state.places[piece] = (target, state.places[piece][1]) if len(group) > 1 else None
        for piece in left:
            state.places[piece] = state.places[piece] if len(left) > 1 else None
        state.grip = frozenset()
        return [code("aside", self.chance.choice(self.ways), target)]

    def mark(self, state):
        """A label, whose frame may leave out slots that say nothing."""
        used = state.kept | set(slots_of(state.places)) | {slot for form in state.stack for slot in form[1]}
        for number in [number for number in state.slots if number not in used and self.chance.random() < 0.5]:
            del state.slots[number]
        state.close()
        key = self.key()
        return [code("jump", key), label(key, state.frame())]

    def idle(self, state):
        """Instructions that change nothing that is known."""
        number, low = self.chance.randint(-9, 9), self.chance.randint(-9, 9)
        scratch, key = state.free_slot(), self.key()
        known = [code("load", self.chance.choice(sorted(state.slots))), code("drop")] if state.slots else []
        ways = [
            [code("push", number), code("drop")],
            [code("push", number), code("push", low), code(self.chance.choice(("add", "sub"))), code("drop")],
            [code("push", number), code("store", scratch), code("load", scratch), code("drop")],
            known,
            [code("tray", state.tray)] + ([code("grip", state.grip)] if state.grip else []),
        ]
        if state.has_room([3]):
            state.sizes.append(3)
            ways.append([code("ask", low, low + 2), code("drop")])
        if self.chance.random() < 0.2:
            state.close()
            return [code("jump", key), label(key, state.frame())]
        return self.chance.choice(ways)

    def operands(self, state):
        """Leaves an operand, or takes one off."""
        if state.stack and self.chance.random() < 0.6:
            state.stack.pop()
            return [code("drop")]
        if len(state.stack) > 2:
            return []
        number = self.chance.choice((0, 1, -1, 32767, -32767))
        state.stack.append((number, {}))
        return [code("push", number)]

    def ask(self, state):
        """Asks for a number, which a slot keeps."""
        low = self.chance.randint(-2, 2)
        bounds = low, low + self.chance.choice((0, 1, 2, 5, 40))
        if not state.has_room([bounds[1] - low + 1]):
            return []
        number = state.free_slot()
        state.open(number, bounds)
        return [code("ask", *bounds), code("store", number)]

    def carry(self, state):
        """Moves the grip by steps and loops."""
        turns = self.chance.choices((1, 2, 3, 4), k=self.chance.choice((0, 0, 1, 2)))
        if not state.grip or state.is_far(50) or not state.has_room(turns + [3] * len(turns)):
            return []
        plan = self.chance.randint(1, 3)
        for many in turns:
            plan = (many, plan)
        return self.carried(state, self.chance.choice(self.ways), plan)

    def carried(self, state, direction, plan):
        """Moves the grip by so many steps, or by loops of so many turns."""
        if isinstance(plan, int):
            state.places = state.moved(direction, (plan, {}))
            return [code("step", direction)] * plan
        turns, inner = plan
        counter, key, start = state.free_slot(), self.key(), list(state.places)
        state.open(counter, (0, turns - 1))
        state.kept.add(counter)
        state.places = state.moved(direction, (units_of(inner) * (turns - 1), {counter: -units_of(inner)}))
        state.close()
        frame = state.frame()
        body = self.idle(state) + self.carried(state, direction, inner)
        state.kept.remove(counter)
        del state.slots[counter]
        state.places = start
        state.places = state.moved(direction, (units_of(plan), {}))
        state.close()
        around = loop(key, frame, body, counter, turns - 1)
        return [code("push", turns - 1), code("store", counter), around, label(self.key(), state.frame())]

    def ask_way(self, state):
        """Asks how far the grip is moved, and moves it so far in a loop."""
        most = self.chance.randint(1, 4)
        if not state.grip or state.is_far(most) or not state.has_room([most + 1, most + 1, 3]):
            return []
        direction, start, asked = self.chance.choice(self.ways), list(state.places), state.free_slot()
        state.open(asked, (0, most))
        counter = state.free_slot()
        state.kept |= {asked, counter}
        keys = [self.key() for _ in range(3)]
        frames = []
        for one in (0, 1):
            state.slots[counter] = 0, most - one
            gone = -one, {asked: 1, counter: -1}
            state.places, state.guards = start, [gone, *state.guards[:3]]
            state.places = state.moved(direction, gone)
            frames.append(state.frame())
            state.guards = state.guards[1:]
        state.guards = [gone, *state.guards]
        state.close()
        body = self.idle(state) + [code("step", direction)]
        state.kept -= {asked, counter}
        del state.slots[counter]
        state.places = start
        state.places = state.moved(direction, held(asked))
        state.close()
        begin = [code("ask", 0, most), code("store", asked), code("load", asked), code("store", counter)]
        return begin + [asked_loop(keys, frames, body, counter, most), label(keys[2], state.frame())]

    def pick_way(self, state):
        """Lets a way be picked, each of which moves the grip by its number, which a slot keeps."""
        many = self.chance.choice((2, 2, 3, 8))
        if not state.grip or state.is_far(many) or not state.has_room([many]):
            return []
        state.close()
        number, direction, join = state.free_slot(), self.chance.choice(self.ways), self.key()
        keys, frames = [self.key() for _ in range(many)], [state.frame()] * many
        ways = [[code("step", direction)] * n + [code("push", n), code("store", number)] for n in range(many)]
        state.places = state.moved(direction, held(number))
        state.open(number, (0, many - 1))
        return [choice(keys, frames, ways, join), label(join, state.frame())]

    def call(self, state):
        """Calls a procedure that is made for this place."""
        used, before = slots_of(state.places), (state.places, state.tray, state.grip)
        number, numbers = len(self.procedures), [self.chance.randint(-3, 3) for _ in range(self.chance.randint(0, 2))]
        if len(used) > 2 or number > (15 if self.is_deep else 5):
            return []
        arguments = [held(slot) for slot in used] + [(value, {}) for value in numbers]
        exit_frame, cost = self.procedure(state, used, numbers)
        sizes = [high - low + 1 for low, high in exit_frame.results] if exit_frame else []
        if not exit_frame or not state.has_room(sizes) or len(state.guards) + len(exit_frame.guards) > 8:
            del self.procedures[number:]
            return []
        nodes = [code("load", slot) for slot in used] + [code("push", value) for value in numbers]
        nodes.append(lambda rest: ([("call", number)], plus(rest, (1 + cost, {}))))
        results = []
        for bounds in exit_frame.results:
            results.append(state.free_slot())
            state.open(results[-1], bounds)
        forms = dict(enumerate(arguments + [held(slot) for slot in results]))
        state.places = places_instead(exit_frame.places, forms)
        state.tray, state.grip = exit_frame.tray, exit_frame.grip
        state.guards = state.guards + [instead(guard, forms) for guard in exit_frame.guards]
        is_as_before = before == (state.places, state.tray, state.grip)
        if is_as_before and not results and not exit_frame.guards and not self.is_deep:
            nodes *= self.chance.randint(1, 3)
        return nodes + [code("store", slot) for slot in reversed(results)]

    def procedure(self, state, used, numbers):
        """Makes a procedure for a state, whose parameters are these slots and then numbers. Gives its exit frame and
        its cost; None for the frame where it would have too many results."""
        number, parameters = len(self.procedures), len(used) + len(numbers)
        self.procedures.append(None)
        bounds = [state.slots[slot] for slot in used]
        bounds += [(value, value + self.chance.randint(0, 2)) for value in numbers]
        places = places_instead(state.places, {slot: held(which) for which, slot in enumerate(used)})
        inner = State(places, state.tray, state.grip, dict(enumerate(bounds)))
        if not inner.has_room([]):
            return None, 0
        nodes = [label(self.key(), inner.frame()), *(self.call(inner) if self.is_deep else [])]
        nodes += self.block(inner, self.chance.randint(0, 3))
        results = [slot for slot in slots_of(inner.places) if slot >= parameters]
        others = [slot for slot in sorted(inner.slots) if slot >= parameters and slot not in results]
        results += self.chance.sample(others, min(len(others), self.chance.randint(0, 1))) if self.version == 2 else []
        if len(results) > (2 if self.version == 2 else 0):
            return None, 0
        nodes += [code("load", slot) for slot in results] + [code("ret")]
        lines, (cost, _) = lay(nodes, (self.slack, {}))
        forms = {slot: held(which) for which, slot in enumerate([*range(parameters), *results])}
        guards = [instead(guard, forms) for guard in inner.guards if guard[1].keys() <= forms.keys()][:2]
        ranges = [inner.slots[slot] for slot in results]
        places = places_instead(inner.places, forms)
        exit_frame = Exit(inner.tray, inner.grip, ranges, guards if self.version == 2 else [], places)
        self.procedures[number] = Procedure(parameters, exit_frame, numbered(lines))
        return exit_frame, cost


def faults(chance, number, procedure, pieces, before, above):
    """Lines that are refused wherever they stand in a procedure, and trap mostly, each with its rule. `before` is the
    line before them, and `above` the label above them."""
    least, tray, way = -chance.randint(1, 9), chance.randrange(32), chance.randrange(6)
    doubled = [("store", 7), ("load", 7), ("load", 7), ("add",)]
    yield "V2", [("byte", chance.choice((0x07, 0x14, 0x26, 0xFF)))]
    yield "V6", [("drop",)] * 9
    yield "V7", [("push", least)] * 9
    yield "V8", [("load", 7)]
    yield "V10", [("byte", 0x20), ("byte", 0xFF), ("byte", chance.randrange(256))]
    yield "V11", [("push", least), ("store", 7), ("down", 7, above)]
    yield "V12", [("push", least), ("push", 32767), ("sub",)]
    yield "V14", [("tray", tray), ("step", way)]
    yield "V14", [("tray", tray), ("aside", way, tray)]
    yield "V19", [("byte", 0x24), ("byte", chance.choice((number, 0, 16, 255)))]
    yield "V22", [("halt",) if number else ("ret",)]
    yield "V25", [("ask", least, 4096)]
    yield "V25", [("ask", least, least), ("drop",)] * 9
    yield "V26", [("ask", least, least), ("push", least), ("sub",), *doubled * 41]
    if pieces < 32:
        yield "V13", [("grip", frozenset([chance.randint(pieces, 31)]))]
    if procedure.parameters:
        yield "V9", [("push", least), ("store", 0)]
        yield "V9", [("down", 0, above)]
    if before[0] == "step":
        yield "V18", [before] * 520
    if before[0] == "label":
        yield "V25", [("push", 0), ("store", 7), ("down", 7, above)] * 9


def with_procedure(plan, number, **changes):
    """The plan with other fields of a procedure."""
    procedures = list(plan.procedures)
    procedures[number] = procedures[number]._replace(**changes)
    return plan._replace(procedures=procedures)


def with_frame(plan, number, which, **changes):
    """The plan with other fields of the frame at this line of a procedure."""
    lines = list(plan.procedures[number].lines)
    lines[which] = "label", lines[which][1]._replace(**changes)
    return with_procedure(plan, number, lines=lines)


def misframed(chance, plan, number):
    """Plans with another frame in a procedure, or another first line, each with the rules that may refuse it."""
    parameters, exit_frame, lines = plan.procedures[number]
    first, cost = lines[0][1], plan.procedures[0].lines[0][1].cost[0]
    yield {"V1"}, plan._replace(name=("x" + plan.name)[:31] + "x")
    yield {"V27"}, with_frame(plan, number, 0, stack=[ZERO])
    yield {"V27"}, with_frame(plan, number, 0, slots={**first.slots, 7: (0, 0)})
    yield {"V24"}, with_frame(plan, 0, 0, cost=(-chance.randint(0, 9), {}))
    which = chance.choice([place for place, line in enumerate(lines) if line[0] == "label"])
    there = [piece for piece, place in enumerate(lines[which][1].places) if place]
    if cost > 1:
        yield {"V28"}, plan._replace(budget=chance.randint(1, cost - 1))
    if which:
        yield {"V21"}, with_frame(plan, number, which, cost=(2_000_000, {}))
    if there:
        places = list(lines[which][1].places)
        places[there[0]] = chance.choice(sorted(set(range(32)) - {place[0] for place in places if place})), (ZERO,) * 3
        yield {"V27"}, with_frame(plan, number, which, places=places)
    if parameters:
        slots = {**first.slots, 0: (first.slots[0][1] + 1,) * 2}
        yield {"V20"}, with_frame(plan, number, 0, slots=slots)
    if exit_frame and plan.version == 2:
        guards = [*exit_frame.guards, (-1, {})]
        yield {"V22", "V25"}, with_procedure(plan, number, exit=exit_frame._replace(guards=guards))


def planted(chance, plan):
    """The plan with a fault, and the rules that may refuse it: V4 where nothing goes on; else V7 too, since there may
    be no room for the operands that lead to the fault."""
    number = chance.randrange(len(plan.procedures))
    if chance.random() < 0.3:
        return chance.choice(list(misframed(chance, plan, number)))
    procedure = plan.procedures[number]
    lines = list(procedure.lines)
    place = chance.randint(1, len(lines))
    before, above = lines[place - 1], sum(line[0] == "label" for line in lines[:place]) - 1
    rule, fault = chance.choice(list(faults(chance, number, procedure, plan.pieces, before, above)))
    lines[place:place] = fault
    rules = {"V4"} if before[0] in ("jump", "pick", "halt", "ret") else {rule, "V7"}
    return rules, with_procedure(plan, number, lines=lines)


def overdone(chance, plan):
    """A plan with too much of one thing in a procedure, or with too many procedures."""
    number = chance.randrange(len(plan.procedures))
    procedure = plan.procedures[number]
    lines = list(procedure.lines)
    which = chance.choice([place for place, line in enumerate(lines) if line[0] == "label"])
    two = [line for _ in range(257) for line in (lines[0], ("drop",))]
    at_home = Exit(0, frozenset(), [], [], [(0, (ZERO, ZERO, ZERO))] * plan.pieces)
    callee = procedure if number else Procedure(0, at_home, lines)
    return chance.choice([
        with_frame(plan, number, which, guards=[ZERO] * 5),
        with_frame(plan, number, which, stack=[ZERO] * 9),
        with_procedure(plan, number, lines=[*lines, lines[0]]),
        with_procedure(plan, number, lines=[*lines[:which], lines[which], *lines[which:]]),
        with_procedure(plan, number, lines=[*lines, *[("drop",)] * 4097]),
        with_procedure(plan, number, lines=two),
        plan._replace(procedures=[*plan.procedures, *[callee] * (17 - len(plan.procedures))]),
    ])
