"""Plans as the tools that write stored cases have them (paper 01, "The plan file"; 02, notes 1, 4, 5, 6 and 7): automata, plan files, tours and frames.

A plan is a dict: marks, labels, start, roads, the hard automaton, and the soft rules as pairs of automaton and weight."""
import os
from collections import namedtuple

# moves are (from, need, bar, to) or (from, need, bar, any, to)
Automaton = namedtuple("Automaton", "states first accept moves")
ALWAYS = Automaton(1, 0, 1, [(0, 0, 0, 0)])


def again(m):
    return Automaton(2, 0, 2, [(q, need, bar, r) for q in (0, 1) for need, bar, r in ((1 << m, 0, 1), (0, 1 << m, 0))])


def again_any(marks):
    """Again and again a label that has one of these marks, given as bits."""
    return Automaton(2, 0, 2, [move for q in (0, 1) for move in ((q, 0, 0, marks, 1), (q, 0, marks, 0))])


def never(m):
    return Automaton(1, 0, 1, [(0, 0, 1 << m, 0)])


def met(m):
    """At least once a label that has this mark."""
    return Automaton(2, 0, 2, [(0, 1 << m, 0, 1), (0, 0, 1 << m, 0), (1, 0, 0, 1)])


def settles(m):
    """From some step on only labels that have this mark; which step that is, the automaton may choose."""
    return Automaton(2, 0, 2, [(0, 0, 0, 0), (0, 1 << m, 0, 1), (1, 1 << m, 0, 1)])


def plan(marks=2, labels=(0, 1, 2), start=0, roads=((0, 1), (1, 0), (0, 2), (2, 0)), hard=ALWAYS, soft=((again(0), 3), (never(1), 2))):
    """A plan; without arguments, paper 01's plan X."""
    return dict(marks=marks, labels=labels, start=start, roads=roads, hard=hard, soft=soft)


def row():
    """128 places in a row, of which only the last parks; the hard rule wants the mark that it has, for good."""
    return plan(1, [0] * 127 + [1], 0, [(v, v + 1) for v in range(127)], settles(0), ((again(0), 2), (never(0), 1)))


def lines(p):
    """The lines of a plan's file, without their ends."""

    def rule(automaton):
        moves = ["move=" + ",".join(map(str, move)) for move in automaton.moves]
        return [f"first={automaton.first}", f"accept={automaton.accept}", f"moves={len(moves)}"] + moves

    listed = ["tour=1", f"marks={p['marks']}", f"places={len(p['labels'])}"] + [f"label={x}" for x in p["labels"]]
    listed += [f"start={p['start']}", f"roads={len(p['roads'])}"] + ["road=%d,%d" % road for road in p["roads"]]
    listed += [f"hard={p['hard'].states}"] + rule(p["hard"]) + [f"rules={len(p['soft'])}"]
    for automaton, weight in p["soft"]:
        listed += [f"soft={automaton.states}", f"weight={weight}"] + rule(automaton)
    return listed


def joined(listed):
    """The bytes of these lines, each with its end."""
    return "".join(line + "\n" for line in listed).encode()


def text(p):
    return joined(lines(p))


def parsed(content):
    """The plan of a file whose lines are right in form and range."""
    values = iter([tuple(map(int, line.split(b"=")[1].split(b","))) for line in content.splitlines()])

    def one():
        return next(values)[0]

    def many():
        return [next(values) for _ in range(one())]

    def automaton(states):
        return Automaton(states, one(), one(), many())

    def soft():
        states, weight = one(), one()
        return automaton(states), weight

    one()
    marks, labels = one(), [label for label, in many()]
    return plan(marks, labels, one(), many(), automaton(one()), [soft() for _ in range(one())])


def fits(move, label):
    """Whether the label has every mark of need, no mark of bar, and one of any, unless any is 0 or not given."""
    _, need, bar, *any_of, _ = move
    return label & need == need and label & bar == 0 and all(label & marks for marks in any_of if marks)


def steps(automaton, label, q):
    """The states that an automaton may go to from state q; every move that fits counts."""
    return {move[-1] for move in automaton.moves if move[0] == q and fits(move, label)}


def soft_steps(automaton, label, q):
    """The same for a soft rule, whose trap is one state more: it is entered where no move fits, and never left."""
    return steps(automaton, label, q) or {automaton.states}


def leads_to(p, place):
    """The places that a place leads to (02, note 7): the ends of its roads, in the plan's order. A place that no road leaves parks: it
    leads to itself. A number that is no place leads nowhere."""
    return [b for a, b in p["roads"] if a == place] or [place] * (place < len(p["labels"]))


def size(p):
    n = len(p["labels"]) * p["hard"].states
    for a, _ in p["soft"]:
        n *= a.states + 1
    return n


def turned_away(p):
    """Number and line of the refusal that a plan has beside form and range: a road twice, then N; 0 and 0 where it has none."""
    before = set()
    for number, line in enumerate(lines(p), 1):
        if line.startswith("road="):
            if line in before:
                return 10, number
            before.add(line)
    return (4 if size(p) > 2048 else 0), 0


def accepts(a, ditch, runin, loop):
    """Whether the automaton accepts the labels of run-in and loop, by the scope's definition: a state after the run-in leads, in
    the graph of the loop's positions with the states, to an accepting state that leads back to itself. A soft automaton that has
    no move goes to the ditch, the state after its own, which never accepts. It shares nothing with `steps`."""

    def follow(x, q):
        # A move of four numbers has any 0, and then every label will do.
        five = [move if len(move) == 5 else move[:3] + (0,) + move[3:] for move in a.moves]
        fitting = {r for f, need, bar, any_of, r in five if f == q and need & ~x == 0 and bar & x == 0 and not (any_of and any_of & x == 0)}
        return fitting if fitting or not ditch else {a.states}

    def onward(i, q):
        return [((i + 1) % len(loop), r) for r in follow(loop[i], q)]

    def reached(todo):
        seen = set()
        while todo:
            node = todo.pop()
            if node not in seen:
                seen.add(node)
                todo += onward(*node)
        return seen

    states = {a.first}
    for x in runin:
        states = {r for q in states for r in follow(x, q)}
    accepting = {q for q in range(a.states) if a.accept >> q & 1}
    return any(q in accepting and (i, q) in reached(onward(i, q)) for i, q in reached([(0, q) for q in states]))


def breaks(p, runin, loop):
    """The indices that break a tour (02, notes 4 and 7)."""
    places, total = runin + loop, len(runin) + len(loop)
    for i, v in enumerate(places):
        if v >= len(p["labels"]) or (v != p["start"] if i == 0 else v not in leads_to(p, places[i - 1])):
            yield i
    if not loop:
        yield len(runin)
    elif loop[0] not in leads_to(p, loop[-1]):
        yield total


def due(p, runin, loop):
    """Number, line, index, accepts, cost and kept of a tour of a plan whose lines are right in form and range."""
    number, line = turned_away(p)
    if number:
        return (number, line, 0, 0, 0, 0)
    broken = min(breaks(p, runin, loop), default=None)
    if broken is not None:
        return (9, 0, broken, 0, 0, 0)
    words = [[p["labels"][v] for v in part] for part in (runin, loop)]
    kept = [accepts(a, True, *words) for a, _ in p["soft"]]
    cost = sum(w for (_, w), keeps in zip(p["soft"], kept) if not keeps)
    return (0, 0, 0, int(accepts(p["hard"], False, *words)), cost, sum(1 << i for i, keeps in enumerate(kept) if keeps))


def walk(p, rng, most):
    """A closed walk of the plan as run-in and loop, if chance finds one."""
    places, at = [p["start"]], {p["start"]: [0]}
    for i in range(1, most):
        v = rng.choice(leads_to(p, places[-1]))
        if v in at and rng.random() < 0.3:
            k = rng.choice(at[v])
            return places[:k], places[k:]
        places.append(v)
        at.setdefault(v, []).append(i)
    return None


def parkings():
    """Tours of plans with places that no road leaves (02, note 7), each with its plan: those that park rightly, and those that break."""
    x = plan(roads=((0, 1), (1, 0), (1, 2)))
    # At place 2, which no road leaves: in the loop, in the run-in too, and several times.
    for runin, loop in ([0, 1], [2]), ([0, 1, 2], [2]), ([0, 1, 2, 2, 2], [2, 2, 2]):
        yield x, runin, loop
    # What the hard rule wants, and another drive.
    for runin, loop in ([0, 1], [2]), ([0], [1, 0]):
        yield plan(roads=x["roads"], hard=settles(1), soft=((met(0), 3), (again(0), 2))), runin, loop
    # At a place that a road leaves: in the run-in, between run-in and loop, inside the loop, and where the loop closes.
    for runin, loop in ([0, 0, 1], [2]), ([0, 1, 1], [2]), ([0, 1], [1, 2]), ([0], [1, 1, 0]), ([0], [1]), ([], [0, 1, 0]):
        yield x, runin, loop
    # On from place 2 to another, by a road that is not there.
    for runin, loop in ([0, 1, 2, 0], [1, 2]), ([0, 1, 2, 2], [1, 2]), ([0, 1], [2, 2, 0]), ([0, 1], [2, 1]), ([], [0, 1, 2]):
        yield x, runin, loop
    # A number that is no place, twice and more.
    for v in 3, 128, 255:
        for runin, loop in ([0, 1, v], [v]), ([0, 1, 2], [2, v, v]), ([v], [v]):
            yield x, runin, loop
    # The start parks, though roads lead to it; no place has a road; the start has a road to itself alone.
    for runin, loop in ([], [2]), ([2], [2, 2]), ([], [2, 1]), ([2, 2], [1, 2]), ([], [0]), ([2], []):
        yield plan(roads=x["roads"], start=2), runin, loop
    for runin, loop in ([], [0]), ([0, 0], [0, 0, 0]), ([0], [1]), ([], [0, 1]), ([], [1]), ([0, 3], [3]), ([0, 0], []), ([], []):
        yield plan(roads=()), runin, loop
    for runin, loop in ([], [0]), ([0, 0], [0, 0]), ([0], [1]), ([], [1]):
        yield plan(roads=((0, 0),)), runin, loop
    drive = list(range(128))
    for runin, loop in (drive[:127], [127]), (drive + [127] * 1000, [127] * 1000), (drive[:126], [126]), (drive, [127, 128]), (drive, [128]), (drive, [127, 0]), ([], drive):
        yield row(), runin, loop


def framed(contents):
    """Texts as the programs take them: of each its length in six digits, a line's end, and its bytes."""
    return b"".join(b"%06d\n" % len(content) + content for content in contents)


def path(*parts):
    """A path of the repository."""
    return os.path.join(os.path.dirname(os.path.abspath(__file__)), "..", *parts)
