"""Whether one order of all lines explains what lanes were answered: an order that keeps the order of each lane, with lane
0's lines first, in which a plain map that answers one line after another gives these answers.

What must stand before what is read off the answers: the writes of an object by their versions, each look at a version
between its write and the next one, an object's free after all that found it there, crashes and joins by their epochs. A
line is put into the order once all that must stand before it is there; where none can be, no order exists, and the lines
that wait for each other are named. The order that is found is then answered again by a plain map, line by line. This
shares nothing with the definitions of crates/cb_model.

    python3 tests/one_order.py      tries it on answers that were made by hand, and that have no such order
"""
import heapq
import sys
from collections import defaultdict

SEES = ("read", "pin", "peek")
CHANGES = ("make", "write", "free")


class Object:
    """The lines on one name: its changes by version, what saw a version, what found it there, what found it freed."""
    def __init__(self):
        self.changes, self.sees, self.there, self.freed = {}, [], [], []

    def take(self, line):
        if line.verb in CHANGES and line.version is not None:
            self.changes[line.version] = line
        elif line.verb in SEES and line.version is not None:
            self.sees.append(line)
        elif line.kind == "freed":
            self.freed.append(line)
        elif line.verb in ("read", "write", "free", "pin") and line.kind in ("range", "pinned", "unavailable", "noroom", "worn"):
            self.there.append(line)

    def edges(self):
        versions = sorted(self.changes)
        make, last = self.changes[versions[0]], self.changes[versions[-1]]
        yield from ((self.changes[a], self.changes[b]) for a, b in zip(versions, versions[1:]))
        for line in self.sees:
            if line.version in self.changes:
                yield self.changes[line.version], line
            if line.version + 1 in self.changes:
                yield line, self.changes[line.version + 1]
        for line in self.there:
            yield make, line
            if last.verb == "free":
                yield line, last
        for line in self.freed:
            yield last, line


def objects_of(lines):
    found = defaultdict(Object)
    for line in lines:
        if line.name is not None:
            found[line.name].take(line)
    return [it for it in found.values() if it.changes]


def edges_of(lines):
    """Pairs of lines of which the first must stand before the second, but for the order of lanes."""
    for one in objects_of(lines):
        yield from one.edges()
    epochs = {line.numbers[0]: line for line in lines if line.kind == "epoch"}
    yield from ((epochs[at], epochs[at + 1]) for at in epochs if at + 1 in epochs)
    for line in lines:
        if line.kind == "unavailable":
            yield from ((epochs[at], line) for _, at in line.losses if at in epochs)
    drawn = sorted((line for line in lines if line.kind in ("set", "merged")), key=lambda line: line.numbers[0])
    yield from zip(drawn, drawn[1:])
    made = [line for line in lines if line.verb == "make" and line.kind == "version"]
    yield from ((one, line) for line in lines if line.kind == "full" for one in made)


def lane_edges(lines):
    """Each lane's lines in their order, and lane 0's before all."""
    last, first_done = {}, None
    for line in lines:
        if line.lane in last:
            yield last[line.lane], line
        elif first_done is not None and line.lane != 0:
            yield first_done, line
        last[line.lane] = line
        first_done = line if line.lane == 0 else first_done


def sorted_by(lines, edges):
    """The lines in an order that keeps all edges, and those that stand in none: they wait for each other."""
    after, waits = defaultdict(list), {line.place: 0 for line in lines}
    for one, other in edges:
        after[one.place].append(other)
        waits[other.place] += 1
    by_place = {line.place: line for line in lines}
    ready, order = [place for place, count in waits.items() if not count], []
    heapq.heapify(ready)
    while ready:
        line = by_place[heapq.heappop(ready)]
        order.append(line)
        for other in after[line.place]:
            waits[other.place] -= 1
            if not waits[other.place]:
                heapq.heappush(ready, other.place)
    left = {line.place for line in lines} - {line.place for line in order}
    return order, [by_place[place] for place in sorted(left)]


def order_of(lines, handles):
    """An order as it is wanted, or the lines that wait for each other. A make that is refused while there are handles
    stands before the last make, where all handles are given: each make is tried as the last one."""
    edges = [*edges_of(lines), *lane_edges(lines)]
    made = [line for line in lines if line.verb == "make" and line.kind == "version"]
    refused = [line for line in lines if line.verb == "make" and line.kind == "noroom"]
    if not refused or len(made) < handles:
        return sorted_by(lines, edges)
    stuck = []
    for last in made:
        more = [(one, last) for one in made + refused if one is not last]
        order, left = sorted_by(lines, edges + more)
        if not left:
            return order, []
        stuck = stuck or left
    return [], stuck


class Map:
    """A plain map that answers one line after another."""
    def __init__(self, handles):
        self.handles, self.had = handles, {}

    def answer(self, line):
        """Whether the map gives this line's answer here; a refusal that it knows nothing of asks that the object is there."""
        if line.verb == "make":
            return self.make(line)
        if line.name is None or line.kind in ("unmade", "scopefull", "notpinned", "ok") or line.verb == "filter":
            return True
        version, data = self.had.get(line.name, (0, None))
        if line.kind == "freed":
            return version > 0 and data is None
        if data is None:
            return False
        if line.verb in SEES and line.version is not None:
            return line.version == version and line.shown in (None, bytes(data))
        return self.change(line, version, data) if line.version is not None else line.kind != "range" or (
            line.numbers == [len(data)] and line.at + len(line.data) > len(data))

    def make(self, line):
        if line.kind == "version":
            fits = len(self.had) < self.handles and line.name not in self.had and line.version == 1
            self.had[line.name] = (1, bytearray(line.data))
            return fits
        return (line.kind == "full") == (len(self.had) == self.handles)

    def change(self, line, version, data):
        if line.version != version + 1 or line.at + len(line.data) > len(data):
            return False
        data[line.at:line.at + len(line.data)] = line.data
        self.had[line.name] = (line.version, None if line.verb == "free" else data)
        return True


def judge_serial(script, lines, say):
    """Tells where no order of all lines explains the answers."""
    order, left = order_of(lines, script.handles)
    for line in left[:1]:
        names = ", ".join(f"{it.place} {it.front()}" for it in left[1:4])
        say(line, "serial", f"no order of all lines gives these answers: it waits for others that wait for it ({names})")
    plain = Map(script.handles)
    for line in ([] if left else order):
        if not plain.answer(line):
            say(line, "serial", "a plain map answers otherwise in the order that the versions give")
            return


# Scripts with answers, by lane: what is wrong with them, the script, the output. None stands where nothing is wrong.
TRIED = [
    ("the crossed pair", "0 make a 00|0 make b 00|1 write a 0 01|1 read b|2 write b 0 01|2 read a",
     "0 make a v1|0 make b v1|1 write a v2|1 read b v1 00|2 write b v2|2 read a v1 00"),
    ("a stale read after the own write", "0 make a 00|1 write a 0 01|1 read a|2 read a",
     "0 make a v1|1 write a v2|1 read a v1 00|2 read a v1 00"),
    ("two lines of a lane that changed places", "0 make a 00|1 write a 0 01|1 write a 0 02|2 read a",
     "0 make a v1|1 write a v3|1 write a v2|2 read a v3 01"),
    ("a read of lane 0's object from before it was made there", "0 make a 00|0 write a 0 01|1 read a",
     "0 make a v1|0 write a v2|1 read a v1 00"),
    ("a refusal that finds the object after its free", "0 make a 00|1 free a|1 write a 1 00", "0 make a v1|1 free a v2|1 write a range 1"),
    (None, "0 make a 00|0 make b 00|1 write a 0 01|1 read b|2 write b 0 01|2 read a",
     "0 make a v1|0 make b v1|1 write a v2|1 read b v1 00|2 write b v2|2 read a v2 01"),
    (None, "0 make a 00|1 read a|1 read a|2 write a 0 01|2 write a 0 02", "0 make a v1|1 read a v2 01|1 read a v3 02|2 write a v2|2 write a v3"),
]


def try_all():
    """How many of the tried answers are judged otherwise than they should be."""
    from judge import Breaches, Script, answered, output_of_lines
    wrong = 0
    for fault, text, told in TRIED:
        script = Script(output_of_lines(["carbink 1 k=1 r=1 nodes=2 frames=8 room=8 handles=8 turns=0", *text.split("|")]))
        say = Breaches()
        judge_serial(script, answered(script, output_of_lines(told.split("|")), say), say)
        if bool(say.found) != (fault is not None):
            wrong += 1
            print(f"FAILED {fault or 'answers that an order explains'}: {say.found}")
    print(f"{len(TRIED)} lists of answers tried, {wrong} judged otherwise than they should be")
    return wrong


if __name__ == "__main__":
    sys.exit(1 if try_all() else 0)
