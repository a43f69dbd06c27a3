"""The cases of tests/rows/long: objects of more than 1,024 bytes, whose spans have two pages and four. tests/cases writes
them; their outputs are written down here or are those of the independent model."""
import random
import re

from case_kinds import (Case, HEADER, LocalCase, SMALL, Written, before_each, crash_before_batch, crash_before_join,
                        crash_before_rebuild, requests, worked)
from drawn import Drawn

# Each length at which a class ends or begins, beside 1,024.
LENGTHS = (1024, 1025, 1536, 1537, 2048, 2049, 3072, 3073, 4096)


def pattern(seed, length):
    """Bytes that repeat each 251, so no two pages of a row have the same."""
    return bytes((seed + at * (2 * seed + 1)) % 251 for at in range(length)).hex()


def spelled(text):
    """The lines with xx*N as the digits xx, N times."""
    return re.sub(r"\b([0-9a-f]{2})\*([0-9]+)", lambda found: found[1] * int(found[2]), text)


def written(name, header, text):
    return worked(name, HEADER % header, spelled(re.sub(" +=>", " =>", text)))


# ---- what leaves, and what has room
def worked_cases():
    yield written("worked/two_lost_rows_of_two_pages", (2, 2, 6, 8, 64, 16), """make a 05*1500 => v1
make b 06*2000 => v1
evict          => set 0
make c 07      => v1
make d 08*4096 => v1
evict          => nospans 1
crash 0        => epoch 1
crash 1        => epoch 2
read a         => v1 05*1500
read b         => noroom frames 8 loose 1 nodes 4
free d         => v2
read b         => v1 06*2000
""")
    yield written("worked/as_many_evictions_as_a_run_needs", (1, 1, 2, 4, 64, 16), """make a 01      => v1
make b 02*17   => v1
make c 03*33   => v1
make d 04*49   => v1
pin b          => v1
make e 05*2000 => v1
make f 06*4096 => noroom frames 4 loose 0 nodes 2
read a         => v1 01
unpin b        => ok
make g 06*4096 => v1
read b         => v1 02*17
""")
    yield written("worked/the_greatest_length_that_has_k", (2, 1, 3, 16, 64, 32), """make a 01*4096 => v1
make b 02*1500 => v1
make c 03*2000 => v1
make d 04      => v1
make e 05*17   => v1
evict          => set 0
make f 06*3000 => v1
make g 07*1400 => v1
evict          => set 1
evict          => set 2
evict          => nospans 1
""")
    yield written("worked/two_lengths_never_match", (2, 1, 6, 16, 64, 32), """make a 01      => v1
make b 02*17   => v1
evict          => set 0
make c 03*1500 => v1
make d 04*2000 => v1
evict          => set 1
read b         => v1 02*17
read c         => v1 03*1500
pair           => nopair
""")
    yield written("worked/holes_too_small", (2, 1, 3, 5, 64, 32), """make a 01*1500 => v1
make b 02*1500 => v1
filter a       => moved
make c 03      => v1
filter b       => moved
make d 04*1500 => v1
filter d       => moved
filter c       => moved
free a         => v2
free b         => v2
make e 05*4096 => noroom frames 5 loose 1 nodes 3
""")
    yield written("worked/one_frame", (1, 1, 2, 1, 64, 16), """make a 01      => v1
make b 02*1025 => noroom frames 1 loose 0 nodes 2
read a         => v1 01
make c 03*4096 => noroom frames 1 loose 0 nodes 2
read b         => unmade
""")
    yield written("worked/no_run_for_a_filter", (1, 1, 2, 7, 64, 16), """make a 01*4096 => v1
make b 02*4096 => v1
filter a       => noslot 7
filter b       => noslot 7
free b         => v2
filter a       => noslot 7
read a         => v1 01*4096
filter a       => same
""")
    yield written("worked/evictions_that_stay", (2, 1, 3, 6, 64, 32), """make a 01*1500 => v1
make b 02      => v1
make c 03*2000 => v1
make d 04*17   => v1
pin b          => v1
make e 05*4096 => noroom frames 6 loose 1 nodes 3
evict          => nospans 1
make f 06*2000 => v1
make g 07*1500 => v1
evict          => set 1
read a         => v1 01*1500
read f         => v1 06*2000
""")


# ---- each length by itself, and all of them in few frames
def lines_of(name, seed, length):
    last = length - 1
    return [f"make {name} {pattern(seed, length)}", f"write {name} {last} ff", f"write {name} {length} ff",
            f"write {name} {length} -", f"write {name} 0 {pattern(seed + 1, length)}", f"write {name} {last} aa", "evict", f"read {name}", f"filter {name}",
            f"filter {name}", "evict", f"write {name} {last} bb", f"pin {name}", f"peek {name}", f"filter {name}",
            f"free {name}", f"unpin {name}", "evict", f"pin {name}", f"unpin {name}", "crash 0", f"read {name}",
            f"peek {name}", f"free {name}", f"read {name}", "join 0"]


def each_length():
    for length in LENGTHS:
        case = Case.of_lines(f"lengths/bytes_{length}", HEADER % (1, 1, 3, 8, 64, 4), lines_of("a", 3, length))
        told = pattern(4, length)[:-2]
        assert case.answers("read a") == [f"v5 {told}aa", f"v6 {told}bb", "freed"], case.name
        assert case.answers("peek a") == [f"v6 {told}bb", "notpinned"]
        assert case.answers("filter a") == ["same", "moved", "pinned 1"]
        assert case.answers(f"write a {length} ff") == [f"range {length}"] and case.answers(f"write a {length} -") == ["v3"]
        yield case
        # Five of a length stand in two spans, or, of five slots, in one; k = 2 of them leave.
        names = "abcde"
        lines = [f"make {name} {pattern(at, length)}" for at, name in enumerate(names)]
        lines += ["filter a", "evict", "crash 1"] + [f"read {name}" for name in names]
        case = Case.of_lines(f"lengths/five_of_{length}", HEADER % (2, 2, 5, 12, 64, 8), lines)
        assert case.replies[-5:] == [f"v1 {pattern(at, length)}" for at in range(5)], case.name
        yield case
    for frames in (4, 5, 8, 16):
        made = {f"n{length}": pattern(length % 97, length) for length in LENGTHS}
        lines = [f"make {name} {data}" for name, data in made.items()]
        for name in [*made, *reversed(made)]:
            lines += [f"read {name}", f"write {name} {len(made[name]) // 2 - 1} {made[name][-2:]}"]
        case = Case.of_lines(f"lengths/all_in_{frames}_frames", HEADER % (1, 2, 5, frames, 64, 16), lines)
        assert all(case.answers(f"read {name}") == [f"v1 {data}", f"v2 {data}"] for name, data in made.items()), case.name
        yield case


# ---- a run over the border of a word of the bitmap
def borders():
    """The frames below the border have pinned spans of one page, brought back one by one from sets of one data row; then
    spans of two and four pages come, and their runs end at the last frame."""
    for border in (64, 128):
        for below in range(border - 4, border + 2):
            singles = [f"s{at}" for at in range(below)]
            lines, lane_of = [], {}
            for at, name in enumerate(singles):
                lines += [f"0 make {name} {at % 256:02x}", "0 evict"]
                lane_of[name] = 1 + at // 16
            lines += [f"0 make two {pattern(1, 1025)}", "0 evict", f"0 make four {pattern(2, 2049)}", "0 evict",
                      "0 make one ee", "0 evict"]
            lines += [f"{lane_of[name]} pin {name}" for name in singles]
            lines += ["15 read four", "15 pin four", "15 read two", "15 pin two", "15 read one", "15 make more dd", "15 evict",
                      f"15 make wide {pattern(5, 4000)}", "15 unpin two", "15 read one", "15 free four", "15 read two"]
            lines += [f"{1 + at // 16} peek {name}" for at, name in enumerate(singles)]
            # The pins of a lane end at its last line.
            lines += [f"{lane} leave" for lane in sorted({1, 15, *lane_of.values()})]
            text = "\n".join([HEADER % (1, 1, 3, below + 6, 200, 200)] + lines) + "\n"
            case = Case(f"borders/{below}_frames_below_{border}", text)
            told = [reply for line, reply in zip(case.lines, case.replies) if line in ("read one", "make more dd")]
            assert told[0] == "noroom frames %d loose 0 nodes 3" % (below + 6), (case.name, told)
            yield case


def last_frames():
    """All but the last four of 4,096 frames have spans of one page, and all but the last three. Sets are numbered, so the last
    line tells how many evictions were made: none where there is a run, and four where there is none, of the first frames."""
    for left, evictions in ((4, 0), (3, 4)):
        lines = [line for at in range(4096 - left) for line in (f"make s{at} 00", "evict")]
        lines += [f"read s{at}" for at in range(4096 - left)] + [f"make l {pattern(1, 4096)}", "evict", "read l", "read s0", "read s4000"]
        case = Case.of_lines(f"borders/the_last_{left}_of_4096_frames", HEADER % (1, 1, 2, 4096, 4096, 5000), lines)
        assert case.replies[-4] == f"set {4096 - left + evictions}", (case.name, case.replies[-4])
        yield case


# ---- a crash before each line, of sets of two pages and of four
def crashes():
    for length in (1500, 4000):
        for folder, family in (("batch", crash_before_batch), ("join", crash_before_join), ("rebuild", crash_before_rebuild)):
            yield from family(f"crash_before/{folder}_of_{length}_bytes", length)


def aborts():
    """A batch of spans of four pages is aborted, and a second one committed; a crash before each line."""
    front = [f"make a {pattern(1, 2049)}", f"make b {pattern(2, 3100)}"]
    lines = ["begin", "ship", "ship", "abort", "read b", "begin"] + ["ship"] * 5 + ["commit", "ship", "commit", "read a", "read b"]
    kinds = {f"node_{node}": [f"crash {node}"] for node in (0, 1, 3, 4)}
    for _, _, case in before_each("crash_before/abort_and_commit_of_four_pages", SMALL, front, lines, kinds):
        told = [f"v1 {pattern(1, 2049)}", f"v1 {pattern(2, 3100)}"]
        assert [case.answers("read a")[-1], case.answers("read b")[-1]] == told and "set 1" in case.replies, case.name
        yield case


# ---- sets of long spans
class LongSets:
    """The lines that make sets of up to four spans of one length: of two classes, cold ones and then hot ones."""
    CLASSES = {2: (1500, 2000), 4: (3000, 4000)}

    def __init__(self, k, pages):
        self.k, self.pages, self.lines, self.names, self.count = k, pages, [], {}, 0

    def add(self, live):
        number, self.count = self.count, self.count + 1
        for position in range(self.k):
            name = f"s{number}p{position}"
            self.names[name] = pattern(10 * number + position, self.CLASSES[self.pages][position % 2] - position)
            self.lines.append(f"make {name} {self.names[name]}")
            if position < self.k - 2 or self.k == 2 and position == 0:
                self.lines.append(f"filter {name}")
        self.lines.append("evict")
        for position in set(range(self.k)) - set(live):
            self.lines.append(f"free s{number}p{position}")
            del self.names[f"s{number}p{position}"]
        return self

    def reads(self):
        return [f"read {name}" for name in self.names]

    def is_read_whole(self, case):
        return case.replies[-len(self.names):] == [f"v1 {data}" for data in self.names.values()]


def joined():
    for k, r, pages in ((2, 1, 2), (2, 2, 4), (4, 2, 2), (4, 2, 4)):
        halves = ((0,), (1,)) if k == 2 else ((0, 2), (1, 3))
        header = HEADER % (k, r, k + r + 1, 24, 64, 64)
        lines = {"one_line": ["compact"], "in_steps": ["pair"] + ["patch"] * (k + r) + ["merge"]}
        for form, middle in lines.items():
            sets = LongSets(k, pages).add(halves[0]).add(halves[1])
            crashes = [f"crash {node}" for node in range(r)]
            case = Case.of_lines(f"joined/k{k}_r{r}_pages_{pages}_{form}", header, sets.lines + middle + crashes + sets.reads())
            assert f"set 2 moved {len(halves[1])}" in case.replies and sets.is_read_whole(case), case.name
            yield case
    # A set of two pages between two of four: these match, and it matches neither.
    first, other = LongSets(2, 4).add((0,)), LongSets(2, 2)
    other.count = 1
    other.add((1,))
    first.count = 2
    first.add((1,))
    lines = first.lines[:first.lines.index("evict") + 2] + other.lines
    lines += first.lines[first.lines.index("evict") + 2:] + ["pair", "part", "compact", "pair"] + first.reads() + other.reads()
    case = Case.of_lines("joined/of_one_length_alone", HEADER % (2, 1, 4, 24, 64, 64), lines)
    assert case.answers("pair") == ["pair 0 2", "nopair"] and "set 3 moved 1" in case.replies
    yield case


def locals_():
    for k, r, pages in ((2, 1, 2), (4, 2, 2), (4, 2, 4)):
        halves = ((0,), (1,)) if k == 2 else ((0,), (1, 3))
        sets = LongSets(k, pages).add(halves[0]).add(halves[1])
        header = HEADER % (k, r, k + r + 1, 24, 64, 64)
        case = LocalCase.of_lines(f"local/k{k}_r{r}_pages_{pages}", header, sets.lines + ["compact", "compact"] + sets.reads())
        assert case.given_by(len(sets.names)) and sets.is_read_whole(case), case.name
        yield case
        lines = sets.lines + ["compact", f"crash {k}", "crash 0", "rebuild", "rebuild"] + sets.reads()
        if r > 1:
            yield LocalCase.of_lines(f"local/k{k}_r{r}_pages_{pages}_and_crashes", header, lines)


# ---- a row of four pages made again of k others
def solved():
    for k, r in ((1, 1), (4, 2), (16, 4)):
        names = {f"o{at}": pattern(at + 1, 4096) for at in range(4 * k)}
        lines = [f"make {name} {data}" for name, data in names.items()] + ["evict"] + [f"crash {node}" for node in range(r)]
        # Each span has four objects, so each byte of each row has a meaning; the first r spans are read whole.
        read = list(names)[:4 * r]
        lines += [f"read {name}" for name in read]
        case = LocalCase.of_lines(f"solved/k{k}_r{r}", HEADER % (k, r, k + r, 4 * k, 64, 64), lines)
        assert case.replies[-len(read):] == [f"v1 {names[name]}" for name in read], case.name
        assert case.given == k * min(k, r), (case.name, case.given)
        yield case


# ---- the limits
class Bare(Written):
    """A script with what it prints and its status, written down here."""

    def __init__(self, name, lines, told, status=0):
        self.name, self.status, self.out = "limits/" + name, status, told + "\n"
        self.text = "".join(line + "\n" for line in [SMALL, *lines])


def limits():
    yield Bare("make_of_1025_bytes", ["1 make b " + "00" * 1025], "1 make b v1")
    yield Bare("make_of_4096_bytes", ["1 make c " + "00" * 4096], "1 make c v1")
    made = "1 make a " + "0a" * 4096
    for name, line, told in (("write_of_4096_bytes", "0b" * 4096, "v2"), ("write_of_4095_bytes", "0b" * 4095, "v2")):
        yield Bare(name, [made, "1 write a 0 " + line], f"1 make a v1\n1 write a {told}")
    yield Bare("write_of_a_byte_past_the_end", [made, "1 write a 4096 00"], "1 make a v1\n1 write a range 4096")
    yield Bare("write_of_no_bytes_at_the_end", [made, "1 write a 4096 -"], "1 make a v1\n1 write a v2")
    yield Bare("write_at_4097", [made, "1 write a 4097 00"], "script line 3 reason 9 number", 2)
    yield Bare("write_of_no_bytes_at_4097", [made, "1 write a 4097 -"], "script line 3 reason 9 number", 2)
    for digits, reason in ((8191, "10 hex"), (8193, "10 hex"), (8194, "11 length")):
        yield Bare(f"make_of_{digits}_digits", ["1 make a " + "0" * digits], f"script line 2 reason {reason}", 2)
        yield Bare(f"write_of_{digits}_digits", [made, "1 write a 0 " + "0" * digits], f"script line 3 reason {reason}", 2)
    yield Bare("make_of_a_dash", ["1 make a -"], "script line 2 reason 10 hex", 2)
    # With the shortest lines 255 objects of 2,049 bytes fit a script, and 256 do not.
    letters = "abcdefghijklmnopqrstuvwxyz0123456789"
    names = [*letters, *(one + other for one in letters for other in letters)]
    header = HEADER % (16, 4, 20, 80, 60, 300)
    makes = [f"1 make {name} {pattern(at % 128, 2049)}" for at, name in enumerate(names[:256])]
    case = Case("limits/as_many_objects_past_2048_bytes_as_fit", "\n".join([header] + makes[:255]) + "\n")
    assert len(case.text) <= 1048576 and set(case.replies[:255]) == {"v1"}
    yield case
    more = Bare("one_object_past_2048_bytes_more_than_fits", [], "script line 0 reason 1 toolong", 2)
    more.text = "\n".join([header] + makes) + "\n"
    assert len(more.text) > 1048576
    yield more


# ---- long runs of all verbs
def long_run(kind, k, r, nodes, frames, room, lines, name):
    drawn = Drawn(k, nodes, 3000 * k + r, is_long=True)
    while len(drawn.text) < lines:
        drawn.block()
    for node in range(r):
        drawn.text.append(f"1 crash {node}")
    drawn.text += [f"{lane} read {made}" for made, lane in random.Random(k).sample(drawn.names, min(60, len(drawn.names)))]
    return kind(f"runs/{name}", "\n".join([HEADER % (k, r, nodes, frames, room, len(drawn.names))] + drawn.text) + "\n")


def runs():
    for k, r, nodes, frames, room, lines in (
            (1, 1, 4, 6, 60, 500), (2, 2, 7, 12, 60, 900), (3, 1, 6, 20, 60, 900), (4, 2, 9, 15, 60, 900)):
        case = long_run(Case, k, r, nodes, frames, room, lines, f"k{k}_r{r}")
        assert len(case.text) <= 1048576 and " noroom " in case.out, case.name
        yield case
        yield long_run(LocalCase, k, r, nodes, frames, room, lines // 2, f"local_k{k}_r{r}")


def long_cases():
    for family in (worked_cases, each_length, borders, last_frames, crashes, aborts, joined, locals_, solved, limits, runs):
        for case in family():
            case.packed_from = 8000
            yield case
