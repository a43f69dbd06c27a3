#!/usr/bin/env python3
"""Judges what `carbink threads` printed for a script. What threads print is not fixed, so it is compared with nothing:
each rule of docs/FORMATS.md and docs/DEFINITIONS.md that holds of every run is looked at.

    legal.py SCRIPT OUTPUT                         judges one output
    legal.py --self                                tries the judge itself on tests/judged
    legal.py --count N [SEED [WORD [PROGRAM]]]     runs N drawn scripts, from the seed 0, by the word threads, on ./carbink

Each breach is printed with the line of the output and the name of its rule, and the status is 1 then. With the word `seq`
the answers are put in the order by lane first: one thread is a run that threads may have. Behind the words of --count may
stand what else is asked of the runs:

    --kind KIND         the scripts' kind in tests/drawn_threads.py, mixed or storm; mixed
    --lines N           so many lines of the lanes from 1 on in each script, where it is not as the kind has it
    --processors N      each run has N processors, and so many runs stand side by side as there are processors for; else
                        a run has them all
    --seconds N         a run that takes longer stands still; 120

tests/threads has some runs of storms in the gate."""
import multiprocessing
import os
import shutil
import subprocess
import sys
import tempfile
import time
from concurrent.futures import ProcessPoolExecutor
from functools import partial

HERE = os.path.dirname(os.path.realpath(__file__))
sys.path.insert(0, HERE)
import usage  # noqa: E402
from judge import Script, judge, output_of_lines  # noqa: E402
from drawn_threads import KINDS, drawn_script  # noqa: E402
from model import run  # noqa: E402

FOLDER = os.path.join(HERE, "judged")


def by_lane(script, text):
    """Answers in the order of the script, put in the order by lane and then by line."""
    told = text.split("\n")[:-1]
    order = sorted(range(len(told)), key=lambda at: (script.lines[at].lane, at))
    return output_of_lines(told[at] for at in order)


def breaches_of(program, word, text, seconds):
    """What is wrong with what the program prints for this script, what it printed, and how many seconds it ran."""
    script, started = Script(text), time.monotonic()
    try:
        ran = subprocess.run([program, word], input=text.encode(), stdout=subprocess.PIPE,
                             stderr=subprocess.PIPE, timeout=seconds, check=False)
    except subprocess.TimeoutExpired:
        return [f"hangs: no end within {seconds} seconds"], "", seconds
    took, told = time.monotonic() - started, ran.stdout.decode(errors="replace")
    if ran.returncode != 0:
        return [f"status: {ran.returncode}"], told, took
    if word == "seq":
        told = by_lane(script, told)
    return judge(script, told), told, took


def show(text, told, breaches):
    """Prints the breaches, and keeps the script and the output, which another run may not give again."""
    folder = tempfile.mkdtemp(prefix="legal-")
    for name, content in (("script", text), ("output", told)):
        with open(os.path.join(folder, name), "w", encoding="utf-8") as file:
            file.write(content)
    print(*breaches, f"the script and the output are in {folder}", sep="\n")


def places_of(processors, each):
    """The processors of each of the runs that stand side by side."""
    if each == 0:
        # A run has up to twenty threads of its own, so few of them stand side by side.
        return [processors] * max(1, len(processors) // 2)
    return [processors[at:at + each] for at in range(0, len(processors) - each + 1, each)]


def take_place(places):
    """This process makes its runs on processors that no other one has; a program that it starts has the same."""
    os.sched_setaffinity(0, places.get())


def try_one(asked, seed):
    """The breaches of the run of a seed, with its script, what it printed and how long it took."""
    text = drawn_script(seed, asked["kind"], asked["lines"] or None)
    return seed, text, *breaches_of(asked["program"], asked["word"], text, asked["seconds"])


def run_drawn(count, seed, asked):
    places = places_of(sorted(os.sched_getaffinity(0)), asked["processors"])
    free = multiprocessing.SimpleQueue()
    for place in places:
        free.put(place)
    bad, longest = 0, (0, None)
    with ProcessPoolExecutor(len(places), initializer=take_place, initargs=(free,)) as pool:
        for number, text, breaches, told, took in pool.map(partial(try_one, asked), range(seed, seed + count)):
            longest = max(longest, (took, number))
            if breaches:
                bad += 1
                print(f"seed {number}")
                show(text, told, breaches)
    print(f"{count} runs from the seed {seed} on, " + (f"{bad} not legal" if bad else "each legal")
          + f"; the longest took {longest[0]:.2f} seconds (seed {longest[1]})")
    return 1 if bad else 0


def blocks(text):
    """The blocks of a table of wrong outputs: its rules, and what stands in place of which lines of the right one."""
    for block in text.split("\n\n"):
        lines = [line for line in block.split("\n") if line and not line.startswith("#")]
        if lines:
            edits = [line.split(" ", 1) for line in lines[1:]]
            yield set(lines[0].split()), {int(edit[0]): edit[1:] for edit in edits}


def edited(right, edits):
    """The right output with these lines in place of those of the same numbers; where none stands there, it is taken out."""
    told = right.split("\n")[:-1]
    assert all(at <= len(told) + 1 for at in edits)
    lines = [edits.get(at + 1, [line]) for at, line in enumerate(told)] + [edits.get(len(told) + 1, [])]
    return output_of_lines(line for part in lines for line in part)


def read(name):
    with open(os.path.join(FOLDER, name), encoding="utf-8") as file:
        return file.read()


def try_judge():
    """The right outputs of tests/judged break no rule, and each wrong one the rules that are written beside it and no
    other; what one thread answers is legal for each drawn script of either kind."""
    tried, failed, seen = 0, 0, set()

    def check(name, breaches, wanted):
        nonlocal tried, failed
        tried += 1
        told = {breach.split(":", 1)[0].split()[-1] for breach in breaches}
        if told != wanted:
            failed += 1
            print(f"FAILED {name}: breaks {sorted(told)}, wanted {sorted(wanted)}", *breaches[:4], sep="\n    ")

    for name in sorted(os.listdir(FOLDER)):
        base, kind = os.path.splitext(name)
        if kind == ".in":
            script, right = Script(read(name)), read(base + ".out")
            check(base, judge(script, right), set())
            for at, (rules, edits) in enumerate(blocks(read(base + ".wrong"))):
                seen |= rules
                check(f"{base}, wrong output {at + 1}", judge(script, edited(right, edits)), rules)
    for kind, seeds, count in (("mixed", 300, None), ("storm", 60, 500)):
        for seed in range(seeds):
            text = drawn_script(seed, kind, count)
            script = Script(text)
            check(f"drawn script {seed}, {kind}", judge(script, by_lane(script, run(text)[0])), set())
    print(f"{tried} outputs judged, {failed} otherwise than they should; {len(seen)} rules broken")
    return 1 if failed else 0


def judge_files(reader, script, output):
    """Judges one output."""
    script, told = (usage.text(reader, name) for name in (script, output))
    try:
        script = Script(script)
    except (IndexError, KeyError, ValueError):
        reader.error("the first file is no script that threads run")
    breaches = judge(script, told)
    print(*(breaches or ["legal"]), sep="\n")
    return 1 if breaches else 0


def drawn(reader, words, asked):
    """Runs drawn scripts: from which seed on, by which word, on which program, where these are said."""
    seed, word, program, *more = words + ["0", "threads", os.path.join(HERE, "..", "carbink")][len(words):]
    processors = len(os.sched_getaffinity(0))
    if more or not seed.isdigit() or word not in ("threads", "seq") or not shutil.which(program):
        reader.error("behind --count N stand a seed, threads or seq, and a program")
    if asked.processors > processors:
        reader.error(f"there are {processors} processors")
    how = {"kind": asked.kind, "lines": asked.lines, "processors": asked.processors, "seconds": asked.seconds}
    return run_drawn(asked.count, int(seed), {**how, "word": word, "program": program})


def main():
    reader = usage.reader(__doc__)
    what = reader.add_mutually_exclusive_group()
    what.add_argument("--self", action="store_true")
    what.add_argument("--count", metavar="N", type=usage.number)
    reader.add_argument("--kind", choices=list(KINDS), default="mixed")
    for name, usual in (("lines", 0), ("processors", 0), ("seconds", 120)):
        reader.add_argument("--" + name, metavar="N", type=usage.number, default=usual)
    reader.add_argument("words", metavar="WORD", nargs="*")
    asked = reader.parse_args()
    if asked.count is not None:
        return drawn(reader, asked.words, asked)
    if asked.self and not asked.words:
        return try_judge()
    if asked.self or len(asked.words) != 2:
        reader.error("one output is judged by two files, SCRIPT and OUTPUT")
    return judge_files(reader, *asked.words)


if __name__ == "__main__":
    sys.exit(main())
