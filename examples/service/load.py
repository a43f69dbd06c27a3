#!/usr/bin/env python3
"""A load for the service: puts, gets and deletes that are drawn, with crashes among them, each answer compared with a
plain dict.

    load.py SERVICE                     SERVICE is the program that is built of service.c
    load.py --map PROGRAM               the same over `carbink map` by tools/talk, with numbers in place of values;
                                        PROGRAM is build/carbink, or the trial build that ./carbink keeps
    --seed N, --lines N                 other draws (1), and how many (4,000; with --map 120)

The last lines tell how many answers were as they should be. The status is 1 where one was not.
"""
import argparse
import os
import random
import subprocess
import sys

TALK = os.path.join(os.path.dirname(os.path.realpath(__file__)), "..", "..", "tools", "talk")
K, R, NODES, FRAMES, ROOM = 4, 2, 8, 48, 256
SIZES = [16, 100, 100, 300, 300, 300, 1000, 4000]


class Load:
    """Sends commands, and counts the answers that are others than wanted."""

    def __init__(self, words, lines):
        self.child = subprocess.Popen(words, stdin=subprocess.PIPE, stdout=subprocess.PIPE, text=True, bufsize=1)
        self.values, self.asked, self.wrong, self.lines = {}, 0, 0, lines

    def ask(self, command, wanted=None):
        self.child.stdin.write(command + "\n")
        answer = self.child.stdout.readline().rstrip("\n")
        if wanted is not None:
            self.asked += 1
            if answer != wanted:
                self.wrong += 1
                print(f"'{command[:40]}' was answered '{answer[:40]}' and not '{wanted[:40]}'")
        return answer

    def end(self):
        self.child.stdin.close()
        self.child.wait()
        print(f"{self.asked - self.wrong:,} of {self.asked:,} answers are as they should be")
        return 1 if self.wrong or self.child.returncode else 0


def key_of(draw):
    """Few keys are used often: the square of a drawn number."""
    return f"user:{int(draw.random() ** 2 * 500)}"


def one(load, draw):
    key, drawn = key_of(draw), draw.random()
    if drawn < 0.3 or not load.values:
        load.values[key] = draw.randbytes(draw.choice(SIZES)).hex()
        load.ask(f"put {key} {load.values[key]}", "stored")
    elif drawn < 0.95:
        load.ask(f"get {key}", load.values.get(key, "none"))
    else:
        load.ask(f"delete {key}", "deleted" if load.values.pop(key, None) else "none")


def service(program, draw, lines):
    load = Load([program, *map(str, (K, R, NODES, FRAMES, ROOM))], lines)
    print(f"k={K} r={R} nodes={NODES} frames={FRAMES} room={ROOM}")
    for number in range(lines):
        one(load, draw)
        if number % (lines // 4) == lines // 8:
            down = draw.sample(range(NODES), R)
            print("crash", *down, "->", load.ask("crash " + " ".join(map(str, down))), "|", load.ask("stats"))
        elif number % (lines // 4) == lines // 6:
            print("rebuild ->", load.ask("rebuild"), "| compact ->", load.ask("compact"), "| join ->",
                  load.ask("join " + " ".join(map(str, range(NODES)))))
    for key, value in load.values.items():
        load.ask(f"get {key}", value)
    print("at the end:", load.ask("stats"))
    return load.end()


def over_map(program, draw, lines):
    load = Load([sys.executable, TALK, "--map", "--program", program], lines)
    load.ask(f"carbink 1 k=2 r=2 nodes=6 frames=4 room={ROOM} handles=64 turns=0\nput 0 0", "none")
    load.values[0] = 0
    for _ in range(lines):
        key, drawn, number = int(draw.random() ** 2 * 40), draw.random(), int(draw.random() * 1000)
        had = str(load.values.get(key, "none"))
        if drawn < 0.4:
            load.ask(f"put {key} {number}", had)
            load.values[key] = number
        elif drawn < 0.9:
            load.ask(f"look {key}", had)
        else:
            load.ask(f"drop {key}", had)
            load.values.pop(key, None)
    print(f"keys {len(load.values)} in 4 frames")
    return load.end()


def main():
    reader = argparse.ArgumentParser(description=__doc__, formatter_class=argparse.RawDescriptionHelpFormatter)
    reader.add_argument("program", metavar="PROGRAM")
    reader.add_argument("--map", action="store_true")
    reader.add_argument("--seed", type=int, default=1)
    reader.add_argument("--lines", type=int, default=None)
    asked = reader.parse_args()
    draw = random.Random(asked.seed)
    if asked.map:
        return over_map(asked.program, draw, asked.lines or 120)
    return service(asked.program, draw, asked.lines or 4000)


if __name__ == "__main__":
    sys.exit(main())
