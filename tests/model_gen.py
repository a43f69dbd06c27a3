#!/usr/bin/env python3
"""What `carbink gen` prints, by its rule and by model.py: a model that shares no code with the product.

    model_gen.py script SEED LINES LANES    prints the script that is drawn
    model_gen.py answer WORD..              prints what these words are answered, and exits with the program's status
    model_gen.py make DIR                   writes the cases of tests/rows/gen
"""
import os
import re
import sys

import model
import usage
from case_files import write_case

MULTIPLIER, INCREMENT = 6364136223846793005, 1442695040888963407
HEADER = "carbink 1 k=4 r=2 nodes=8 frames=12 room=4096 handles=65536 turns=0"
DONE = set("ok left moved same set batch shipped allshipped pair stepped allstepped rebuilt epoch".split())


def script(seed, lines, lanes):
    """The script, as text. Each number is drawn from the upper 31 bits of a state of 64."""
    state = seed

    def draw(most):
        nonlocal state
        state = (state * MULTIPLIER + INCREMENT) % 2**64
        return (state >> 33) % most

    out, lengths = [HEADER], {lane: [] for lane in range(1, lanes + 1)}
    for _ in range(lines):
        lane = 1 + draw(lanes)
        action, own = draw(16), lengths[lane]
        name = lambda place: f"l{lane}n{place}"
        bytes_drawn = lambda count: bytes(draw(256) for _ in range(count)).hex()
        if not own or action < 4:
            count = 1 + draw(120)
            words = ["make", name(len(own)), bytes_drawn(count)]
            own.append(count)
        elif action < 10:
            words = ["read", name(draw(len(own)))]
        elif action < 14:
            place = draw(len(own))
            at = draw(own[place] + 1)
            count = draw(min(own[place] - at, 32) + 1)
            words = ["write", name(place), str(at), bytes_drawn(count) or "-"]
        elif action == 14:
            words = ["evict"]
        else:
            what = draw(6)
            if what < 2:
                words = [["free", "filter"][what], name(draw(len(own)))]
            elif what < 4:
                words = [["crash", "join"][what - 2], str(draw(2))]
            else:
                words = [["rebuild", "compact"][what - 4]]
        out.append(" ".join([str(lane)] + words))
    return "".join(line + "\n" for line in out)


def is_refusal(words):
    """Whether a line of output, as words, tells that its request was not done."""
    reply = words[3 if words[1] in "make read write free filter crash join".split() else 2]
    return not (re.fullmatch("v[0-9]+", reply) or reply in DONE)


def summary(seed, lines, lanes):
    """The three lines."""
    text = model.run(script(seed, lines, lanes))[0]
    answers = [line.split() for line in text.splitlines()]
    verbs = [words[1] for words in answers]
    counts = {verb: verbs.count(verb) for verb in ("make", "read", "write", "free")}
    other = len(verbs) - sum(counts.values())
    told = " ".join(f"{verb} {count}" for verb, count in counts.items())
    refused = sum(map(is_refusal, answers))
    return f"gen seed {seed} lines {lines} lanes {lanes}\n{told} other {other}\nrefused {refused} text {len(text)}\n"


def asked(words):
    """The seed, the lines and the lanes that the words ask for, or None."""
    ranges = {"seed": (0, 999999999), "lines": (1, 4000), "lanes": (1, 15)}
    values, gens, words = {}, 0, list(words)
    while words:
        word = words.pop(0)
        if word == "gen":
            gens += 1
            continue
        match = re.fullmatch(r"--(seed|lines|lanes)(=(.*))?", word, re.S)
        if not match or match[1] in values or (match[2] is None and not words):
            return None
        value = words.pop(0) if match[2] is None else match[3]
        low, high = ranges[match[1]]
        if not re.fullmatch(r"0|[1-9][0-9]{0,8}", value) or not low <= int(value) <= high:
            return None
        values[match[1]] = int(value)
    return (values["seed"], values["lines"], values["lanes"]) if gens == 1 and len(values) == 3 else None


def answer(words):
    """What is printed, and the status."""
    plan = asked(words)
    return (summary(*plan), 0) if plan else ("words refused\n", 1)


CASES = {
    "one_line": "gen --seed 1 --lines 1 --lanes 1",
    "four_thousand_lines": "gen --seed 7 --lines 4000 --lanes 15",
    "a_thousand_lines": "gen --seed 42 --lines 1000 --lanes 7",
    "one_lane": "gen --seed 3 --lines 400 --lanes 1",
    "seed_0": "gen --seed 0 --lines 50 --lanes 2",
    "the_greatest_seed": "gen --seed 999999999 --lines 50 --lanes 2",
    "one_word_each": "gen --seed=5 --lines=20 --lanes=3",
    "one_word_and_two": "gen --seed=5 --lines 20 --lanes=3",
    "before_gen": "--seed 5 --lines 20 --lanes 3 gen",
    "before_gen_in_one_word": "--seed=5 --lines=20 --lanes=3 gen",
    "gen_in_the_middle": "--lanes=3 gen --lines 20 --seed=5",
    "another_order": "gen --lanes 3 --lines 20 --seed 5",
    "gen_behind_two": "--lines 20 --seed 5 gen --lanes 3",
    "no_options": "gen",
    "no_seed": "gen --lines 20 --lanes 3",
    "no_lines": "gen --seed 5 --lanes 3",
    "no_lanes": "gen --seed 5 --lines 20",
    "seed_alone": "gen --seed 1",
    "no_gen": "--seed 5 --lines 20 --lanes 3",
    "gen_twice": "gen gen --seed 5 --lines 20 --lanes 3",
    "seed_twice": "gen --seed 5 --lines 20 --lanes 3 --seed 5",
    "seed_twice_in_one_word": "gen --seed=5 --seed=5 --lines 20 --lanes 3",
    "seed_twice_both_ways": "--seed 5 gen --seed=5 --lines 20 --lanes 3",
    "lines_twice": "gen --seed 5 --lines 20 --lines 20 --lanes 3",
    "lanes_twice": "gen --lanes=3 --seed 5 --lines 20 --lanes 3",
    "with_seq": "seq --seed 5 --lines 20 --lanes 3",
    "with_seq_and_gen": "seq gen --seed 5 --lines 20 --lanes 3",
    "with_local": "local --seed 5 --lines 20 --lanes 3",
    "with_check": "--seed 5 --lines 20 --lanes 3 check",
    "with_one_option": "seq --seed 5",
    "with_rma": "rma --lanes=3",
    "with_map": "map --lanes=3",
    "with_scrub": "scrub --lines=3",
    "a_word_more": "gen --seed 5 --lines 20 --lanes 3 more",
    "a_value_more": "gen --seed 5 6 --lines 20 --lanes 3",
    "seed_without_value": "gen --lines 20 --lanes 3 --seed",
    "an_empty_seed": "gen --seed= --lines 20 --lanes 3",
    "lines_for_a_value": "gen --seed --lines 20 --lanes 3",
    "gen_for_a_value": "--seed gen --lines 20 --lanes 3",
    "a_leading_zero": "gen --seed 05 --lines 20 --lanes 3",
    "a_leading_zero_in_one_word": "gen --seed 5 --lines=020 --lanes 3",
    "two_zeros": "gen --seed 00 --lines 20 --lanes 3",
    "a_plus": "gen --seed +5 --lines 20 --lanes 3",
    "a_minus": "gen --seed -5 --lines 20 --lanes 3",
    "a_minus_in_one_word": "gen --seed=-5 --lines 20 --lanes 3",
    "a_plus_in_one_word": "gen --seed 5 --lines=+20 --lanes 3",
    "a_fraction": "gen --seed 5.0 --lines 20 --lanes 3",
    "hexadecimal": "gen --seed 0x5 --lines 20 --lanes 3",
    "an_exponent": "gen --seed 1e3 --lines 20 --lanes 3",
    "an_underscore": "gen --seed 5 --lines 2_0 --lanes 3",
    "a_second_equals": "gen --seed==5 --lines 20 --lanes 3",
    "seed_past_its_end": "gen --seed 1000000000 --lines 20 --lanes 3",
    "a_seed_of_20_digits": "gen --seed 18446744073709551617 --lines 20 --lanes 3",
    "no_line": "gen --seed 5 --lines 0 --lanes 3",
    "lines_past_their_end": "gen --seed 5 --lines 4001 --lanes 3",
    "no_lane": "gen --seed 5 --lines 20 --lanes 0",
    "lanes_past_their_end": "gen --seed 5 --lines 20 --lanes 16",
    "cut_short": "gen --see 5 --lines 20 --lanes 3",
    "cut_short_in_one_word": "gen --seed 5 --line=20 --lanes 3",
    "one_dash": "gen -seed 5 --lines 20 --lanes 3",
    "a_letter": "gen -s 5 --lines 20 --lanes 3",
    "a_capital": "gen --Seed 5 --lines 20 --lanes 3",
    "three_dashes": "gen ---seed 5 --lines 20 --lanes 3",
    "no_name": "gen --=5 --seed 5 --lines 20 --lanes 3",
    "two_dashes_before": "-- gen --seed 5 --lines 20 --lanes 3",
    "two_dashes_behind": "gen --seed 5 --lines 20 --lanes 3 --",
    "two_dashes_for_a_value": "gen --seed -- --lines 20 --lanes 3",
    "another_option": "gen --seed 5 --lines 20 --lanes 3 --turns 5",
    "help": "gen --seed 5 --lines 20 --lanes 3 --help",
    "help_alone": "gen --help",
    "the_help_letter": "gen -h",
    "the_version": "gen --version",
    "a_capital_gen": "Gen --seed 5 --lines 20 --lanes 3",
}
# Words with spaces or with nothing in them, a word a place.
MORE = {
    "a_space_before_a_value": ["gen", "--seed", " 5", "--lines", "20", "--lanes", "3"],
    "a_space_behind_a_value": ["gen", "--seed=5 ", "--lines", "20", "--lanes", "3"],
    "an_empty_value": ["gen", "--seed", "", "--lines", "20", "--lanes", "3"],
    "an_empty_word": ["gen", "", "--seed", "5", "--lines", "20", "--lanes", "3"],
    "all_in_one_word": ["gen --seed 5 --lines 20 --lanes 3"],
}


def make(folder):
    for name, words in [(name, text.split(" ")) for name, text in CASES.items()] + list(MORE.items()):
        told, status = answer(words)
        write_case(os.path.join(folder, name), b"", told, words, status)


def main():
    # Any words may be asked about.
    if sys.argv[1:2] == ["answer"]:
        told, status = answer(sys.argv[2:])
        sys.stdout.write(told)
        return status
    reader = usage.reader(__doc__)
    reader.add_argument("what", choices=["script", "answer", "make"])
    reader.add_argument("rest", metavar="WORD", nargs="+")
    words = reader.parse_args()
    if words.what == "make" and len(words.rest) == 1:
        make(words.rest[0])
    elif words.what == "script" and len(words.rest) == 3 and all(map(str.isdigit, words.rest)):
        sys.stdout.write(script(*map(int, words.rest)))
    else:
        reader.error("behind script stand SEED LINES LANES, and behind make a folder")
    return 0


if __name__ == "__main__":
    sys.exit(main())
