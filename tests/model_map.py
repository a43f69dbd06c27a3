#!/usr/bin/env python3
"""An independent model of `carbink map`, for the expected outputs of its rows.

    model_map.py < NAME.in > NAME.out       exits with the status that the program owes (0 or 2)
    model_map.py make DIR                   writes the cases with their expected outputs

It is written from the rules of the mode alone, over the world of model.py, which says what is far and where there is no
room. Each number is read from the bytes of the object where it lies, and looked up beside in a plain list and a plain
dictionary, which have to say the same."""

import re

from case_files import run_model
from model import World

NUMBER = re.compile(rb"(0|[1-9][0-9]{0,8})\Z")
FIELDS = ("k", "r", "nodes", "frames", "room", "handles", "turns")
OPERANDS = {b"push": 1, b"set": 2, b"get": 1, b"pop": 0, b"put": 2, b"look": 1, b"drop": 1}
OBJECT = 1024  # bytes; 128 numbers or 64 pairs
BUCKETS = 64


def config_of(line):
    """The numbers of a header whose fields are all in their ranges, or None."""
    words = line.split(b" ")
    if len(words) != 9 or words[:2] != [b"carbink", b"1"]:
        return None
    found = {}
    for field, word in zip(FIELDS, words[2:]):
        name, equals, number = word.partition(b"=")
        if name.decode("latin-1") != field or not equals or not NUMBER.match(number):
            return None
        found[field] = int(number)
    ranges = {"k": (1, 16), "r": (1, 4), "nodes": (found["k"] + found["r"], 64), "frames": (1, 4096), "room": (1, 4096),
              "handles": (1, 65536), "turns": (0, 2500)}
    if all(low <= found[field] <= high for field, (low, high) in ranges.items()):
        return found
    return None


def command_of(line):
    """The verb and the numbers that a line spells, or None where it is outside the form."""
    verb, *operands = line.split(b" ")
    if OPERANDS.get(verb) != len(operands) or not all(NUMBER.match(word) for word in operands):
        return None
    return (verb.decode(), *(int(word) for word in operands))


def read(data):
    """(configuration, commands), or the first line outside the form."""
    if len(data) > 1048576:
        return 0
    lines = data.split(b"\n")
    if lines[-1] == b"":
        lines.pop()
    config = config_of(lines[0]) if lines else None
    if config is None:
        return 1
    commands = []
    for at, line in enumerate(lines[1:]):
        command = command_of(line) if at < 20000 else None
        if command is None:
            return at + 2
        commands.append(command)
    return config, commands


class Refused(Exception):
    """A call of the runtime was answered by this refusal, and the command with it."""


class Runtime:
    """The calls of the runtime that a command makes, each on one object."""

    def __init__(self, config):
        self.world = World(*(config[field] for field in FIELDS[:6]))

    def read(self, handle):
        reply = self.world.read(handle)
        if not reply.startswith("v"):
            raise Refused(reply)
        return self.world.objects[handle].data

    def write(self, handle, at, numbers):
        reply = self.world.write(handle, at, b"".join(n.to_bytes(8, "little") for n in numbers))
        if not reply.startswith("v"):
            raise Refused(reply)

    def make(self, numbers):
        handle, reply = self.world.make(b"".join(n.to_bytes(8, "little") for n in numbers).ljust(OBJECT, b"\0"))
        if handle is None:
            raise Refused(reply)
        return handle


def number_in(data, i):
    return int.from_bytes(data[8 * i:8 * i + 8], "little")


class Array:
    def __init__(self, runtime):
        self.runtime, self.handles, self.length, self.most = runtime, [], 0, 0

    def get(self, i):
        return number_in(self.runtime.read(self.handles[i // 128]), i % 128)

    def set(self, i, x):
        self.runtime.write(self.handles[i // 128], 8 * (i % 128), [x])

    def push(self, x):
        if self.length == 128 * len(self.handles):
            self.handles.append(self.runtime.make([x]))
        else:
            self.set(self.length, x)
        self.length += 1
        self.most = max(self.most, self.length)

    def pop(self):
        if self.length == 0:
            return None
        last = self.get(self.length - 1)
        self.length -= 1
        return last


class Bucket:
    def __init__(self, runtime):
        self.runtime, self.handles, self.count, self.most = runtime, [], 0, 0

    def find(self, key):
        """The place and the number of a key, and the place's object as it was read; None where no pair has the key.
        The objects that hold pairs are read one after another, up to the one that has the key."""
        for o in range((self.count + 63) // 64):
            data = self.runtime.read(self.handles[o])
            for place in range(64 * o, min(64 * o + 64, self.count)):
                if number_in(data, 2 * (place % 64)) == key:
                    return place, number_in(data, 2 * (place % 64) + 1), data
        return None

    def write(self, place, key, x):
        self.runtime.write(self.handles[place // 64], 16 * (place % 64), [key, x])

    def look(self, key):
        found = self.find(key)
        return found and found[1]

    def put(self, key, x):
        found = self.find(key)
        if found:
            self.write(found[0], key, x)
            return found[1]
        if self.count == 64 * len(self.handles):
            self.handles.append(self.runtime.make([key, x]))
        else:
            self.write(self.count, key, x)
        self.count += 1
        self.most = max(self.most, self.count)
        return None

    def drop(self, key):
        found = self.find(key)
        if not found:
            return None
        place, old, data = found
        last = self.count - 1
        if place != last:
            if last // 64 != place // 64:
                data = self.runtime.read(self.handles[last // 64])
            self.write(place, number_in(data, 2 * (last % 64)), number_in(data, 2 * (last % 64) + 1))
        self.count -= 1
        return old


class Plain:
    """A plain list and a plain dictionary beside the far ones."""

    def __init__(self):
        self.list, self.map = [], {}

    def said(self, verb, *operands):
        if verb == "push":
            return self.list.append(operands[0])
        if verb == "set":
            self.list[operands[0]] = operands[1]
            return None
        if verb == "get":
            return self.list[operands[0]]
        if verb == "pop":
            return self.list.pop() if self.list else None
        if verb == "look":
            return self.map.get(operands[0])
        old = self.map.pop(operands[0], None)
        if verb == "put":
            self.map[operands[0]] = operands[1]
        return old


def run(config, commands):
    """What is said to the commands, and the world at their end."""
    runtime, plain = Runtime(config), Plain()
    array, buckets = Array(runtime), [Bucket(runtime) for _ in range(BUCKETS)]
    said = []
    for command in commands:
        verb, operands = command[0], command[1:]
        if verb in ("set", "get") and operands[0] >= array.length:
            said.append("outside %d" % array.length)
            continue
        place = array if verb in ("push", "set", "get", "pop") else buckets[operands[0] % BUCKETS]
        try:
            told = getattr(place, verb)(*operands)
        except Refused as refused:
            said.append(str(refused))
            continue
        assert told == plain.said(*command), command
        said.append("ok" if verb in ("push", "set") else "none" if told is None else str(told))
    objects = -(-array.most // 128) + sum(-(-bucket.most // 64) for bucket in buckets)
    assert objects == len(runtime.world.objects)
    return said, runtime.world


def answer(data):
    """(status, text)"""
    found = read(data)
    if isinstance(found, int):
        return 2, "map line %d refused\n" % found
    return 0, "".join(line + "\n" for line in run(*found)[0])


# ---- the cases

HEADER = {"k": 2, "r": 2, "nodes": 6, "frames": 8, "room": 64, "handles": 16, "turns": 0}

# The two worked rows, with what they print as it is known from outside.
WORKED = (["push 7", "push 8", "get 1", "set 0 9", "get 0", "get 2", "pop", "put 5 6", "put 5 7", "look 5", "drop 5", "look 5"],
          ["ok", "ok", "8", "ok", "9", "outside 2", "8", "none", "6", "7", "7", "none"])
WORKED_FULL = (["push 7", "put 5 6", "look 5"], ["ok", "full 1", "none"])


def header(**fields):
    return "carbink 1 " + " ".join("%s=%d" % field for field in {**HEADER, **fields}.items())


def text(commands, end="\n", **fields):
    return ("\n".join([header(**fields)] + list(commands)) + end).encode()


def puts(count, first=0, step=64):
    return ["put %d %d" % (first + step * n, 1000 + n) for n in range(count)]


def looks(count, step=64):
    return ["look %d" % (step * n) for n in range(count)]


def far_cases():
    """NAME: input, of cases in which objects are far. A frame has four objects."""
    made = {}
    # Two frames of four objects each leave as one set, which fills the nodes. Then the first one comes back beside the ninth
    # object: the bucket 0 has its first object here and its second one far, and no further span can leave.
    first = puts(64) + ["put 1 1", "put 2 2", "put 3 3"]
    made["no_room_for_what_is_far"] = text(
        first + puts(64, first=4096) + ["push %d" % n for n in range(128)] + ["put 4 4", "push 128", "put 5 5"]
        + ["look 0", "look 4032", "look 4096", "look 999936", "put 0 9", "put 4096 1", "put 64000 1", "drop 8128", "drop 0", "look 0",
           "get 0", "get 128", "get 129", "set 5 1", "set 128 1", "set 129 1", "push 7", "pop", "look 4", "put 4 1", "put 68 1",
           "drop 4", "drop 68", "put 1 7", "look 1", "put 6 1", "look 6", "drop 6", "drop 1", "look 1", "put 65 8", "look 65", "drop 5",
           "put 69 9", "look 69", "get 0", "look 0"], frames=2, room=1, nodes=4, handles=9)
    made["an_empty_object_that_is_far"] = text(
        first + ["put 4096 1", "push 1", "put 7 1", "put 8 1", "drop 4096", "drop 7", "pop", "put 9 1", "look 0", "put 4096 5", "look 4096",
                 "put 7 1", "look 7", "drop 7", "push 3", "pop", "get 0", "put 64 2", "look 64", "drop 0", "put 4096 6", "look 4096"],
        frames=2, room=1, nodes=4)
    # 16 objects in two or three frames, so that what a command needs has left since another one.
    filled = ["push %d" % n for n in range(300)] + puts(130) + ["put %d %d" % (n, n) for n in range(1, 11)]
    turned = [line for n in range(12) for line in (
        "get %d" % (n * 25), "look %d" % (n % 10 + 1), "set %d %d" % (290 - n * 25, n), "put %d %d" % (n % 10 + 1, n), "pop",
        "look %d" % (64 * (n * 11 % 130)), "push %d" % n, "drop %d" % (64 * n), "get 0", "put %d %d" % (64 * (n + 200), n), "look 7")]
    for name, fields in (("two", {}), ("three", {"frames": 3, "k": 1, "r": 1, "nodes": 2}), ("five", {"frames": 5, "k": 4, "r": 3,
                                                                                                     "nodes": 7})):
        made["each_verb_in_%s_frames" % name] = text(filled + turned, **{"frames": 2, "handles": 64, **fields})
    # The same with few commands: a test has each allocation of it refused.
    made["each_verb_on_few_objects"] = text(
        ["put %d %d" % (n, n) for n in range(7)] + ["push 7", "put 7 7", "look 0", "put 64 1", "get 0", "look 7", "set 0 8", "drop 0",
                                                    "look 9", "put 9 1", "pop", "push 9", "look 7", "drop 64", "get 0"],
        frames=2, handles=12)
    return made


def cases():
    """NAME: input."""
    made = {"worked": text(WORKED[0]), "worked_full": text(WORKED_FULL[0], handles=1)}
    made["header_alone"] = text([])
    made["header_without_feed"] = text([], end="")
    made["last_line_without_feed"] = text(["push 3", "pop"], end="")
    for verb in ("push 7", "set 0 7", "get 0", "pop", "put 5 6", "look 5", "drop 5"):
        made["first_" + verb.split()[0]] = text([verb, "look 5", "get 0", "pop"])
    for handles in (1, 2):
        behind = ["get 127", "get 128", "pop", "push 5", "get 128", "set 0 1", "get 0", "put 1 1", "look 1"]
        for count in (128, 129):
            made["pushes_%d_handles_%d" % (count, handles)] = text(
                ["push %d" % n for n in range(count)] + behind, handles=handles)
        behind = looks(65) + ["drop 0", "put 4096 1", "look 4096", "put 8192 2", "put 64 9", "look 64", "push 1"]
        for count in (64, 65):
            made["pairs_%d_handles_%d" % (count, handles)] = text(puts(count) + behind, handles=handles)
    for name, order in (("front", range(70)), ("end", range(69, -1, -1)), ("middle", [n * 37 % 70 for n in range(70)])):
        emptied = [line for n in order for line in ("drop %d" % (64 * n), "look %d" % (64 * 69), "look 0")]
        made["bucket_emptied_from_the_" + name] = text(
            puts(70) + emptied + ["drop 0"] + puts(70, first=64 * 70) + ["look %d" % (64 * n) for n in range(60, 141)], handles=2)
    made["array_emptied_and_filled"] = text(
        ["push %d" % n for n in range(300)] + ["pop"] * 302 + ["push %d" % (n + 7) for n in range(300)]
        + ["get %d" % n for n in (0, 127, 128, 255, 256, 299, 300)], handles=3)
    made["keys_apart"] = text(
        ["put 0 1", "put 63 2", "put 64 3", "put 999999999 4", "look 0", "look 63", "look 64", "look 999999999", "drop 0",
         "look 64", "look 0", "put 64 5", "drop 63", "look 999999999", "drop 999999999", "drop 999999999", "look 64"])
    made["greatest_numbers"] = text(
        ["push 999999999", "get 0", "set 0 999999999", "pop", "put 999999999 999999999", "look 999999999", "get 999999999"])
    made["below_at_and_past_the_length"] = text(
        ["push 1", "push 2", "push 3"] + ["%s %d%s" % (verb, i, tail) for i in (0, 2, 3, 4) for verb, tail in
                                          (("set", " 9"), ("get", ""))] + ["pop", "get 2", "set 2 1", "push 4", "get 2"])
    made["behind_full"] = text(
        ["push 7", "put 5 6", "put 6 1", "look 6", "put 5 8", "look 5", "drop 5", "put 69 4", "look 69", "push 8", "get 1",
         "set 0 3", "get 0", "pop", "pop", "pop", "push 9", "drop 6", "look 7"], handles=2)
    made["one_frame_and_no_room"] = text(
        ["push 1", "put 0 1", "put 1 1", "put 2 1", "put 3 1", "look 3", "look 0", "push 2", "get 1", "drop 0", "put 0 5"],
        frames=1)
    forty = ["put %d %d" % (n, n) for n in range(40)]
    made["forty_objects_in_two_frames"] = text(
        forty + ["look %d" % (n * 7 % 40) for n in range(80)] + ["put %d 1" % (n * 11 % 40) for n in range(40)]
        + ["drop %d" % n for n in range(40)] + ["look %d" % n for n in range(40)], frames=2, handles=64)
    made["forty_objects_in_three_frames"] = text(
        forty + [line for n in range(60) for line in ("look %d" % (n * 7 % 40), "push %d" % n, "get 0")], frames=3, handles=64)
    made["nodes_run_full"] = text(
        forty + ["look %d" % (n * 7 % 40) for n in range(60)] + ["push %d" % n for n in range(300)]
        + ["get %d" % (n * 131 % 300) for n in range(60)], frames=3, room=1, nodes=4, handles=64)
    made["a_bucket_of_objects_that_are_far"] = text(
        puts(400) + forty[1:] + ["look %d" % (64 * n) for n in range(0, 400, 39)] + ["drop %d" % (64 * n) for n in
                                                                                   range(0, 400, 7)]
        + looks(120), frames=2, handles=64)
    made["a_refused_read_leaves_all"] = text(
        puts(200) + ["put %d 1" % n for n in range(1, 30)] + [line for n in range(0, 200, 9) for line in
                                                             ("drop %d" % (64 * n), "put %d 3" % (64 * n + 64 * 1000))],
        frames=1, room=64, handles=64)
    made.update(far_cases())
    made["pairs_129_handles_2"] = text(puts(129) + looks(129) + ["put 64 1", "drop 0", "put 8256 5", "put 8320 6"], handles=2)
    made["keys_20000_of_all_buckets"] = text(["put %d %d" % (n, n) for n in range(20000)], handles=400, frames=100,
                                             room=64)
    made["commands_20000"] = text(["push 1", "set 0 2", "get 0", "pop", "put 5 6", "look 5", "drop 5", "look 6"] * 2500)
    made["commands_20001"] = text(["pop"] * 20001)
    made["commands_20002_and_a_bad_one_before"] = text(["pop"] * 20000 + ["pops", "pop"])
    for verb in ("push 1", "set 0 7", "get 0", "pop", "put 5 6", "look 5", "drop 5"):
        made["commands_20000_of_" + verb.split()[0]] = text([verb] * 20000, handles=200)

    # Each fault of form: the line that breaks it stands third.
    bad = {
        "no_verb": "pushes 1", "empty_line": "", "two_spaces": "push  1", "space_before": " push 1",
        "space_behind": "push 1 ", "carriage_return": "push 1\r", "tab": "push\t1", "capital_verb": "Push 1",
        "lane_in_front": "1 push 1", "header_again": header(), "push_alone": "push", "push_of_two": "push 1 2",
        "set_of_one": "set 1", "set_of_three": "set 1 2 3", "get_alone": "get", "get_of_two": "get 0 0", "pop_of_one": "pop 1",
        "put_of_one": "put 1", "put_of_three": "put 1 2 3", "look_alone": "look", "look_of_two": "look 1 2", "drop_alone":
        "drop", "drop_of_two": "drop 1 2", "leading_zero": "push 01", "ten_digits": "push 1000000000", "sign": "push +1",
        "negative": "push -1", "no_number": "push x", "index_ten_digits": "get 1000000000", "index_leading_zero": "set 00 1",
        "set_ten_digits": "set 0 1000000000", "key_ten_digits": "put 1000000000 1", "key_leading_zero": "look 05",
        "put_no_number": "put 1 y", "drop_no_number": "drop 1x", "verb_cut_short": "pus 1", "verb_alone_of_space": " ", "minus_zero":
        "look -0", "hexadecimal": "push 0x1", "key_without_end": "put 5 ",
    }
    for name, line in bad.items():
        made["bad_" + name] = text(["push 1", line, "pop", "pop x"])
    made["bad_zero_byte"] = text(["push 1\0"])
    made["bad_digits_of_another_script"] = text(["push 1"]) + "push \u0661\n".encode()
    made["bad_command_20000"] = text(["pop"] * 19999 + ["pop 1"])
    made["commands_20000_and_an_empty_line"] = text(["pop"] * 20000 + [""])
    made["bad_last_without_feed"] = text(["push 1", "push"], end="")
    made["bad_feed_twice_at_end"] = text(["push 1", "", ""])
    good = header()
    headers = {
        "two_spaces": good.replace(" k", "  k"), "space_at_end": good + " ", "version_2": good.replace(" 1 ", " 2 "),
        "capital": good.replace("carbink", "Carbink"), "fields_turned": good.replace("k=2 r=2", "r=2 k=2"),
        "one_field_less": good.replace(" turns=0", ""), "one_field_more": good + " lanes=1", "empty": "", "other_mode":
        "rma 1 window=2", "leading_zero": good.replace("k=2", "k=02"), "ten_digits": good.replace("frames=8",
                                                                                                  "frames=1000000000"),
        "k_0": header(k=0), "k_17": header(k=17, nodes=19), "r_0": header(r=0), "r_5": header(r=5, nodes=7), "nodes_3":
        header(nodes=3), "nodes_65": header(nodes=65), "frames_0": header(frames=0), "frames_4097": header(frames=4097),
        "room_0": header(room=0), "room_4097": header(room=4097), "handles_0": header(handles=0), "handles_65537":
        header(handles=65537), "turns_2501": header(turns=2501),
    }
    for name, line in headers.items():
        made["header_" + name] = (line + "\npush 1\n").encode()
    made["header_carriage_return"] = (good + "\r\npush 1\n").encode()
    some = ["push 1", "put 5 6", "look 5", "pop", "put 6 7", "look 6"]
    made["header_least"] = text(some, k=1, r=1, nodes=2, frames=1, room=1, handles=1)
    made["header_greatest"] = text(some, k=16, r=4, nodes=64, frames=4096, room=4096, handles=65536, turns=2500)
    made["no_bytes"] = b""
    made["feed_alone"] = b"\n"
    made["not_text"] = text([]) + b"\xff\xfe\n"
    return made


def long_cases():
    """NAME: input, of a megabyte, kept packed. No text of 20,000 commands has so many bytes, since the longest line has
    24: so each has a line that is none."""
    body = text(["put 999999999 999999999"] * 20000)
    whole = body + b"#" * (1048576 - len(body))
    return {"bytes_1048576": whole, "bytes_1048577": whole + b"#", "bytes_1048577_and_bad_before": b"x" + whole,
            "bytes_past_all_limits": b"\n" * 1500000}


def check_worked():
    """The rows that are known from outside come out of this model too."""
    for (commands, said), fields in ((WORKED, {}), (WORKED_FULL, {"handles": 1})):
        assert answer(text(commands, **fields)) == (0, "".join(line + "\n" for line in said))


def every_case():
    check_worked()
    return {**cases(), **long_cases()}.items()


if __name__ == "__main__":
    run_model(__doc__, "map", answer, every_case)
