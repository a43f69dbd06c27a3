#!/usr/bin/env python3
"""An independent model of `carbink rma`, for the expected outputs of tests/rows/rma.

    model_rma.py < NAME.in > NAME.out       exits with the status that the program owes (0 or 2)
    model_rma.py make DIR                   writes the cases of tests/rows/rma with their expected outputs

It is written from the rules of the mode alone, and shares nothing with the product."""

import re

from case_files import run_model

NUMBER = re.compile(rb"(0|[1-9][0-9]{0,8})\Z")
HEADER = re.compile(rb"rma 1 window=(0|[1-9][0-9]{0,8})\Z")


def times(a, b):
    """The product in the field of 256 elements, over x^8 + x^4 + x^3 + x^2 + 1."""
    product = 0
    while b:
        if b & 1:
            product ^= a
        a <<= 1
        if a & 0x100:
            a ^= 0x11D
        b >>= 1
    return product


def number(word):
    return int(word) if NUMBER.match(word) else None


def spelled(word, least, most):
    """The bytes that lower-case hexadecimal digits spell, at least and at the most so many."""
    if not re.match(rb"([0-9a-f]{2})+\Z", word):
        return None
    row = bytes.fromhex(word.decode())
    return row if least <= len(row) <= most else None


def event_of(line):
    """The event that a line spells, or None where it is outside the form."""
    words = line.split(b" ")
    verb, operands = words[0], words[1:]
    if verb == b"put" and len(operands) == 2:
        key, row = number(operands[0]), spelled(operands[1], 1, 4096)
        return None if key is None or row is None else ("put", key, row)
    if verb == b"add" and len(operands) == 3:
        key, c, row = number(operands[0]), spelled(operands[1], 1, 1), spelled(operands[2], 1, 4096)
        return None if key is None or c is None or row is None else ("add", key, c[0], row)
    if verb in (b"drop", b"send", b"ask", b"ack", b"show") and len(operands) == 1:
        n = number(operands[0])
        return None if n is None else (verb.decode(), n)
    if verb == b"restart" and not operands:
        return ("restart",)
    return None


def read(data):
    """(window, events), or the first line outside the form."""
    if len(data) > 1048576:
        return 0
    lines = data.split(b"\n")
    if lines[-1] == b"":
        lines.pop()
    if not lines:
        return 1
    header = HEADER.match(lines[0])
    if not header or not 1 <= int(header.group(1)) <= 64:
        return 1
    events = []
    for at, line in enumerate(lines[1:]):
        event = event_of(line) if at < 20000 else None
        if event is None:
            return at + 2
        events.append(event)
    return int(header.group(1)), events


def run(window, events):
    incarnation, orders, acknowledged, count, rows = 0, [], 0, 0, {}
    asks, acks, said = [], [], []
    for event in events:
        verb = event[0]
        if verb in ("put", "add", "drop"):
            if len(orders) - acknowledged == window:
                said.append("window %d" % window)
            else:
                said.append("taken %d" % len(orders))
                orders.append(event)
        elif verb == "send":
            if acknowledged <= event[1] < len(orders):
                said.append("sent %d" % len(asks))
                asks.append((incarnation, event[1], orders[event[1]]))
            else:
                said.append("nothing")
        elif verb == "ask":
            if event[1] >= len(asks):
                said.append("nopacket")
                continue
            born, n, order = asks[event[1]]
            if born != incarnation:
                said.append("other %d" % born)
                continue
            if n < count:
                word = "repeated"
            elif n > count:
                word = "ahead"
            else:
                word = "applied"
                count += 1
                key = order[1]
                if order[0] == "put":
                    rows[key] = order[2]
                elif order[0] == "drop":
                    rows.pop(key, None)
                elif key in rows and len(rows[key]) == len(order[3]):
                    rows[key] = bytes(x ^ times(order[2], y) for x, y in zip(rows[key], order[3]))
            said.append("%s %d" % (word, count))
            acks.append((incarnation, count))
        elif verb == "ack":
            if event[1] >= len(acks):
                said.append("nopacket")
                continue
            born, told = acks[event[1]]
            if born != incarnation:
                said.append("other %d" % born)
            elif told > len(orders):
                said.append("beyond %d" % told)
            elif told <= acknowledged:
                said.append("old %d" % told)
            else:
                said.append("fresh %d" % told)
                acknowledged = told
        elif verb == "restart":
            incarnation, orders, acknowledged, count, rows = incarnation + 1, [], 0, 0, {}
            said.append("incarnation %d" % incarnation)
        else:
            row = rows.get(event[1])
            said.append("none" if row is None else "row " + row.hex())
    return said


def answer(data):
    """(status, text)"""
    found = read(data)
    if isinstance(found, int):
        return 2, "rma line %d refused\n" % found
    return 0, "".join(line + "\n" for line in run(*found))


# The first worked row, and what follows it, with what they print as it is known from outside.
FIRST = """put 1 0a
add 1 02 01
put 2 00
send 1
send 0
ask 0
ask 1
ask 1
ask 0
ack 0
ack 3
show 1
""", """taken 0
taken 1
window 2
sent 0
sent 1
ahead 0
applied 1
repeated 1
applied 2
old 0
fresh 2
row 08
"""
SECOND = """restart
ask 1
show 1
ack 3
ask 9
""", """incarnation 1
other 0
none
other 0
nopacket
"""


def lines(*events, window=2, end="\n"):
    return ("rma 1 window=%d\n" % window + "\n".join(events) + end).encode()


def cases():
    """NAME: input."""
    made = {}
    header = "rma 1 window=2\n"
    made["worked"] = (header + FIRST[0]).encode()
    made["worked_and_restart"] = (header + FIRST[0] + SECOND[0]).encode()
    made["header_alone"] = b"rma 1 window=7\n"
    made["header_without_feed"] = b"rma 1 window=7"
    made["last_line_without_feed"] = lines("put 3 ff", "show 3", end="")

    full = ["put %d %02x" % (n, n) for n in range(5)]
    full += ["send %d" % n for n in range(4)] + ["ask 0", "ask 1", "ack 1", "put 9 09", "put 8 08", "put 7 07"]
    full += ["send 2", "send 3", "send 4", "send 5", "send 6", "ask 2", "ask 3", "ask 6", "ask 7", "ack 5"]
    full += ["show %d" % n for n in range(10)] + ["send 5", "put 6 06", "send 6"]
    made["window_full_and_drained"] = lines(*full, window=4)
    made["asks_twice_late_and_out_of_order"] = lines(
        "put 1 01", "add 1 03 05", "add 1 02 07", "send 2", "send 1", "send 0", "send 0", "ask 0", "ask 1", "ask 2",
        "ask 2", "ask 3", "ask 0", "ask 1", "ask 1", "ask 0", "show 1", "ask 0", "ask 2", "show 1", "send 1", "ask 4",
        "show 1", window=3)
    made["acks_twice_late_and_out_of_order"] = lines(
        "put 1 01", "put 2 02", "put 3 03", "send 0", "send 1", "send 2", "ask 0", "ask 1", "ask 2", "ack 1", "ack 0",
        "ack 1", "ack 2", "ack 0", "ack 2", "ack 3", "ack 1", "send 2", "send 3", "put 4 04", "send 3", "ask 3", "ack 3",
        window=3)
    made["old_packets_after_restarts"] = lines(
        "put 1 aa", "send 0", "send 0", "ask 0", "put 2 bb", "send 1", "restart", "ask 0", "ask 1", "ask 2", "ack 0",
        "show 1", "put 1 cc", "ask 1", "send 0", "ask 3", "ask 0", "show 1", "ack 0", "ack 1", "restart", "restart",
        "ask 3", "ask 1", "ack 1", "ack 0", "put 5 dd", "send 0", "ask 4", "show 5", "show 1", "ack 2", "ask 5", "ack 3")
    made["restart_empties_the_window"] = lines(
        "put 1 01", "put 2 02", "put 3 03", "restart", "send 0", "send 1", "put 3 03", "put 4 04", "put 5 05", "send 0",
        "ask 0", "show 1", "show 3")
    made["add_on_no_row_and_on_another_length"] = lines(
        "add 1 02 0101", "send 0", "ask 0", "show 1", "ack 0", "put 1 0101", "send 1", "ask 1", "ack 1", "add 1 02 01",
        "send 2", "ask 2", "show 1", "ack 2", "add 1 02 010101", "send 3", "ask 3", "show 1", "ack 3", "add 1 02 80ff",
        "send 4", "ask 4", "show 1", "ack 4", "add 2 ff 0101", "send 5", "ask 5", "show 2", "show 1", window=1)
    made["add_by_nothing_and_by_one"] = lines(
        "put 1 a5f0", "add 1 00 ffff", "add 1 01 ffff", "add 1 01 ffff", "send 0", "send 1", "send 2", "send 3", "ask 0",
        "ask 1", "show 1", "ask 2", "show 1", "ask 3", "show 1", window=4)
    made["drop_of_an_absent_key"] = lines(
        "drop 7", "put 7 07", "drop 7", "drop 7", "send 0", "send 1", "send 2", "send 3", "ask 0", "show 7", "ask 1",
        "show 7", "ask 2", "show 7", "ask 3", "show 7", "show 8", window=4)
    made["put_replaces_and_keys_stay_apart"] = lines(
        "put 0 00", "put 999999999 ff", "put 0 0102", "send 0", "send 1", "send 2", "ask 0", "ask 1", "show 0",
        "show 999999999", "ask 2", "show 0", "show 999999999", "show 1", window=3)
    made["window_1"] = lines("put 1 01", "put 2 02", "send 0", "ask 0", "ack 0", "put 2 02", "put 3 03", "send 1", "ask 1",
                             "ack 1", "send 1", "drop 1", "send 2", "ask 2", "show 1", "show 2", window=1)
    wide = ["put %d %02x" % (n, n) for n in range(65)] + ["send %d" % n for n in range(66)]
    wide += ["ask %d" % n for n in range(65)] + ["ack 63", "ack 62", "ack 64"] + ["put 64 40", "send 64", "ask 64"]
    made["window_64"] = lines(*wide, *["show %d" % n for n in range(66)], window=64)
    made["nothing_to_send"] = lines("send 0", "ask 0", "ack 0", "show 0", "put 1 01", "send 1", "send 999999999", "send 0")
    made["long_rows"] = lines("put 1 " + "5a" * 4096, "add 1 8e " + "c3" * 4096, "send 0", "send 1", "ask 0", "ask 1",
                              "show 1")
    many = ["put 1 00"] + [x for n in range(4999) for x in ("send 0", "ask %d" % n, "ask 0", "ack %d" % (2 * n))]
    made["lines_20000"] = lines(*(many + ["show 1"] * (20000 - len(many))), window=1)
    made["lines_20001"] = lines(*(["show 1"] * 20001))
    made["lines_20002_and_a_bad_one_before"] = lines(*(["show 1"] * 20000 + ["show", "show 1"]))

    # Each fault of form: the line that breaks it stands third.
    bad = {
        "no_verb": "shows 1", "empty_line": "", "two_spaces": "show  1", "space_before": " show 1",
        "space_behind": "show 1 ", "carriage_return": "show 1\r", "tab": "show\t1", "capital_verb": "Show 1",
        "no_operand": "show", "one_operand_too_many": "send 1 2", "restart_with_operand": "restart 1",
        "put_without_row": "put 1", "put_with_c": "put 1 02 01", "add_without_c": "add 1 01", "drop_with_row": "drop 1 01",
        "key_with_zero": "show 01", "key_of_ten_digits": "show 1000000000", "key_with_sign": "show +1",
        "key_negative": "show -1", "key_no_number": "put x 01", "number_no_number": "send a", "packet_no_number": "ask 1x",
        "ack_no_number": "ack", "row_capital": "put 1 0A", "row_odd": "put 1 011", "row_empty": "put 1 ", "row_dash":
        "put 1 -", "row_no_hex": "put 1 0g", "row_4097": "put 1 " + "00" * 4097, "add_row_4097": "add 1 02 " + "00" * 4097,
        "add_row_odd": "add 1 02 1", "c_one_digit": "add 1 2 01", "c_four_digits": "add 1 0002 01", "c_capital":
        "add 1 0A 01", "c_no_hex": "add 1 zz 01", "add_key_with_zero": "add 00 02 01", "header_again": "rma 1 window=2",
        "lane_in_front": "0 show 1",
    }
    for name, line in bad.items():
        made["bad_" + name] = lines("put 1 01", line, "show 1", "show x")
    made["bad_last_without_feed"] = lines("put 1 01", "put 1", end="")
    made["bad_feed_twice_at_end"] = lines("put 1 01", "", "")
    headers = {
        "window_0": "rma 1 window=0", "window_65": "rma 1 window=65", "window_zero_in_front": "rma 1 window=02",
        "window_no_number": "rma 1 window=x", "window_none": "rma 1 window=", "window_ten_digits":
        "rma 1 window=1000000000", "window_missing": "rma 1", "version_2": "rma 2 window=2", "other_mode":
        "carbink 1 window=2", "space_at_end": "rma 1 window=2 ", "two_spaces": "rma  1 window=2", "word_more":
        "rma 1 window=2 k=2", "capital": "RMA 1 window=2", "empty": "", "other_name": "rma 1 windows=2",
    }
    for name, line in headers.items():
        made["header_" + name] = (line + "\nput 1 01\n").encode()
    made["no_bytes"] = b""
    made["feed_alone"] = b"\n"
    made["not_text"] = b"rma 1 window=2\n\xff\xfe\n"
    return made


def long_cases():
    """NAME: input, of so many bytes that they are kept packed."""
    made = {}
    line = "put 1 " + "ab" * 4096 + "\n"
    body = "rma 1 window=64\n" + line * 127
    left = 1048576 - len(body)
    # The last line but one fills up to just 1,048,576 bytes.
    fill = left - len("show 1\n")
    rest = ""
    while fill >= 7 + 8:
        rest += "show 1\n"
        fill -= 7
    rest += "show " + "9" * (fill - 6) + "\n"
    whole = body + rest + "show 1\n"
    assert len(whole) == 1048576, len(whole)
    made["bytes_1048576"] = whole.encode()
    made["bytes_1048577"] = (whole + "\n").encode()
    made["bytes_1048577_and_bad_before"] = ("x" + whole).encode()
    made["bytes_past_all_limits"] = b"\n" * 1500000
    return made


def check_worked():
    """The rows that are known from outside come out of this model too."""
    header = "rma 1 window=2\n"
    assert answer((header + FIRST[0]).encode()) == (0, FIRST[1])
    assert answer((header + FIRST[0] + SECOND[0]).encode()) == (0, FIRST[1] + SECOND[1])


def every_case():
    check_worked()
    return {**cases(), **long_cases()}.items()


if __name__ == "__main__":
    run_model(__doc__, "rma", answer, every_case)
