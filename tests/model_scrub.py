#!/usr/bin/env python3
"""What `carbink scrub` prints, by the definitions and by trial: a model that shares no code with the product.

    model_scrub.py < NAME.in > NAME.out     exits with the status that the program owes (0 or 2)
    model_scrub.py make DIR                 writes the cases of tests/rows/scrub

A code word has k + r rows whose sums over i of 2^(i*j) times row i are 0 for each j below r, over the bytes with the
polynomial x^8+x^4+x^3+x^2+1.
"""
import random
import re

from case_files import run_model

POLYNOMIAL = 0x11D
LIMIT = 1048576


def times(a, b):
    """The plain product, then reduced from bit 14 down to bit 8."""
    product = 0
    for bit in range(8):
        if b >> bit & 1:
            product ^= a << bit
    for bit in range(14, 7, -1):
        if product >> bit & 1:
            product ^= POLYNOMIAL << (bit - 8)
    return product


TIMES = [[times(a, b) for b in range(256)] for a in range(256)]
POWER = [1]
for _ in range(254):
    POWER.append(TIMES[POWER[-1]][2])


def inverse(a):
    return next(b for b in range(256) if TIMES[a][b] == 1)


def syndrome(rows, power, column):
    total = 0
    for i, row in enumerate(rows):
        total ^= TIMES[POWER[i * power % 255]][row[column]]
    return total


def is_word(rows, r):
    return all(syndrome(rows, j, c) == 0 for c in range(len(rows[0])) for j in range(r))


def first_sum(rows, r):
    for column in range(len(rows[0])):
        for power in range(r):
            value = syndrome(rows, power, column)
            if value:
                return power, column, value
    return None


def examined(rows, r):
    """The words of the answer, and the rows that are printed."""
    if is_word(rows, r):
        return "clean", []
    if r >= 2:
        for position in range(len(rows)):
            # The first equation fixes the row: it is the sum of all others.
            row = bytearray(len(rows[0]))
            for i, other in enumerate(rows):
                if i != position:
                    row = bytearray(a ^ b for a, b in zip(row, other))
            tried = rows[:position] + [bytes(row)] + rows[position + 1:]
            if is_word(tried, r):
                return f"mended {position}", tried
    power, column, value = first_sum(rows, r)
    return f"many {power} {column} {value:02x}", []


def lines_of(data):
    pieces = data.split(b"\n")
    return pieces[:-1] if pieces[-1] == b"" else pieces


def read(data):
    """The parities and the rows, or the first line that is outside the form."""
    if len(data) > LIMIT:
        return 0
    lines = lines_of(data)
    number = rb"(0|[1-9][0-9]{0,8})"
    header = re.fullmatch(rb"scrub 1 k=" + number + rb" r=" + number, lines[0], re.S) if lines else None
    if not header:
        return 1
    k, r = int(header[1]), int(header[2])
    if not (1 <= k <= 16 and 1 <= r <= 4):
        return 1
    rows = []
    for i, line in enumerate(lines[1:k + r + 1]):
        good = re.fullmatch(rb"([0-9a-f]{2})+", line, re.S) and len(line) <= 2 * 4096
        if not good or (rows and len(line) != 2 * len(rows[0])):
            return i + 2
        rows.append(bytes.fromhex(line.decode()))
    if len(lines) != k + r + 1:
        return min(len(lines), k + r + 1) + 1
    return r, rows


def answer(data):
    """(status, text)"""
    got = read(data)
    if isinstance(got, int):
        return 2, f"scrub line {got} refused\n"
    r, rows = got
    words, printed = examined(rows, r)
    return 0, "".join(line + "\n" for line in [words] + [row.hex() for row in printed])


def parities(data, k, r):
    """The r rows that make the data a word: each column's equations solved by elimination."""
    out = [bytearray(len(data[0])) for _ in range(r)]
    for column in range(len(data[0])):
        table = []
        for j in range(r):
            known = 0
            for i in range(k):
                known ^= TIMES[POWER[i * j % 255]][data[i][column]]
            table.append([POWER[(k + p) * j % 255] for p in range(r)] + [known])
        for p in range(r):
            pivot = next(q for q in range(p, r) if table[q][p])
            table[p], table[pivot] = table[pivot], table[p]
            scale = inverse(table[p][p])
            table[p] = [TIMES[scale][x] for x in table[p]]
            for q in range(r):
                if q != p and table[q][p]:
                    factor = table[q][p]
                    table[q] = [a ^ TIMES[factor][b] for a, b in zip(table[q], table[p])]
        for p in range(r):
            out[p][column] = table[p][r]
    return [bytes(row) for row in out]


def word(random_, k, r, length):
    # Long rows repeat a short piece, so that the cases stay small.
    piece = min(length, 33)
    data = [bytes(random_.randrange(256) for _ in range(piece)) for _ in range(k)]
    rows = data + parities(data, k, r)
    return [(row * (length // piece + 1))[:length] for row in rows]


def with_byte(rows, position, column, change):
    row = bytearray(rows[position])
    row[column] ^= change
    return rows[:position] + [bytes(row)] + rows[position + 1:]


def with_row(random_, rows, position):
    row = bytes(b ^ random_.randrange(1, 256) for b in rows[position][:33])
    row = (row * (len(rows[0]) // len(row) + 1))[:len(rows[0])]
    return rows[:position] + [row] + rows[position + 1:]


def spelled(k, r, rows):
    return f"scrub 1 k={k} r={r}\n".encode() + b"".join(row.hex().encode() + b"\n" for row in rows)


def cases():
    random_ = random.Random(17)
    for k, r in [(1, 1), (2, 2), (4, 3), (16, 4)]:
        n = k + r
        for length in [1, 2, 31, 32, 33, 4096]:
            name = f"k{k}_r{r}_of_{length}"
            rows = word(random_, k, r, length)
            yield f"{name}_clean", spelled(k, r, rows)
            a, b = random_.sample(range(n), 2)
            column = random_.randrange(length)
            if length != 4096 or n <= 7:
                yield f"{name}_a_byte", spelled(k, r, with_byte(rows, a, column, random_.randrange(1, 256)))
                yield f"{name}_a_row", spelled(k, r, with_row(random_, rows, b))
            yield f"{name}_two_rows", spelled(k, r, with_row(random_, with_row(random_, rows, a), b))
            far = with_byte(with_byte(rows, a, 0, 1), b, length - 1, 2)
            yield f"{name}_two_bytes", spelled(k, r, far)
        for position in range(n):
            rows = word(random_, k, r, 33)
            changed = with_byte(rows, position, position % 33, random_.randrange(1, 256))
            yield f"k{k}_r{r}_a_byte_at_{position}", spelled(k, r, changed)
    # Two wrong rows that look like one: the nearest word is another than the one that was put.
    rows = word(random_, 2, 2, 1)
    near = next(with_byte(with_byte(rows, 0, 0, x), 1, 0, y) for x in range(1, 256) for y in range(1, 256)
                if examined(with_byte(with_byte(rows, 0, 0, x), 1, 0, y), 2)[0].startswith("mended"))
    yield "two_rows_as_one", spelled(2, 2, near)
    good = b"scrub 1 k=2 r=2\n01\n05\nc8\nc9\n"
    yield "first", good
    yield "many", good.replace(b"c9", b"c8")
    yield "clean", good.replace(b"05", b"00")
    yield "no_last_line_feed", good[:-1]
    for name, data in [
        ("empty", b""),
        ("a_line_feed_alone", b"\n"),
        ("another_word", good.replace(b"scrub", b"Scrub")),
        ("another_version", good.replace(b"scrub 1", b"scrub 2")),
        ("two_spaces", good.replace(b" r=", b"  r=")),
        ("a_space_behind_the_header", good.replace(b"r=2", b"r=2 ")),
        ("a_carriage_return", good.replace(b"r=2\n", b"r=2\r\n")),
        ("no_parities_named", good.replace(b" r=2", b"")),
        ("parities_first", good.replace(b"k=2 r=2", b"r=2 k=2")),
        ("k_of_0", good.replace(b"k=2", b"k=0")),
        ("k_of_17", good.replace(b"k=2", b"k=17")),
        ("r_of_0", good.replace(b"r=2", b"r=0")),
        ("r_of_5", good.replace(b"r=2", b"r=5")),
        ("a_zero_in_front", good.replace(b"k=2", b"k=02")),
        ("ten_digits", good.replace(b"k=2", b"k=1000000000")),
        ("a_sign", good.replace(b"k=2", b"k=+2")),
        ("no_rows", good[:16]),
        ("a_row_missing", good[:-3]),
        ("a_row_more", good + b"00\n"),
        ("an_empty_line_more", good + b"\n"),
        ("an_empty_row", good.replace(b"05", b"")),
        ("an_empty_first_row", good.replace(b"01\n", b"\n")),
        ("half_a_byte", good.replace(b"c8", b"c")),
        ("three_digits", good.replace(b"c8", b"c80")),
        ("a_capital", good.replace(b"c8", b"C8")),
        ("no_digit", good.replace(b"c8", b"cg")),
        ("a_dash", good.replace(b"c8", b"-")),
        ("a_space_in_a_row", good.replace(b"c8", b"c 8")),
        ("a_longer_row", good.replace(b"c8", b"c800")),
        ("a_longer_last_row", good.replace(b"c9", b"c900")),
        ("a_byte_above_127", good.replace(b"c8", b"\xc8\xc8")),
        ("a_row_of_4097_bytes", good.replace(b"01\n", b"00" * 4097 + b"\n")),
        ("a_fault_before_a_fault", good.replace(b"05", b"0").replace(b"c9", b"")),
        ("too_long", b"scrub 1 k=0 r=0\n" + b"0" * (LIMIT - 15)),
        ("as_long_as_may_be", b"scrub 1 k=0 r=0\n" + b"0" * (LIMIT - 16)),
    ]:
        yield f"form_{name}", data


if __name__ == "__main__":
    run_model(__doc__, "scrub", answer, cases, packed_from=4096)
