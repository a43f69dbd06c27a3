"""The files of the cases of tests/rows, and the words of the models that write them."""
import gzip
import os
import sys

import usage

# An input longer than this is kept packed.
PACKED_FROM = 20000


def write_case(path, data, told, called=(), status=0, packed_from=PACKED_FROM):
    """The case of this path: its input, what is printed, the words but for `seq`, and the status but
    for 0."""
    parts = {".out": told.encode()}
    if len(data) > packed_from:
        parts[".in.gz"] = gzip.compress(data, mtime=0)
    else:
        parts[".in"] = data
    if called:
        parts[".words"] = "".join(word + "\n" for word in called).encode()
    if status:
        parts[".status"] = b"%d\n" % status
    os.makedirs(os.path.dirname(path), exist_ok=True)
    for end, part in parts.items():
        with open(path + end, "wb") as file:
            file.write(part)


def run_model(page, command, answer, cases, packed_from=PACKED_FROM):
    """What a model does by its words: without any it answers standard input and ends as the program
    would, and with `make DIR` it writes its cases, a name and an input each."""
    reader = usage.reader(page)
    reader.add_argument("make", nargs="?", choices=["make"])
    reader.add_argument("folder", metavar="DIR", nargs="?")
    asked = reader.parse_args()
    if asked.make is None:
        status, told = answer(sys.stdin.buffer.read())
        sys.stdout.write(told)
        sys.exit(status)
    if asked.folder is None:
        reader.error("behind make stands a folder")
    for name, data in cases():
        status, told = answer(data)
        write_case(os.path.join(asked.folder, name), data, told, [command], status, packed_from)
