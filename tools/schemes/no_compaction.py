"""This scheme without compaction: the same script without the lines by which two sets become one.

    It is no model of its own but the run once more: compact, pair, patch, merge and part lines are left out. A set keeps
    its k + r rows until its last span is back or freed. Where the nodes' room is short more lines may be refused.
"""
LEFT_OUT = frozenset("compact pair patch merge part".split())


class Scheme:
    name = "no compaction"
    assumes = "no compaction: the same script without its compact, pair, patch, merge and part lines, run by itself"

    @staticmethod
    def lines_of(lines):
        return [words for words in lines if words[1] not in LEFT_OUT]
