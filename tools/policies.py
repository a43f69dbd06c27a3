"""Policies: which lines of upkeep stand between those of a workload or a trace.

    none                 local memory evicts where a line finds no room, and nothing else is done
    every:N              an evict line behind every N lines
    workers:N            as the four workers of `threads`, each with a turn behind every N lines: a filter line of the
                         next object in turn, an evict, a compact and a rebuild line
    VERB:N,VERB:N..      these alone, each behind every N lines: filter, evict, compact, rebuild

A filter line is of the live objects in turn, as they were made. Behind a crash line `repair:N`, one more word of a list,
puts N rebuild lines at once.
"""
from running import Ending, NUMBER, USAGE, printable

VERBS = ("filter", "evict", "compact", "rebuild", "repair")
WORKERS = ("filter", "evict", "compact", "rebuild")


class Policy:
    """Counts lines, and gives those that stand behind the last one."""

    def __init__(self, word):
        self.every, self.lines, self.turn = {}, 0, 0
        for part in [] if word == "none" else word.split(","):
            verb, _, count = part.partition(":")
            if not NUMBER.fullmatch(count) or int(count) < 1 or verb not in (*VERBS, "every", "workers"):
                raise Ending(f"--policy: '{printable(part)}' is none: none, every:N, workers:N, or a list of "
                             f"{', '.join(VERBS)}, each with :N, as in filter:4,compact:100", USAGE)
            for one in WORKERS if verb == "workers" else ("evict",) if verb == "every" else (verb,):
                self.every[one] = int(count)

    def behind(self, lane, verb, live):
        """The lines behind one with this verb. live has the names of the live objects that the lane knows."""
        if verb == "crash":
            return [[lane, "rebuild"] for _ in range(self.every.get("repair", 0))]
        self.lines += 1
        found = []
        for one in WORKERS:
            if one in self.every and self.lines % self.every[one] == 0:
                if one != "filter":
                    found.append([lane, one])
                elif live:
                    self.turn += 1
                    found.append([lane, one, live[self.turn % len(live)]])
        return found
