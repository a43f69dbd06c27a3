"""Split coding, as Hydra does it: each far span is cut into k parts, coded with r parities, a part a node.

    A span that leaves is sent as k + r parts, each of 1/k of its bytes. For one that comes back k parts are asked of k
    nodes, and all parts are dropped: no dead positions are left. A lost part is made of k others.

Taken over from the run: which spans leave and come back, and when. A part counts as a message as a row does: so the
bytes of a swap-in are those of carbink, and the messages k times as many. A node has no end of room.
"""
from schemes.pieces import Pieces


class Scheme(Pieces):
    name = "split"
    assumes = ("split: a span is cut into k parts of 1/k of its bytes, with r parities, each on a node of its own; a span "
               "that comes back takes k messages, one of each of k nodes, and its parts are dropped; the same spans leave "
               "and come back as in carbink; room without end")

    def __init__(self, config):
        super().__init__(config)
        self.need, self.many, self.size = config["k"], config["k"] + config["r"], 1 / config["k"]
