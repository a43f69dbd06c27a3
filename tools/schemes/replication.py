"""Replication: r + 1 copies of each far span, so that up to r nodes may crash.

    A span that leaves is sent whole to r + 1 nodes. One that comes back is given once, whole, and its copies are dropped,
    so no dead positions are left and nothing is to be compacted. A lost copy is made of one that stands.

Taken over from the run: which spans leave and come back, and when; so local memory does the same as in carbink, though
replication could let spans leave one by one. A node has no end of room.
"""
from schemes.pieces import Pieces


class Scheme(Pieces):
    name = "replication"
    assumes = ("replication: r + 1 copies of a span, each whole on a node of its own; a span that comes back is given once "
               "and its copies are dropped; the same spans leave and come back as in carbink; room without end")

    def __init__(self, config):
        super().__init__(config)
        self.many = config["r"] + 1
