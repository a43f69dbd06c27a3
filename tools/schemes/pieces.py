"""What schemes that keep each far span for itself have in common: a span is made into pieces, each on a node of its
own, of which any `need` give it back. Sizes are in frames' worth (4,096 bytes).

    leave    the pieces of each span go to the nodes that are up and hold the least, of several to the least number
    back     `need` pieces are given, and all pieces are dropped; gone (its last object was freed) gives none
    crash    a node's pieces are lost; a span with fewer than `need` left is lost with its objects, and told once
    rebuild  a `rebuild` line makes all that is lost of as many spans as a set has (k), the oldest first; one that had
             nothing more to do in carbink (`whole`) makes all that is lost: for each piece `need` are given
"""
import collections


class Pieces:
    name, need, many, size = "", 1, 1, 1.0  # pieces that give a span back, pieces of a span, spans' worth of a piece

    def __init__(self, config):
        self.k, self.nodes = config["k"], [True] * config["nodes"]
        self.on, self.load = {}, [0.0] * config["nodes"]  # of each span: its pages, its nodes (None: lost), its objects
        self.moved, self.messages = collections.Counter(), collections.Counter()
        self.held = self.most_held = 0.0
        self.lost_objects = 0

    def move(self, cause, pieces, pages):
        self.messages[cause] += pieces
        self.moved[cause] += pieces * pages * self.size

    def put(self, others, pages, cause):
        """A piece on a node that has none of the span's others; None where there is no such node."""
        spare = [node for node, is_up in enumerate(self.nodes) if is_up and node not in others]
        if not spare:
            return None
        node = min(spare, key=lambda it: (round(self.load[it], 6), it))
        self.load[node] += pages * self.size
        self.held += pages * self.size
        self.most_held = max(self.most_held, self.held)
        self.move(cause, 1, pages)
        return node

    def leave(self, ids, pages, objects):
        for it, inside in zip(ids, objects):
            nodes = []
            for _ in range(self.many):
                nodes.append(self.put(nodes, pages, "sent"))
            self.on[it] = [pages, nodes, inside]

    def gone(self, it):
        pages, nodes, _ = self.on.pop(it)
        for node in nodes:
            if node is not None:
                self.load[node] -= pages * self.size
                self.held -= pages * self.size

    def back(self, it):
        self.move("given", self.need, self.on[it][0])
        self.gone(it)

    def free(self, it):
        self.on[it][2] -= 1

    def crash(self, node):
        self.nodes[node] = False
        for span in self.on.values():
            if node in span[1]:
                span[1][span[1].index(node)] = None
                self.load[node] -= span[0] * self.size
                self.held -= span[0] * self.size
                self.lost_objects += span[2] * (len(span[1]) - span[1].count(None) == self.need - 1)

    def join(self, node):
        self.nodes[node] = True

    def rebuild(self, whole):
        damaged = [it for it in self.on.values() if None in it[1] and len(it[1]) - it[1].count(None) >= self.need]
        for pages, nodes, _ in damaged if whole else damaged[:self.k]:
            for at, node in enumerate(nodes):
                if node is None:
                    nodes[at] = self.put(nodes, pages, "rebuilt")
                    self.move("read", self.need if nodes[at] is not None else 0, pages)
