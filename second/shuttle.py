"""A fabric of no kind that plan files know, with the longest route that a fabric may have."""


class Shuttle:
    """Three nodes, hop delay 1 and 64 links that go to and fro.

    Even links lead from node 0 to node 1, odd ones below 63 from 1 back to 0, and link 63 leads from 1 to 2. The route from 0 to 2
    takes all links in order, that from 0 to 1 link 0. Other pairs of different nodes have none.
    """

    nodes, links, delay = 3, 64, 1

    def route(self, a, b):
        if a >= self.nodes or b >= self.nodes:
            return None
        if a == b:
            return []
        return {(0, 1): [0], (0, 2): list(range(64))}.get((a, b))
