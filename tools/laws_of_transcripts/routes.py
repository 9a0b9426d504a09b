"""Links, repeaters and the route that comes before all others (docs/ROUTES.md)."""
MOST_REPEATERS, CONTROLLER = 4, 1


class Network:
    """A set of links with the nodes that repeat."""

    def __init__(self):
        self.links, self.repeaters, self.found = {}, set(), {}

    def set_link(self, first, second, live):
        """Makes a link live or dead."""
        self.found = {}
        if first != second:
            for one, other in ((first, second), (second, first)):
                (self.links.setdefault(one, set()).add if live else self.links.setdefault(one, set()).discard)(other)

    def add_repeater(self, node):
        """From now on the node repeats."""
        self.found = {}
        self.repeaters.add(node)

    def neighbours(self, node):
        """The nodes that have a live link to the node, in order."""
        return sorted(self.links.get(node, ()))

    def has(self, first, second):
        """Whether the link is live."""
        return second in self.links.get(first, ())

    def route(self, node):
        """The repeaters of the least walk with the fewest of them from node 1 to the node, or None."""
        if node == CONTROLLER:
            return None
        if node not in self.found:
            self.found[node] = self.search(node)
        return self.found[node]

    def search(self, node):
        """Walks of equal length, least first: the first that is next to the node is the route."""
        walks, seen = [[]], {CONTROLLER}
        for _ in range(MOST_REPEATERS + 1):
            further = []
            for walk in walks:
                if self.has(walk[-1] if walk else CONTROLLER, node):
                    return walk
                for step in self.neighbours(walk[-1] if walk else CONTROLLER):
                    if step in self.repeaters and step not in seen and step != node:
                        seen.add(step)
                        further.append(walk + [step])
            walks = further
        return None


def hops(frame):
    """The hops of a frame, in the order in which it goes."""
    way = [frame.sender] + list(frame.route) + [frame.receiver]
    return list(zip(way, way[1:]))
