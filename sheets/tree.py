"""The tree of a day, by the commands that were accepted: preorder lists of nodes, exchanged part by part.

This is all that the page works out of a tree: who stands where. A node is a pair, production number and own set.
"""

from bisect import bisect_right


class Tree:
    """Nodes in preorder, with what is above, below and behind each of them."""

    def __init__(self, table, nodes):
        self.table = table
        self.nodes = nodes
        self.parent = [None] * len(nodes)
        self.place = [0] * len(nodes)
        self.depth = [0] * len(nodes)
        self.children = [[] for _ in nodes]
        self.end = [0] * len(nodes)
        self._walk()

    def _walk(self):
        """Goes through the nodes with a stack of those that still wait for children."""
        waiting = []
        for node, (production, _) in enumerate(self.nodes):
            if waiting:
                above = waiting[-1]
                self.parent[node], self.depth[node] = above, self.depth[above] + 1
                self.children[above].append(node)
                self.place[node] = len(self.children[above])
            waiting.append(node)
            while waiting and len(self.children[waiting[-1]]) == self._wants(waiting[-1]):
                self.end[waiting.pop()] = node + 1

    def _wants(self, node):
        return len(self.production(node).children)

    def production(self, node):
        return self.table.productions[self.nodes[node][0]]

    def symbol(self, node):
        return self.production(node).left

    def instances(self):
        """The numbers of all declared sets, rising."""
        sets = [self.table.declared(production.left) for production in self.table.productions]
        return [8 * node + index for node, (production, _) in enumerate(self.nodes) for index in sets[production]]

    def equation(self, instance):
        """The equation of a set, and the node whose production it belongs to."""
        node, index = divmod(instance, 8)
        if index < 4:
            return self.production(node).equations[0, index], node
        above = self.parent[node]
        return self.production(above).equations[self.place[node], index], above

    def instance(self, node, occurrence):
        """The instance that an occurrence of a node's production is."""
        position, index = occurrence
        return 8 * (self.children[node][position - 1] if position else node) + index

    def reads(self, instance):
        """The instances that a set is worked out from."""
        equation, node = self.equation(instance)
        return [self.instance(node, argument) for argument in equation.arguments()]


def exchanged(tree, parts):
    """The tree with new parts in the places of old ones, and a function from its nodes to those that they were.

    The points are numbers of the tree as it was, and rise. A point survives; what is below it in its new part is new,
    and was no node before.
    """
    nodes, starts, olds = [], [], []
    at = 0
    for point, part in parts:
        starts += [len(nodes), len(nodes) + point - at, len(nodes) + point - at + 1]
        olds += [at, point, None]
        nodes += tree.nodes[at:point] + part
        at = tree.end[point]
    starts.append(len(nodes))
    olds.append(at)
    nodes += tree.nodes[at:]

    def formerly(node):
        span = bisect_right(starts, node) - 1
        return None if olds[span] is None else olds[span] + node - starts[span]

    return Tree(tree.table, nodes), formerly
