"""Places the nodes of a graph without cycles in columns, so that each arrow leads to the right."""

SWEEPS = 12


def ranks(nodes, children):
    """How far each node is from the end: 0 where it has no children, else one more than the farthest child."""
    found = {}

    def rank(node):
        if node not in found:
            found[node] = 1 + max((rank(child) for child in children(node)), default=-1)
        return found[node]

    for node in nodes:
        rank(node)
    return found


def columns(nodes, children):
    """The nodes by columns, the farthest from the end first, ordered so that few arrows cross."""
    rank = ranks(nodes, children)
    most = max(rank.values(), default=0)
    placed = [[node for node in nodes if rank[node] == most - column] for column in range(most + 1)]
    parents = {node: [other for other in nodes if node in children(other)] for node in nodes}
    for sweep in range(SWEEPS):
        near = parents.get if sweep % 2 == 0 else lambda node: list(children(node))
        order = {node: (place + 0.5) / len(column) for column in placed for place, node in enumerate(column)}
        for column in placed:
            column.sort(key=lambda node: middle([order[other] for other in near(node)], order[node]))
    return placed


def middle(places, otherwise):
    return sum(places) / len(places) if places else otherwise
