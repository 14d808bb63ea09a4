"""Which instances a circle has that an update worked on.

A frame 11 names a circle by its least instance and tells its size. The others follow from what reads what in the
tree (RULES 5.1 to 5.3); they are found here, and held to the frame's size.
"""

from dataclasses import dataclass, field

from answers import Climb
from table import USES_B, USES_OWN
from trouble import Misfit


@dataclass
class Worked:
    """A circle with its climb: its instances, their symbols, their sets before and after the update and on the way.

    A set before is None at a new node. found has for each round the members, by their places, whose sets it changed,
    with these sets; it is None where nobody has asked.
    """
    climb: Climb
    members: list
    symbols: list
    before: list
    after: list
    lone: bool
    formulas: list = field(default_factory=list)
    found: list = None

    def changed(self):
        """How many sets are not what they were, those of new nodes left out (RULES 11.4)."""
        return sum(before is not None and before != after for before, after in zip(self.before, self.after))


def circle_numbers(roots, reads):
    """A number for each instance that the roots reach, the same for two exactly when they are in one circle.

    This is Tarjan's walk: an instance whose lowest way back is itself closes a circle, with all that was met since.
    """
    order, low, circle, met = {}, {}, {}, []
    for root in roots:
        if root in order:
            continue
        path = [(root, iter(reads(root)))]
        order[root] = low[root] = len(order)
        met.append(root)
        while path:
            here, rest = path[-1]
            there = next(rest, None)
            if there is None:
                path.pop()
                if path:
                    low[path[-1][0]] = min(low[path[-1][0]], low[here])
                if low[here] == order[here]:
                    close_circle(here, met, circle)
            elif there not in order:
                order[there] = low[there] = len(order)
                met.append(there)
                path.append((there, iter(reads(there))))
            elif there not in circle:
                low[here] = min(low[here], order[there])
    return circle


def close_circle(first, met, circle):
    while True:
        instance = met.pop()
        circle[instance] = first
        if instance == first:
            return


def members_of(climbs, tree):
    """The instances of each circle, by its least one."""
    roots = [climb.least for climb in climbs if climb.size > 1]
    groups = {}
    for instance, circle in circle_numbers(roots, tree.reads).items():
        groups.setdefault(circle, []).append(instance)
    found = {min(group): sorted(group) for group in groups.values()}
    return {climb.least: found.get(climb.least, []) if climb.size > 1 else [climb.least] for climb in climbs}


def worked_on(climbs, tree, sets, sets_before, formerly):
    """The circles of an update, with the sets that the program told before and after it."""
    try:
        members = members_of(climbs, tree)
        return [worked(climb, members[climb.least], tree, sets, sets_before, formerly) for climb in climbs]
    except (KeyError, IndexError, TypeError):
        raise Misfit("the program worked on a set that the tree doesn't have") from None


def worked(climb, members, tree, sets, sets_before, formerly):
    if len(members) != climb.size:
        raise Misfit(f"the program says {climb.size} of the circle of {climb.least}, which has {len(members)} sets")
    before = [held_before(member, sets_before, formerly) for member in members]
    lone = climb.size == 1 and members[0] not in tree.reads(members[0])
    symbols = [tree.symbol(member // 8) for member in members]
    circle = Worked(climb, members, symbols, before, [sets[member] for member in members], lone)
    if not lone and climb.rounds > 2:
        place = {member: number for number, member in enumerate(members)}
        circle.formulas = [formula(member, place, tree, sets) for member in members]
    return circle


def held_before(instance, sets_before, formerly):
    """The set that an instance had in the tree as it was."""
    node, index = divmod(instance, 8)
    old = formerly(node)
    return None if old is None else sets_before[8 * old + index]


def formula(instance, place, tree, sets):
    """A member's equation as a round sees it: operation, constant, own set, and a source for each argument.

    A source is ("in", place) for the member at that place, or ("out", set) for what the circle only reads. That set
    stays as it is while the circle is worked on, so it is the one that the dump behind the update has.
    """
    equation, node = tree.equation(instance)
    sources = []
    for argument in (equation.a, equation.b)[:1 + (equation.op in USES_B)]:
        read = tree.instance(node, argument)
        sources.append(("in", place[read]) if read in place else ("out", sets[read]))
    own = tree.nodes[node][1] if equation.op in USES_OWN else 0
    return equation.op, equation.c, own, sources
