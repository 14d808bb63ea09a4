"""The same as the page in plain text, for a terminal. No update is left out here, however long the day is."""

import words
from formulas import equations
from words import plural, set_text


def plain(day, names, title):
    lines = [title, words.verdict(day)]
    if day.stopped:
        lines += [f"{words.stop(day)} {words.left_out(day)}".strip()]
    if day.one:
        lines += sheet("Sheet one: grown through the day", words.counts(day), day.one, names)
    if day.two:
        cold = f"1 cold load of {plural(len(day.two.tree.nodes), 'node')}"
        lines += sheet("Sheet two: the same tree, worked out cold", cold, day.two, names)
    if day.one:
        lines += verdict(day, names)
    if day.session.table:
        lines += headed("The day, command by command")
        lines += [line for event in day.events for line in told(event, names)] or ["The day has no command."]
    if day.two:
        lines += headed("The cold load") + told(day.two.events[0], names)
    if day.session.table:
        lines += rules(day.session.table, names)
    return "\n".join(lines) + "\n"


def headed(title):
    return ["", title, "=" * len(title)]


def sheet(title, counts, shown, names):
    """The tree, a line a node, and behind each node its own set and its other sets."""
    total, tree = shown.total(), shown.tree
    lines = headed(title)
    lines.append(f"{counts}; {plural(total.circles, 'circle')} worked on, {plural(total.evaluations, 'evaluation')}")
    for node, (production, own) in enumerate(tree.nodes):
        symbol = tree.symbol(node)
        sets = "  ".join(f"{names.set(symbol, index)} {set_text(shown.sets[8 * node + index], names)}"
                         for index in tree.table.declared(symbol))
        indent = "  " * min(tree.depth[node], 20)
        lines.append(f"{node:4} {indent}{names.production(production)} ({names.symbol(symbol)})  "
                     f"own {set_text(own, names)}  {sets}".rstrip())
    return lines


def verdict(day, names):
    lines = headed("The verdict, set by set") + [words.verdict(day)]
    for instance, one, two in day.compared():
        symbol = day.one.tree.symbol(instance // 8)
        told_two = "nothing" if two is None else set_text(two, names)
        agree = "agrees" if one == two else f"DIFFERS: sheet one {set_text(one, names)}, sheet two {told_two}"
        lines.append(f"{label(instance, symbol, names)} {agree}")
    return lines


def label(instance, symbol, names):
    return f"{instance // 8}.{names.set(symbol, instance % 8)}"


def told(event, names):
    """What became of a command, and the climb of each circle that it worked on."""
    what = f"{words.command(event.command)}, line {event.command.line}"
    if event.refused is not None:
        return [f"{what}: refused, {words.refusal(event.refused)} (refusal {event.refused})"]
    if event.done is None:
        return [f"{what}: {plural(event.dumped[0], 'set')}"]
    circles, evaluations, changed = event.done
    lines = [f"{what}: {plural(circles, 'circle')}, {plural(evaluations, 'evaluation')}, {changed} changed; "
             f"the tree has {plural(event.nodes, 'node')}"]
    for number, worked in enumerate(event.worked, 1):
        lines += climb(number, worked, names)
    return lines


def climb(number, worked, names):
    labels = [label(member, symbol, names) for member, symbol in zip(worked.members, worked.symbols)]
    before = ", ".join(f"{name} {'new' if value is None else set_text(value, names)}"
                       for name, value in zip(labels, worked.before))
    gone = ", ".join(f"{name} {set_text(value & ~after, names)}"
                     for name, value, after in zip(labels, worked.before, worked.after) if value and value & ~after)
    lines = [f"  circle {number}, before: {before}" + (f"; gone: {gone}" if gone else "")]
    if worked.found is None:
        after = ", ".join(f"{name} {set_text(value, names)}" for name, value in zip(labels, worked.after))
        return lines + [f"    {worked.climb.rounds} rounds, not asked for one by one; in the end {after}"]
    for round_, changed in enumerate(worked.found, 1):
        row = ", ".join(f"{labels[place]} {set_text(value, names)}" for place, value in changed.items())
        lines.append(f"    round {round_}: {row or 'nothing new'}")
    return lines


def rules(table, names):
    lines = headed("The rule table")
    for number, rule in enumerate(table.productions):
        children = " ".join(names.symbol(child) for child in rule.children) or "no children"
        lines.append(f"{names.production(number)} (production {number}): {names.symbol(rule.left)} -> {children}")
        lines += [f"    {op}  {joined(left, names)} = {joined(right, names)}" for op, left, right in equations(rule, names)]
    return lines


def joined(pieces, names):
    shown = {"place": "[{}]"}
    return "".join(set_text(text, names) if kind == "reasons" else shown.get(kind, "{}").format(text)
                   for kind, text in pieces)
