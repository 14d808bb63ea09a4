"""The two sheets, laid out alike, and the verdict on them set by set."""

import words
from html_parts import named_set, reasons, safe
from words import plural

# indentation stops there, and the depth is told by its number
DEEPEST = 10
# a longer verdict is folded
LONG = 120

ONE = ("sheet-one", "Sheet one", "grown through the day")
TWO = ("sheet-two", "Sheet two", "the same tree, worked out cold")


def pair(day, names, title):
    """Both sheets. What stands above their trees has the same lines, so that the trees come to lie on each other."""
    apart = {row[0] for row in day.differing()}
    first = sheet(ONE, title, day, day.one, words.counts(day), apart, names)
    cold = f"1 cold load of {plural(len(day.one.tree.nodes), 'node')}"
    if day.two is None:
        return f'<div class="pair">{first}{missing(day, title)}</div>'
    return f'<div class="pair">{first}{sheet(TWO, title, day, day.two, cold, apart, names)}</div>'


def heading(kind, title):
    name, large, small = kind
    return f'<section class="sheet" id="{name}"><h2>{large} <small>{small} · {safe(title)}</small></h2>'


def sheet(kind, title, day, shown, counts, apart, names):
    total = shown.total()
    numbers = f"{counts} · {plural(total.circles, 'circle')} worked on, {plural(total.evaluations, 'evaluation')}"
    rows = "".join(node_row(node, shown, apart, names) for node in range(len(shown.tree.nodes)))
    return (f'{heading(kind, title)}<p class="numbers">{numbers}</p>{banner(day)}{notice(day)}'
            '<table class="tree"><thead><tr><th class="no">node</th><th class="node">production</th>'
            f'<th class="own">own set</th><th>sets: ↑ handed up, ↓ handed down</th></tr></thead><tbody>{rows}</tbody>'
            "</table></section>\n")


def missing(day, title):
    """Sheet two, where the program refuses the cold load."""
    number = day.refused_cold
    return f'{heading(TWO, title)}{banner(day)}<p>The cold load is refused by {number}: {words.refusal(number)}.</p></section>'


def banner(day):
    return f'<p class="verdict {"agree" if day.agrees() else "apart"}">{safe(words.verdict(day))}</p>'


def notice(day):
    if not day.stopped:
        return ""
    return f'<p class="notice">{safe(words.stop(day))} {safe(words.left_out(day))} Shown is the day up to there.</p>'


def node_row(node, shown, apart, names):
    tree = shown.tree
    production, own = tree.nodes[node]
    symbol, deep = tree.symbol(node), tree.depth[node]
    # a production is mostly named after its symbol, and need not say it twice
    kind = "" if names.symbol(symbol) in names.production(production) else names.symbol(symbol)
    number = f'<span class="depth">{deep} deep </span>' if deep > DEEPEST else ""
    sets = "".join(named_set(symbol, index, shown.sets[8 * node + index], names, 8 * node + index in apart)
                   for index in tree.table.declared(symbol))
    return (f'<tr><td class="no">{node}</td><td class="node s{symbol}" style="--deep:{min(deep, DEEPEST)}">{number}'
            f'<span class="production">{safe(names.production(production))}</span>'
            f'<span class="symbol">{safe(kind)}</span></td>'
            f'<td class="own">{reasons(own, names)}</td><td class="sets">{sets}</td></tr>\n')


def verdict(day, names):
    """Set by set whether the sheets agree; where not, what each has."""
    rows = {}
    for instance, one, two in day.compared():
        rows.setdefault(instance // 8, []).append(mark(instance, one, two, day.one.tree, names))
    apart = "".join(difference(row, day.one.tree, names) for row in day.differing())
    table = ('<table class="marks"><thead><tr><th class="no">node</th><th>its sets</th></tr></thead><tbody>'
             + "".join(f'<tr><td class="no">{node}</td><td>{"".join(marks)}</td></tr>' for node, marks in rows.items())
             + "</tbody></table>")
    opened = "" if len(day.one.sets) > LONG else " open"
    return (f'<section id="verdict"><h2>The verdict, set by set</h2>{banner(day)}{apart}<details{opened}><summary>'
            f'<span class="what">{plural(len(day.one.sets), "set")}</span></summary>{table}</details></section>\n')


def mark(instance, one, two, tree, names):
    name = safe(names.set(tree.symbol(instance // 8), instance % 8))
    sign = '<span class="tick">✓</span>' if one == two else '<span class="cross">✗</span>'
    return f'<span class="set"><i>{name}</i>{sign}</span>'


def difference(row, tree, names):
    instance, one, two = row
    name = safe(names.set(tree.symbol(instance // 8), instance % 8))
    other = "nothing: it is not there" if two is None else reasons(two, names)
    return (f'<p class="refused">Node {instance // 8}, {name}: sheet one has {reasons(one, names)}, '
            f"sheet two has {other}</p>")
