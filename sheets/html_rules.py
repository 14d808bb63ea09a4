"""The rule table as a page: every equation as a formula."""

from formulas import equations
from html_parts import reason, reasons, safe

DRESS = {"word": "{}", "symbol": "<em>{}</em>", "place": "<sub>{}</sub>", "set": '<span class="f-set">{}</span>',
         "own": '<span class="f-own">{}</span>'}


def rules(day, names):
    table = day.session.table
    blocks = "".join(production(number, names, table) for number in range(len(table.productions)))
    return f'<section id="rules"><h2>The rule table</h2>{signs()}{codes(names)}{blocks}</section>\n'


def signs():
    return ('<p class="legend">∪ what is in either · ∩ what is in both · ∖ what is in the first and not in the second, a '
            "waiver · ⊆ all of the left is in the right · ∅ no reason · own: what a node comes with · a small number tells "
            "which child it is</p>")


def codes(names):
    """The reasons that have names, with their codes."""
    named = [code for code in range(64) if ("reason", code) in names.given]
    return '<p class="legend">' + " ".join(f"{code} {reason(code, names)}" for code in named) + "</p>" if named else ""


def production(number, names, table):
    rule = table.productions[number]
    children = " ".join(safe(names.symbol(child)) for child in rule.children) or "no children"
    rows = "".join(f'<tr><td class="op">{op}</td><td class="left formula">{dressed(left, names)}</td>'
                   f'<td class="formula">= {dressed(right, names)}</td></tr>' for op, left, right in equations(rule, names))
    name = safe(names.production(number))
    none = "" if rows else '<p class="legend">no equation</p>'
    return (f'<div class="rule"><h3>{name} <small>production {number}: {safe(names.symbol(rule.left))} → {children}</small></h3>'
            f'{none}<table class="rules">{rows}</table></div>')


def dressed(pieces, names):
    return "".join(reasons(text, names) if kind == "reasons" else DRESS[kind].format(safe(text)) for kind, text in pieces)
