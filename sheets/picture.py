"""The climb of an update as a small picture: a bar a round, circle beside circle in the order of their ranks.

A bar is as high as the circle's sets have members behind that round; its dark top is what the round found. A round
that found nothing is a bar without a top, and a dot stands where the circle closed.
"""

from html_parts import safe

MOST_BARS = 160
WIDTH, HEIGHT, FLOOR, LETTER = 680, 86, 70, 6.6


def heights(worked):
    """For each round: the members of the circle's sets behind it, and how many of them it found; None if not asked."""
    if worked.found is None:
        return [None] * worked.climb.rounds
    sets, total, rows = {}, 0, []
    for changed in worked.found:
        grown = sum(value.bit_count() - sets.get(place, 0).bit_count() for place, value in changed.items())
        sets.update(changed)
        total += grown
        rows.append((total, grown))
    return rows


def columns(circles):
    """Bars with their places in bar widths: circle's number, round's bar, and whether it closes the circle."""
    at, rows = 0.0, []
    for number, worked in enumerate(circles):
        bars = heights(worked)
        for round_, bar in enumerate(bars, 1):
            rows.append((at, number, bar, round_ == len(bars)))
            at += 1
            if len(rows) == MOST_BARS:
                return rows, at
        at += 0.6
    return rows, at


def drawn(circles, labels):
    """The picture as SVG, or nothing where no round was made. labels are texts for the circles."""
    rows, length = columns(circles)
    if not rows:
        return ""
    wide = min(24.0, WIDTH / length)
    highest = max([bar[0] for _, _, bar, _ in rows if bar] + [1])
    had, found, unknown, dots = shapes(rows, wide, (FLOOR - 16) / highest)
    text, end = captions(rows, wide, labels)
    rounds = sum(worked.climb.rounds for worked in circles)
    more = f", the first {MOST_BARS} of them" if rounds > MOST_BARS else ""
    right = max(length * wide, end) + 8
    return (f'<svg class="climb" viewBox="0 0 {right:.0f} {HEIGHT}" width="{right:.0f}" height="{HEIGHT}" role="img">'
            f"<title>{len(circles)} circles, {rounds} rounds{more}</title>"
            f'<path class="floor" d="M0 {FLOOR}H{right:.0f}"/><path class="had" d="{had}"/>'
            f'<path class="found" d="{found}"/><path class="unknown" d="{unknown}"/><path class="closed" d="{dots}"/>'
            f"{text}</svg>")


def shapes(rows, wide, unit):
    """The bars as paths: what was there, what the round found, rounds nobody asked about, and the closing dots."""
    had, found, unknown, dots = [], [], [], []
    for at, _, bar, closes in rows:
        left, inner = at * wide + 4, max(wide - 1.5, 0.8)
        total, grown = bar or (0, 0)
        if bar is None:
            unknown.append(box(left, FLOOR, inner, 20))
        had.append(box(left, FLOOR, inner, (total - grown) * unit))
        found.append(box(left, FLOOR - (total - grown) * unit, inner, grown * unit))
        if closes:
            dots.append(f"M{left + inner / 2:.1f} {FLOOR - total * unit - 5:.1f}h0")
    return "".join(had), "".join(found), "".join(unknown), "".join(dots)


def box(left, floor, wide, high):
    return f"M{left:.1f} {floor:.1f}v{-high:.1f}h{wide:.1f}v{high:.1f}z" if high else ""


def captions(rows, wide, labels):
    """Under each circle its label, where there is room for it; and where the last of them ends."""
    text, free = [], 0.0
    for place, (at, number, _, _) in enumerate(rows):
        left = at * wide + 4
        if left >= free and (place == 0 or rows[place - 1][1] != number):
            text.append(f'<text x="{left:.0f}" y="{FLOOR + 12}">{safe(labels[number])}</text>')
            free = left + LETTER * len(labels[number]) + 6
    return "".join(text), free
