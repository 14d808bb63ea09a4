"""The whole page: one file of HTML that needs nothing beside it, no network and no script."""

from pathlib import Path

import words
from html_climbs import MOST_LISTED, Room, the_cold_load, the_day
from html_parts import colours, safe
from html_rules import rules
from html_sheets import banner, pair, verdict


def page(day, names, title):
    """The day's page as text. Parts that the day has nothing for are left out."""
    room, parts = Room(MOST_LISTED), []
    if day.one:
        parts += [pair(day, names, title), verdict(day, names)]
    if day.session.table:
        parts.append(the_day(day, names, room))
    if day.two:
        parts.append(the_cold_load(day, names, room))
    if day.session.table:
        parts.append(rules(day, names))
    style = (Path(__file__).resolve().parent / "style.css").read_text(encoding="utf-8")
    return ('<!DOCTYPE html>\n<html lang="en"><head><meta charset="utf-8">'
            '<meta name="viewport" content="width=device-width, initial-scale=1">'
            f"<title>{safe(title)}: two sheets</title><style>{style}{colours()}</style></head>\n<body>{top(day, title)}"
            f"<main>{''.join(parts)}</main></body></html>\n")


def top(day, title):
    """What a screen shows first; on paper it is printed only where there are no sheets."""
    stop = f'<p class="notice">{safe(words.stop(day))} {safe(words.left_out(day))}</p>' if day.stopped else ""
    alone = "" if day.one else " alone"
    return f'<header class="top{alone}"><h1>{safe(title)}</h1>{banner(day)}{stop}</header>\n'
