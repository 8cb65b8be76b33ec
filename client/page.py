"""One page with the reasons of an answer: the picture, the sentences tied to it, the table of what each number says.

The page is one file without anything from elsewhere. All that a user wrote is escaped, and stands in text alone:
attributes and script have numbers. """
from __future__ import annotations

import math
import re
from html import escape
from pathlib import Path
from typing import Optional, Sequence

from burgaouez import Framework
from certificate import View
from layout import MOST_DRAWN, placed
from narration import CAPITAL_MARK, MARKED, SET_MARK, Sentence
from reasons import CHECKED, Reasons, Section, apart, cited

POINT = "Point at a sentence to see what it speaks of, or at the picture to see where it is named."
POLICY = "default-src 'none'; style-src 'unsafe-inline'; script-src 'unsafe-inline'"
MOST_BUTTONS = 40
LONGEST_LABEL = 20
# How a number stands in a view: held by each set, held by some, attacked by each or out of reach, none of these.
STATES = {"h": "held", "s": "held by some", "o": "attacked", "u": "without a verdict"}



def _beside(name: str) -> str:
    return Path(__file__).with_name(name).read_text(encoding="utf-8")


PAGE_STYLE, PICTURE_STYLE, SCRIPT = map(_beside, ("page.css", "picture.css", "page.js"))


# How each number stands


def views(found: Reasons) -> list[Sequence]:
    """The sets of each view: all, and then each by itself where there are several."""
    sets = found.sets or ([found.grounded] if found.grounded is not None else [])
    return [sets] + ([[one] for one in sets[:MOST_BUTTONS]] if len(sets) > 1 else [])


def states(view: View, sets: Sequence) -> dict[int, str]:
    """For each number a key of STATES."""
    framework = view.framework
    numbers = framework.atoms if view.is_rules else framework.arguments
    held = [view.closure(one) for one in sets]
    out = [_out(view, one) for one in sets]
    found = {}
    for n in numbers:
        inside = sum(n in one for one in held)
        if sets and inside == len(sets):
            found[n] = "h"
        elif inside:
            found[n] = "s"
        else:
            found[n] = "o" if sets and all(n in one for one in out) else "u"
    return found


def _out(view: View, members) -> set[int]:
    attacked = view.attacked(members)
    if not view.is_rules:
        return attacked
    left = view.closure(a for a in view.assumed if a not in attacked)
    return set(view.framework.atoms) - left


# The picture


def _label(framework: Framework, n: int) -> str:
    said = framework.names.get(n, str(n))
    return said if len(said) <= LONGEST_LABEL else said[: LONGEST_LABEL - 1] + "…"


def _edges(framework: Framework) -> list[tuple[int, int, str, str]]:
    """Start, end, kind and the pairs that a sentence may mark: rules of several premises meet at a joint, a negative
    number."""
    edges = [(b, a, "", f"{b}-{a}") for b, a in framework.attacks]
    edges += [(c, a, "against", f"{c}-{a}") for a, c in framework.contrary_pairs]
    for rule in framework.rules:
        pairs = [f"{x}-{rule.head}" for x in rule.body]
        if len(rule.body) == 1:
            edges.append((rule.body[0], rule.head, "rule", pairs[0]))
        elif rule.body:
            edges += [(x, -rule.number, "half", pair) for x, pair in zip(rule.body, pairs)]
            edges.append((-rule.number, rule.head, "rule", " ".join(pairs)))
    return edges


def picture(framework: Framework, view_sets: Sequence[Sequence], query: Optional[int] = None) -> str:
    """The drawn framework as an element, or nothing where it is too large. Each of `view_sets` is a list of sets by
    which the numbers are coloured, the first of them to begin with."""
    view = View(framework)
    numbers = list(framework.atoms if view.is_rules else framework.arguments)
    if not numbers or len(numbers) > MOST_DRAWN:
        return ""
    edges = _edges(framework)
    joints = sorted({end for _, end, _, _ in edges if end < 0}, reverse=True)
    widths = {n: max(36.0, 7.6 * len(_label(framework, n)) + 24) for n in numbers} | {joint: 10.0 for joint in joints}
    at = placed(numbers + joints, [(start, end) for start, end, _, _ in edges], widths)
    width = max(x + widths[n] / 2 for n, (x, _) in at.items()) + 40
    height = max(y for _, y in at.values()) + 40
    pairs = {(start, end) for start, end, _, _ in edges}
    parts = [_edge(edge, at, widths, pairs) for edge in edges]
    parts += [f'<circle cx="{at[j][0]}" cy="{at[j][1]}" r="3.5" fill="#555"/>' for j in joints]
    looks = [states(view, sets) for sets in view_sets]
    known = {rule.head for rule in framework.rules if not rule.body}
    for n in numbers:
        marks = ["known"] * (n in known) + ["asked"] * (n == query)
        parts.append(_node(view, n, at[n], widths[n], "".join(look[n] for look in looks), marks))
    return _drawing(width, height, "\n".join(parts))


def _drawing(width: float, height: float, inner: str) -> str:
    return (
        f'<svg xmlns="http://www.w3.org/2000/svg" class="dispute" viewBox="0 0 {width:.0f} {height:.0f}" role="img" '
        'aria-label="The dispute as a graph; the table at the end says the same">'
        '<defs><marker id="tip" viewBox="0 0 8 8" refX="7" refY="4" markerWidth="7" markerHeight="7" '
        'orient="auto-start-reverse" markerUnits="userSpaceOnUse"><path d="M0,0 L8,4 L0,8 z" fill="#555"/>'
        "</marker></defs>"
        f"{inner}</svg>"
    )


def _node(view: View, n: int, point, width: float, looks: str, marks: Sequence[str]) -> str:
    x, y = point
    framework = view.framework
    square = view.is_rules and n not in view.assumed
    shape = (f'<rect class="shape" x="{x - width / 2:.1f}" y="{y - 15:.1f}" width="{width:.1f}" height="30" '
             f'rx="{2 if square else 15}"/>')
    return (f'<g class="{" ".join(["node", looks[0], *marks])}" data-n="{n}" data-s="{looks}" tabindex="0">'
            f'<title>{_text(framework.texts.get(n) or _label(framework, n))}</title>{shape}'
            f'<text x="{x:.1f}" y="{y + 4.5:.1f}">{_text(_label(framework, n))}</text></g>')


# How far apart two arrows run that lead both ways.
BOTH_WAYS = 6.0


def _edge(edge, at, widths, pairs) -> str:
    start, end, kind, marks = edge
    if start == end:
        x, y, half = *at[start], widths[start] / 2
        path = (f"M{x + half - 12:.1f},{y - 15:.1f} C{x + half - 4:.1f},{y - 46:.1f} "
                f"{x + half + 34:.1f},{y - 34:.1f} {x + half + 1:.1f},{y - 5:.1f}")
    else:
        (x1, y1), (x2, y2) = at[start], at[end]
        length = math.hypot(x2 - x1, y2 - y1) or 1.0
        apart = BOTH_WAYS if (end, start) in pairs else 0.0
        across = (-(y2 - y1) / length * apart, (x2 - x1) / length * apart)
        way = (x2 - x1, y2 - y1)
        x1, y1 = _border(at[start], across, way, widths[start], 1)
        x2, y2 = _border(at[end], across, (-way[0], -way[1]), widths[end], 2 if end > 0 else 0)
        path = f"M{x1:.1f},{y1:.1f} L{x2:.1f},{y2:.1f}"
    return f'<g class="edge {kind}" data-e="{marks}"><path d="{path}"/></g>'


def _border(middle, across, way, width: float, gap: float) -> tuple[float, float]:
    """Where a line that begins beside a node's middle, and goes this way, leaves the node."""
    halves = (width / 2 + gap, (15 if width > 10 else 4) + gap)
    ways = zip(halves, way, across)
    part = min((math.copysign(half, step) - off) / step for half, step, off in ways if abs(step) > 1e-9)
    return middle[0] + across[0] + way[0] * part, middle[1] + across[1] + way[1] * part


def picture_file(framework: Framework, sets: Sequence, title: str) -> str:
    """The picture of a framework and these sets as an SVG file, under a title. Raises ValueError for what isn't
    drawn."""
    drawn = picture(framework, [sets])
    if not drawn:
        raise ValueError(f"only frameworks of 1 to {MOST_DRAWN} are drawn")
    width, height = map(int, re.search(r'viewBox="0 0 ([0-9]+) ([0-9]+)"', drawn).groups())
    width = max(width, 8 * len(title))
    head = (f'<style>{PICTURE_STYLE}</style><rect y="-34" width="{width}" height="{height + 34}" fill="#fff"/>'
            f'<text x="12" y="-12" style="text-anchor: start">{_text(title)}</text><defs>')
    box = f'viewBox="0 -34 {width} {height + 34}" width="{width}" height="{height + 34}"'
    return re.sub(r'viewBox="[^"]*"', box, drawn, count=1).replace("<defs>", head, 1) + "\n"


# The page


def _text(text: str) -> str:
    return escape(text.encode("utf-8", "replace").decode(), quote=True)


def _marked(found: Reasons, text: str) -> str:
    """A text with names in bold, tied to their numbers."""
    parts, last = [], 0
    for mark in MARKED.finditer(text):
        parts.append(_text(text[last : mark.start()]))
        n, last = int(mark[2]), mark.end()
        if mark[1] == SET_MARK:
            parts.append(_text(found.set_label(n)))
            continue
        said = found.framework.names.get(n, str(n))
        said = said[:1].upper() + said[1:] if mark[1] == CAPITAL_MARK else said
        parts.append(f'<b data-n="{n}"><bdi>{_text(said)}</bdi></b>')
    return "".join(parts) + _text(text[last:])


def _attributes(one: Sentence) -> str:
    out = [record.conclusion.atom[1] for record in one.records if getattr(record, "conclusion", None) is not None
           and record.conclusion.atom[0] == "Member" and not record.conclusion.positive]
    told = {"a": one.arguments, "e": [f"{b}-{a}" for b, a in one.attacks], "x": out, "p": one.cites}
    return "".join(f' data-{key}="{" ".join(map(str, value))}"' for key, value in told.items() if value)


def _sentence(found: Reasons, one: Sentence) -> str:
    said = f'{_marked(found, one.text)}<span class="cite">{_text(cited(one.cites))}</span>'
    kind = "s case" if one.items else "s"
    head = f'<li class="{kind}" id="p{one.number}" tabindex="0"{_attributes(one)}><span class="no">{one.number}</span>'
    if not one.items:
        return f"{head}{said}</li>"
    inner = "".join(_sentence(found, item) for item in one.items)
    return f"{head}<details open><summary>{said}</summary><ol>{inner}</ol></details></li>"


def _section(found: Reasons, section: Section) -> str:
    inner = f'<p class="intro">{_marked(found, section.intro)}</p>' if section.intro else ""
    inner += f'<ol>{"".join(_sentence(found, one) for one in section.sentences)}</ol>'
    count = sum(1 for _ in section.all())
    heading = f"<h2>{_marked(found, section.heading)}</h2>"
    if section.summary:
        rests = " ".join(map(str, section.rests_on))
        inner = (f'<p data-rest data-a="{rests}" tabindex="0">{_marked(found, section.summary)}</p>'
                 f"<details><summary>All {count} sentences</summary>{inner}</details>")
    elif section.folded:
        said = f"{count} {'sentence' if count == 1 else 'sentences'}, not needed after the reason above"
        inner = f"<details><summary>{said}</summary>{inner}</details>"
    return f"<section>{heading}{inner}</section>"


def _buttons(found: Reasons, count: int) -> str:
    if count == 1:
        return ""
    names = ["all sets"] + [_text(found.fill(f"set {n}{apart(found.sets, n)}")) for n in range(1, count)]
    buttons = "".join(f'<button type="button" data-v="{v}" aria-pressed="{str(v == 0).lower()}">{said}</button>'
                      for v, said in enumerate(names))
    more = len(found.sets) - (count - 1)
    rest = f" and {more} more" if more > 0 else ""
    return f'<div class="views" role="group" aria-label="What is coloured">{buttons}{rest}</div>'


def _legend(view: View, several: bool) -> str:
    parts = [("#1b7f4b", "held" + (" by each" if several else "")), *([("#a8dcbf", "held by some")] if several else [])]
    parts += [("#d9d9d9", "out of reach" if view.is_rules else "attacked"), ("#ffffff", "without a verdict")]
    said = "".join(f'<i style="background:{colour}"></i>{text}' for colour, text in parts)
    more = " Round: assumptions; square: statements, thick where known; dashed arrows: what speaks against."
    return f'<p class="legend">{said}.{more if view.is_rules else ""}</p>'


def _table(found: Reasons, view: View, view_sets) -> str:
    looks = [states(view, sets) for sets in view_sets]
    framework = found.framework
    numbers = framework.atoms if view.is_rules else framework.arguments
    words = {"h": "held", "s": "held by some", "o": "attacked", "u": ""}
    rows = []
    for n in numbers:
        codes = "".join(look[n] for look in looks)
        relation = _relations(found, view, n)
        said = _text(framework.names.get(n, str(n))), _text(framework.texts.get(n, ""))
        rows.append(
            f'<tr><td id="name-{n}"><bdi>{said[0]}</bdi></td><td dir="auto" id="text-{n}">{said[1]}</td>'
            f'<td>{relation}</td><td data-s="{codes}">{words[codes[0]]}</td></tr>'
        )
    relation = "Speaks against, follows from" if view.is_rules else "Attacks"
    heads = "".join(f"<th>{head}</th>" for head in ("Name", "Text", relation, "Stands"))
    return (
        f"<h2>What each says</h2><table><thead><tr>{heads}</tr></thead>"
        f"<tbody>{''.join(rows)}</tbody></table>"
    )


def _relations(found: Reasons, view: View, n: int) -> str:
    names = lambda those: ", ".join(f"<bdi>{_text(found.framework.names.get(one, str(one)))}</bdi>" for one in those)
    if not view.is_rules:
        return names(view.targets[n])
    against = [a for a, row in view.contraries.items() if n in row]
    parts = [f"against {names(against)}"] if against else []
    for rule in view.rules_for[n]:
        body = view.rules[rule][1]
        parts.append(f"from {names(body)}" if body else "known")
    return "; ".join(parts)


def page(found: Reasons) -> str:
    """The whole page."""
    view = View(found.framework)
    view_sets = views(found)
    drawn = picture(found.framework, view_sets, found.query)
    asked = found.task if found.query is None else f"{found.task} {found.query}"
    said = _marked(found, found.said)
    left = ""
    if drawn:
        left = (
            f'<div class="left">{_buttons(found, len(view_sets))}{drawn}{_legend(view, len(view_sets) > 1)}'
            f'<p id="marked" aria-live="polite">{POINT}</p></div>'
        )
    sections = "".join(_section(found, section) for section in found.sections)
    checked = _text(CHECKED).replace("`argue check`", "<code>argue check</code>")
    return f"""<!DOCTYPE html>
<html lang="en"><head><meta charset="utf-8"><meta name="viewport" content="width=device-width">
<meta http-equiv="Content-Security-Policy" content="{POLICY}">
<title>Reasons: {_text(found.fill(found.question))}</title><style>{PAGE_STYLE}{PICTURE_STYLE}</style></head><body>
<header><h1>{_marked(found, found.question)} <span class="cite">{_text(asked)}</span></h1><p class="answer">{said}</p>
<p class="note">{_text(found.gloss)}</p><p class="note">{checked}</p></header>
<main{'' if drawn else ' class="plain"'}>{left}<div class="right">{sections}</div></main>
<footer>{_table(found, view, view_sets)}</footer><script>{SCRIPT}</script></body></html>
"""

