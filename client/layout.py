"""Where the nodes of a picture stand: in layers by distance from what nothing attacks, then moved by springs."""
from __future__ import annotations

import math
import random
from typing import Iterable, Mapping, Sequence

# Larger frameworks are listed, not drawn.
MOST_DRAWN = 150
ROUNDS = 240
# How much nearer to each other all come at the end, across and down.
DENSER = (0.62, 0.72)

Point = tuple[float, float]


def layers(nodes: Sequence[int], edges: Iterable[tuple[int, int]]) -> dict[int, int]:
    """For each node how far it is along the edges from a node without one that comes in; 0 for those that can't be
    reached from any, where nothing better is there.

    >>> layers([1, 2, 3], [(1, 2), (2, 3)])
    {1: 0, 2: 1, 3: 2}
    """
    targets: dict[int, list[int]] = {node: [] for node in nodes}
    entered = set()
    for start, end in edges:
        targets[start].append(end)
        if start != end:
            entered.add(end)
    depth: dict[int, int] = {}
    for root in [*(node for node in nodes if node not in entered), *nodes]:
        if root in depth:
            continue
        depth[root] = 0
        waiting = [root]
        for node in waiting:
            for target in targets[node]:
                if target not in depth:
                    depth[target] = depth[node] + 1
                    waiting.append(target)
    return {node: depth[node] for node in nodes}


def placed(nodes: Sequence[int], edges: Sequence[tuple[int, int]], widths: Mapping[int, float]) -> dict[int, Point]:
    """A place for each node: its layer gives where it begins, springs along the edges and pushes between all move it.
    The same nodes and edges always give the same places."""
    depth = layers(nodes, edges)
    rows: dict[int, list[int]] = {}
    for node in nodes:
        rows.setdefault(depth[node], []).append(node)
    chance = random.Random(1)
    step = 120.0
    at = {}
    for row, those in rows.items():
        for index, node in enumerate(those):
            at[node] = [(index - (len(those) - 1) / 2) * step + chance.random(), row * 95.0 + chance.random()]
    ends = [(start, end) for start, end in dict.fromkeys(edges) if start != end]
    for round_ in range(ROUNDS):
        _move(at, ends, step, 24.0 * (1 - round_ / ROUNDS) + 0.5)
    for point in at.values():
        point[0], point[1] = point[0] * DENSER[0], point[1] * DENSER[1]
    _part(at, widths)
    return _shifted(at, widths)


def _move(at: dict[int, list[float]], ends: Sequence[tuple[int, int]], step: float, most: float) -> None:
    """One round: all push each other, those with an edge between them pull; nobody moves further than `most`."""
    force = {node: [0.0, 0.0] for node in at}
    nodes = list(at)
    for index, one in enumerate(nodes):
        for other in nodes[index + 1 :]:
            dx, dy = at[one][0] - at[other][0], (at[one][1] - at[other][1]) * 1.5
            square = dx * dx + dy * dy + 0.01
            push = step * step / square
            for node, sign in ((one, 1), (other, -1)):
                force[node][0] += sign * dx * push
                force[node][1] += sign * dy * push / 1.5
    for start, end in ends:
        dx, dy = at[start][0] - at[end][0], at[start][1] - at[end][1]
        pull = math.hypot(dx, dy) / step
        for node, sign in ((start, -1), (end, 1)):
            force[node][0] += sign * dx * pull
            force[node][1] += sign * dy * pull
    centre = [sum(point[axis] for point in at.values()) / len(at) for axis in (0, 1)]
    for node, (x, y) in force.items():
        x, y = x - (at[node][0] - centre[0]) * 0.5, y - (at[node][1] - centre[1]) * 0.45
        length = math.hypot(x, y) or 1.0
        at[node][0] += x / length * min(length, most)
        at[node][1] += y / length * min(length, most)


def _part(at: dict[int, list[float]], widths: Mapping[int, float]) -> None:
    """Moves nodes apart until none covers another."""
    nodes = list(at)
    for _ in range(60):
        moved = False
        for index, one in enumerate(nodes):
            for other in nodes[index + 1 :]:
                dx, dy = at[other][0] - at[one][0], at[other][1] - at[one][1]
                lacks_x = (widths[one] + widths[other]) / 2 + 18 - abs(dx)
                lacks_y = 54 - abs(dy)
                if lacks_x > 0 and lacks_y > 0:
                    moved = True
                    axis, lack, way = (1, lacks_y, dy) if lacks_y < lacks_x else (0, lacks_x, dx)
                    at[one][axis] -= math.copysign(lack / 2 + 0.5, way)
                    at[other][axis] += math.copysign(lack / 2 + 0.5, way)
        if not moved:
            return


def _shifted(at: dict[int, list[float]], widths: Mapping[int, float]) -> dict[int, Point]:
    """The places with the least at the margin."""
    if not at:
        return {}
    left = min(x - widths[node] / 2 for node, (x, _) in at.items()) - 40
    top = min(y for _, y in at.values()) - 50
    return {node: (round(x - left, 1), round(y - top, 1)) for node, (x, y) in at.items()}
