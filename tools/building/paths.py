"""The dearest path through things of which each has a cost and waits for others."""
from __future__ import annotations

import graphlib
from collections.abc import Iterable, Mapping


def dearest(waits_for: Mapping[str, Iterable[str]], costs: Mapping[str, float]) -> list[str]:
    """Returns the names on the path with the greatest sum of costs, the one that waits for nothing
    first. Each name of `costs` is in the graph; names that it does not have are left out."""
    below = {name: [it for it in waits_for.get(name, ()) if it in costs] for name in costs}
    sums: dict[str, float] = {}
    before: dict[str, str | None] = {}
    for name in graphlib.TopologicalSorter(below).static_order():
        before[name] = max(below[name], key=sums.__getitem__, default=None)
        sums[name] = costs[name] + sums.get(before[name] or "", 0)
    path: list[str] = []
    last = max(sums, key=sums.__getitem__, default=None)
    while last is not None:
        path.append(last)
        last = before[last]
    return path[::-1]
