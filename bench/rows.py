"""The rows of the table: what each measures, at which size, and its limit."""

from dataclasses import dataclass
from typing import Callable

import manifests
from fetching import fetching
from jobs import (OWN_MEMORY, SET_VERSION, blank_lines, collisions, long_manifest, long_text, memory,
                  real_lines, share, short_lines, start, whole_upgrade, writing)
from measure import DISK, TMPFS
from ratios import plan_beside_upgrade, with_bound
from warm import warm_run


@dataclass
class Row:
    """A row: its name, its work as a text, how it is measured, its size and that with --quick, what is wanted
    at most, of what the figure is a multiple, and what is wanted where it is one of the original's time."""
    name: str
    work: str
    measure: Callable
    size: object
    quick: object
    wanted: float | None = None
    unit: str = "peer"
    original: float | None = None

    def target(self, result):
        """The unit of a result, and what is wanted of it."""
        return (result.unit, self.original) if result.unit else (self.unit, self.wanted)


# (Of cargo-edit 0.13.14's own time, which was 1.7 and 4.7 times the peer's on 2026-11-27, 0.8 and 0.3
# are wanted.)
ROWS = [
    Row("start", "`upgrade`, no entries", start, None, None),
    Row("lines-1000", "`upgrade`, 20 index lines an entry", real_lines, (1_000, 20), (20, 5), 0.8),
    Row("lines-10000", "`upgrade`, 20 index lines an entry", real_lines, (10_000, 20), (40, 5), 0.8),
    Row("with-bound", "`upgrade --published-before`, instructions", with_bound, (1_000, 20), (20, 5), 1.1, "without"),
    Row("workspace-30", "`upgrade -i -n`", whole_upgrade, (30, 300, 100, 300), (3, 40, 2, 6), 1.35,
        original=0.8),
    Row("workspace-300", "`upgrade -i -n`", whole_upgrade, (300, 300, 100, 300), (6, 40, 2, 6), 1.4,
        original=0.3),
    Row("fetch-plan", "before curl, all cached", fetching("fetch-plan"), (30, 300, 100, 300), (3, 40, 2, 6), 75, "M"),
    Row("fetch-store", "after curl, all answered with 304", fetching("fetch-store"), (30, 300, 100, 300), (3, 40, 2, 6),
        75, "M"),
    Row("run-warm", "`cargo upgrade -n -i` on line, all cached, less the time of curl", warm_run, (30, 300, 100, 300),
        (3, 40, 2, 6), 1.2, "off line"),
    Row("plan-300", "`plan`, instructions", plan_beside_upgrade, 300, 3, 2.0, "upgrade"),
    Row("short-10000", "`upgrade`, strings, a short line each", short_lines("string"), 10_000, 50, 1.0),
    Row("inline-10000", "`upgrade`, inline tables, a short line each", short_lines("inline"), 10_000, 50),
    Row("blank-10", "`upgrade`, blank index lines", blank_lines, 10_000_000, 10_000),
    Row("manifest-1", "`upgrade`, manifests joined to one", long_manifest, 1_000_000, 10_000, 0.2),
    Row("manifest-10", "`upgrade`, manifests joined to one", long_manifest, 10_000_000, 20_000, 0.2),
    Row("memory-1", f"peak memory beyond {OWN_MEMORY} MB", memory(long_text), 1_000_000, 10_000, 5, "text"),
    Row("memory-10", f"peak memory beyond {OWN_MEMORY} MB", memory(long_text), 10_000_000, 20_000, 5, "text"),
    Row("hostile-keys", "`upgrade`, keys that collide", collisions, 50_000, 50),
    Row("hostile-headers", "peak memory, headers of 80 parts", memory(manifests.long_headers), 6_000, 6, None,
        "text"),
    Row("hostile-digits", "peak memory, an array of digits", memory(manifests.digits), 500_000, 50, None,
        "text"),
    Row("metadata-set-version", "metadata in `set-version -n`", share([*SET_VERSION, "-n"]), 300, 3, 30, "%"),
    Row("metadata-looks", "metadata in `looks`", share(["looks"]), 300, 3, 30, "%"),
    Row("writing-disk", "`set-version` beyond a dry run", writing(DISK), 300, 3, 1, "plain writes"),
    Row("writing-tmpfs", "the same on tmpfs", writing(TMPFS), 300, 3, None, "plain writes"),
]
