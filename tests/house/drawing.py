"""Draws the crates of crates.txt as docs/crates.svg, each above those that it uses.

    python3 -m tests.house.drawing            prints the drawing
    python3 -m tests.house.drawing --write    writes it into docs/crates.svg

Crates of tests are left out. A line is drawn to a crate that is used, unless another one that is used stands between.
"""

import sys

from .. import common

PAGE = common.ROOT / "docs/crates.svg"
WIDTH, HEIGHT, BESIDE, ABOVE, MARGIN = 138, 44, 10, 42, 20

# What stands under a crate's name.
WORDS = {
    "history": "tokens without bytes",
    "puffin_data": "bytes, walk, values",
    "puffin_threads": "threads, scope details",
    "puffin_frames": "frames, packets",
    "puffin_merge": "merged scopes",
    "puffin_view": "last and slowest frames",
    "puffin_collector": "pending scopes",
    "puffin_scopes": "guards, places",
    "puffin": "profiler, sinks, lock",
    "puffin_accounts": "users' proofs",
    "puffin_session": "commands, replies",
    "puffin_report": "counts, reports",
    "puffin_look": "what a file has",
    "puffin_c": "the C interface",
    "puffin_replay": "scripts, recording",
    "puffin_tool": "count, replay, report",
    "puffin_look_tool": "lists, traces",
    "example_single": "one thread",
    "example_proved": "a proof of one's own",
    "example_proved_rounds": "rounds, proved",
    "example_rounds": "four threads",
    "example_threads": "four threads, proved",
    "example_recorder": "frames as they come",
    "example_pool": "a hundred jobs",
    "example_look": "a frame as a tree",
    "example_bodies": "a profiled library",
    "example_crates": "two crates",
    "example": "a whole program",
    "check_bench": "timings",
    "check_runs": "several runs",
    "check_trials": "refusals, hostile bytes",
}


def drawn():
    """The crates that are drawn, in the order of crates.txt."""
    return [it for it in common.crates() if not it.startswith("tests_")]


def without_words():
    """The crates that have no words here, and the words that have no crate."""
    return sorted(set(drawn()) ^ set(WORDS))


def is_program(name):
    return (common.crate(name).folder() / "src/main.rt").exists() or name.startswith("example")


def used(name):
    """The crates that a crate uses, without those that another one of them uses."""
    below = {it: common.below(it) for it in common.crate(name).used if it in common.crates() and not it.startswith("tests_")}
    return [it for it in below if not any(it in others for others in below.values())]


def rows():
    """The crates in rows, the lowest first: each stands above all that it uses, right under the first that uses it, and in its
    row near to those that it uses."""
    ranks = {}
    for name in drawn():
        ranks[name] = 1 + max((ranks[it] for it in used(name)), default=-1)
    for name in reversed(drawn()):
        ranks[name] = min((ranks[it] - 1 for it in drawn() if name in used(it)), default=ranks[name])
    made = [[it for it in ranks if ranks[it] == rank] for rank in range(max(ranks.values()) + 1)]
    for row, below in zip(made[1:], made):
        places = {it: place for place, it in enumerate(below)}
        row.sort(key=lambda it: sum(places.get(other, len(below) / 2) for other in used(it)) / max(len(used(it)), 1))
    return made


def corners(made):
    """The left upper corner of each crate's box, and the size of the drawing."""
    whole = max(len(row) for row in made) * (WIDTH + BESIDE) - BESIDE + 2 * MARGIN
    found = {}
    for number, row in enumerate(reversed(made)):
        left = (whole - len(row) * (WIDTH + BESIDE) + BESIDE) // 2
        for place, name in enumerate(row):
            found[name] = left + place * (WIDTH + BESIDE), MARGIN + number * (HEIGHT + ABOVE)
    return found, whole, 2 * MARGIN + len(made) * (HEIGHT + ABOVE) - ABOVE


def drawing():
    """The drawing."""
    found, width, height = corners(rows())
    lines, boxes = [], []
    for name, (x, y) in found.items():
        for to in used(name):
            ends = f'x1="{x + WIDTH // 2}" y1="{y + HEIGHT}" x2="{found[to][0] + WIDTH // 2}" y2="{found[to][1]}"'
            lines.append(f'    <line {ends} marker-end="url(#end)"/>')
        color = "#f7f1e3" if is_program(name) else "#e8f0f8"
        boxes += [
            f'    <rect x="{x}" y="{y}" width="{WIDTH}" height="{HEIGHT}" rx="5" fill="{color}" stroke="#3b5b7a"/>',
            f'    <text x="{x + WIDTH // 2}" y="{y + 19}" font-size="13" font-weight="bold">{name}</text>',
            f'    <text x="{x + WIDTH // 2}" y="{y + 35}" font-size="10.5">{WORDS.get(name, "")}</text>',
        ]
    return "\n".join([
        "<!-- made by tests/house/drawing.py -->",
        f'<svg xmlns="http://www.w3.org/2000/svg" width="{width}" height="{height}" viewBox="0 0 {width} {height}"'
        ' font-family="sans-serif">',
        "  <title>The crates, each above those that it uses</title>",
        '  <marker id="end" viewBox="0 0 8 8" refX="7" refY="4" markerWidth="6" markerHeight="6" orient="auto">',
        '    <path d="M0 1 L8 4 L0 7 Z" fill="#8a8a8a"/>',
        "  </marker>",
        '  <rect width="100%" height="100%" fill="#ffffff"/>',
        '  <g stroke="#8a8a8a" stroke-width="1.2">',
        *lines,
        "  </g>",
        '  <g text-anchor="middle" fill="#1d2b38">',
        *boxes,
        "  </g>",
        "</svg>",
        "",
    ])


def is_current():
    return PAGE.read_text() == drawing()


if __name__ == "__main__":
    if "--write" in sys.argv[1:]:
        PAGE.write_text(drawing())
    else:
        print(drawing(), end="")
