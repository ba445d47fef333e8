#!/usr/bin/env python3
"""Draws speed by workers, from the tables that `bench/workloads.py load` prints, as an SVG on standard output.

    python3 bench/workloads.py load --only heavy rust=.. mono=.. > bench/speed.txt
    python3 bench/plot.py bench/speed.txt > bench/speed.svg

Of one workload (`heavy`, or the second word) it shows how many times as fast as its own plain loop each program is: on the left
with nothing beside it, on the right beside four processes that burn a core. tests/plot.py compares bench/speed.svg with what
this script draws from bench/speed.txt.
"""
import math
import sys

WIDTH, HEIGHT, LEFT, TOP, GAP = 300, 200, 40, 40, 50
COLOURS = ("#1b6ca8", "#d1495b", "#66a182", "#8d6a9f")


def panels_of(text, workload):
    """For each table its title, and of each program its name and the ratios to its loop, by numbers of workers."""
    title, names = "", []
    for line in text.splitlines():
        cells = [it.strip() for it in line.strip("|").split("|")]
        if line.startswith("| workload "):
            names = [it.partition(":")[0] for it in cells if it.endswith(": seconds")]
            panel = {name: {} for name in names}
            yield title, panel
        elif line.startswith(f"| `{workload}` "):
            for at, name in enumerate(names):
                ratio = cells[3 + 4 * at].lstrip("x")
                if ratio.replace(".", "", 1).isdigit():
                    panel[name][int(cells[1])] = float(ratio)
        elif line and not line.startswith("|"):
            title = line.rstrip(":")


def text_at(x, y, words, anchor="middle", colour="#333"):
    return f'<text x="{x:.1f}" y="{y:.1f}" text-anchor="{anchor}" fill="{colour}">{words}</text>'


def drawn(title, panel, left, most, workers):
    """The lines of a panel whose left edge is there; `most` is the ratio at its top."""

    def x_of(number):
        return left + WIDTH * math.log2(number / workers[0]) / math.log2(workers[-1] / workers[0])

    def y_of(ratio):
        return TOP + HEIGHT * (1 - ratio / most)

    yield text_at(left + WIDTH / 2, TOP - 15, title)
    for ratio in range(most + 1):
        yield f'<path d="M{left} {y_of(ratio):.1f}h{WIDTH}" stroke="#ddd"/>'
        yield text_at(left - 8, y_of(ratio) + 4, f"{ratio}x", "end")
    for number in workers:
        yield text_at(x_of(number), TOP + HEIGHT + 18, number)
    yield text_at(left + WIDTH / 2, TOP + HEIGHT + 36, "workers")
    for colour, (name, ratios) in zip(COLOURS, panel.items()):
        points = " ".join(f"{x_of(it):.1f},{y_of(ratios[it]):.1f}" for it in sorted(ratios))
        yield f'<polyline points="{points}" fill="none" stroke="{colour}" stroke-width="2"/>'


def svg_of(text, workload):
    panels = [it for it in list(panels_of(text, workload)) if any(it[1].values())]
    ratios = [it for _, panel in panels for by in panel.values() for it in by.items()]
    if len({number for number, _ in ratios}) < 2:
        raise SystemExit(f"the tables have no two numbers of workers for {workload}")
    workers, most = sorted({number for number, _ in ratios}), math.ceil(max(ratio for _, ratio in ratios))
    width, height = LEFT + len(panels) * (WIDTH + GAP), TOP + HEIGHT + 70
    yield f'<svg xmlns="http://www.w3.org/2000/svg" viewBox="0 0 {width} {height}" font-family="sans-serif" font-size="12">'
    yield f'<rect width="{width}" height="{height}" fill="#fff"/>'
    for at, (title, panel) in enumerate(panels):
        yield from drawn(title, panel, LEFT + at * (WIDTH + GAP), most, workers)
    for at, (colour, name) in enumerate(zip(COLOURS, panels[0][1])):
        yield text_at(LEFT + 130 * at, height - 12, name, "start", colour)
    yield "</svg>"


def main():
    if len(sys.argv) not in (2, 3):
        raise SystemExit("python3 bench/plot.py FILE [WORKLOAD]")
    with open(sys.argv[1], encoding="utf-8") as file:
        print("\n".join(svg_of(file.read(), (sys.argv[2:] or ["heavy"])[0])))


if __name__ == "__main__":
    main()
