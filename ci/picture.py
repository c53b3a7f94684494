"""Draws the crates of crates.txt in layers, as an SVG.

A crate is one layer above the highest crate that it uses. A line leads down to each crate that it uses, but for those that another line implies.
"""

import sys
from itertools import combinations, pairwise
from pathlib import Path
from statistics import mean

PAGE = Path("docs/crates.svg")
CHARACTER, PADDING, HEIGHT, GAP, ROW, MARGIN = 8, 10, 28, 14, 74, 20
SWEEPS = 40
CAPTION = "Lines lead down from a crate to those that it uses, and on to those that these use. A thick frame: a program."


def crates_used():
    """What each crate of crates.txt uses of the others there."""
    rows = [line.split(":") for line in Path("crates.txt").read_text().splitlines() if line and not line.startswith("#")]
    used = {head.split()[0]: tail.split() for head, tail in rows}
    return {name: [other for other in others if other in used] for name, others in used.items()}


def all_below(used, name):
    """What a crate uses, directly or through another."""
    return {found for other in used[name] for found in {other} | all_below(used, other)}


def without_implied(used):
    """What each crate uses, less what one of the others that it uses also uses."""
    return {
        name: [other for other in others if not any(other in all_below(used, third) for third in others)]
        for name, others in used.items()
    }


def layer_of(used, name):
    return max((layer_of(used, other) + 1 for other in used[name]), default=0)


def layers_and_lines(used):
    """The boxes of each layer, and the lines between boxes of neighbouring layers.

    A line over several layers passes a box without a frame in each between: a triple of its ends and the layer.
    """
    level = {name: layer_of(used, name) for name in used}
    layers = [[] for _ in range(max(level.values()) + 1)]
    for name in used:
        layers[level[name]].append(name)
    lines = []
    for name in used:
        for other in used[name]:
            between = [(name, other, at) for at in range(level[name] - 1, level[other], -1)]
            for box in between:
                layers[box[2]].append(box)
            lines += pairwise([name, *between, other])
    return layers, lines


def neighbours(lines):
    """The boxes above and below each box."""
    above, below = {}, {}
    for upper, lower in lines:
        below.setdefault(upper, []).append(lower)
        above.setdefault(lower, []).append(upper)
    return above, below


def crossings(layers, lines):
    place = {box: at for layer in layers for at, box in enumerate(layer)}
    level = {box: at for at, layer in enumerate(layers) for box in layer}
    return sum(
        level[one[0]] == level[other[0]] and (place[one[0]] - place[other[0]]) * (place[one[1]] - place[other[1]]) < 0
        for one, other in combinations(lines, 2)
    )


def swapped(layers, lines):
    """The layers with two neighbours of one layer exchanged wherever that makes fewer lines cross."""
    fewest = crossings(layers, lines)
    for layer in layers:
        for at in range(len(layer) - 1):
            layer[at : at + 2] = reversed(layer[at : at + 2])
            count = crossings(layers, lines)
            if count < fewest:
                fewest = count
            else:
                layer[at : at + 2] = reversed(layer[at : at + 2])
    return layers


def in_order(layers, lines):
    """The layers, each ordered so that few lines cross."""
    above, below = neighbours(lines)
    best = [list(layer) for layer in layers]
    for sweep in range(SWEEPS):
        sides = below if sweep % 2 == 0 else above
        for layer in layers if sweep % 2 == 0 else reversed(layers):
            place = {box: at for one in layers for at, box in enumerate(one)}
            layer.sort(key=lambda box: mean(place[side] for side in sides[box]) if box in sides else place[box])
        if crossings(layers, lines) < crossings(best, lines):
            best = [list(layer) for layer in layers]
    return swapped(best, lines)


def width(box):
    return CHARACTER * len(box) + 2 * PADDING if isinstance(box, str) else 0


def spread(layer, wanted):
    """Middles of the boxes of a layer, as near to the wanted ones as their widths allow."""
    offset, offsets = 0, []
    for at, box in enumerate(layer):
        offset += (width(layer[at - 1]) + width(box)) / 2 + GAP if at else 0
        offsets.append(offset)
    groups = []
    for at, box in enumerate(layer):
        groups.append([wanted[box] - offsets[at]])
        while len(groups) > 1 and mean(groups[-2]) > mean(groups[-1]):
            groups[-2:] = [groups[-2] + groups[-1]]
    starts = [mean(group) for group in groups for _ in group]
    return {box: starts[at] + offsets[at] for at, box in enumerate(layer)}


def middles(layers, lines):
    """Where the middle of each box is, near to those of the boxes above and below."""
    above, below = neighbours(lines)
    at = {box: 0 for layer in layers for box in layer}
    for sweep in range(SWEEPS):
        for layer in layers if sweep % 2 == 0 else reversed(layers):
            sides = {box: above.get(box, []) + below.get(box, []) for box in layer}
            at |= spread(layer, {box: mean([at[side] for side in sides[box]] or [at[box]]) for box in layer})
    return at


def drawn(used):
    """The lines of the picture's text."""
    layers, lines = layers_and_lines(without_implied(used))
    layers = in_order(layers, lines)
    at = middles(layers, lines)
    left = min(at[box] - width(box) / 2 for box in at) - MARGIN
    right = max(max(at[box] + width(box) / 2 for box in at) + MARGIN, left + 7 * len(CAPTION) + 2 * MARGIN)
    top = {box: MARGIN + ROW * (len(layers) - 1 - level) for level, layer in enumerate(layers) for box in layer}
    size = f"{right - left:.0f} {2 * MARGIN + ROW * len(layers):.0f}"
    yield f'<svg xmlns="http://www.w3.org/2000/svg" viewBox="0 0 {size}" font-family="monospace" font-size="13">'
    yield '<rect width="100%" height="100%" fill="white"/>'
    yield '<g fill="none" stroke="black">'
    for upper, lower in lines:
        x, y, u, v = at[upper] - left, top[upper] + HEIGHT, at[lower] - left, top[lower]
        half = (y + v) / 2
        yield f'<path d="M{x:.0f} {y}C{x:.0f} {half:.0f} {u:.0f} {half:.0f} {u:.0f} {v}"/>'
    for box in at:
        x, y = at[box] - left, top[box]
        if isinstance(box, str):
            thick = 3 if Path(f"crates/{box}/src/main.rt").exists() else 1
            yield f'<rect x="{x - width(box) / 2:.0f}" y="{y}" width="{width(box)}" height="{HEIGHT}" stroke-width="{thick}"/>'
        else:
            yield f'<path d="M{x:.0f} {y}V{y + HEIGHT}"/>'
    yield "</g>"
    yield '<g text-anchor="middle">'
    for box in at:
        if isinstance(box, str):
            yield f'<text x="{at[box] - left:.0f}" y="{top[box] + 19}">{box}</text>'
    yield "</g>"
    yield f'<text x="{MARGIN}" y="{MARGIN + ROW * len(layers)}" font-family="sans-serif">{CAPTION}</text>'
    yield "</svg>"


def main(words):
    text = "".join(f"{line}\n" for line in drawn(crates_used()))
    if words == ["check"]:
        if not PAGE.exists() or PAGE.read_text() != text:
            sys.exit(f"{PAGE} is not the picture of crates.txt: sh ci/picture.sh > {PAGE}")
        print(f"{PAGE}: the picture of crates.txt")
    elif words:
        sys.exit("usage: sh ci/picture.sh [check]")
    else:
        print(text, end="")


main(sys.argv[1:])
