#!/usr/bin/env python3
"""Draws a ratchet tree: reads what `mlscheck show tree` prints, and writes an SVG.

    mlscheck show tree examples/real/epoch-4.tree | examples/draw_tree.py >tree.svg
    mlscheck show tree FILE | examples/draw_tree.py --under NODE >part.svg

Each box is a node, with its node index and the first bytes of its encryption key. A leaf box names the leaf's index and
where its leaf node came from, a parent box its unmerged leaves. Blank nodes are dashed, and a leaf that some parent
lists as unmerged has a thick border. At most 64 leaves are drawn: of a larger tree, the part below the node that
`--under` names. The whole line of a node shows where the pointer rests on it.
"""
import argparse
import sys
from xml.sax.saxutils import escape

MOST_LEAVES = 64

# How many bytes of a key are shown.
KEY_BYTES = 4

# Sizes in pixels: a leaf's column, the space between rows, a line of text, a character, and the space around texts.
COLUMN = 94
ROW_GAP = 40
LINE = 16
CHARACTER = 6.7
PADDING = 8
MARGIN = 20
WIDEST_BOX = 240
HEADER = 56

LEGEND = "dashed: blank; thick border: unmerged at some parent"

STYLE = """
text { font: 11px monospace; fill: #222; text-anchor: middle }
.index { font-weight: bold; font-size: 12px }
.header { font-size: 14px; text-anchor: start }
.note { text-anchor: start; fill: #555 }
line { stroke: #999 }
rect { stroke: #444; rx: 4px }
.leaf { fill: #dcebfa }
.parent { fill: #e4f2d8 }
.blank { fill: #fff; stroke: #aaa; stroke-dasharray: 4 3 }
.unmerged { stroke: #d2600a; stroke-width: 3 }
"""


def level(index):
    """Returns how far above the leaves the node is: how many ones its index ends in."""
    return (~index & (index + 1)).bit_length() - 1


def half(index):
    """Returns how far the node's children are from it, in node indices."""
    return 1 << (level(index) - 1)


def read(lines):
    """Returns each node's words, by its node index, and the numbers of leaves and members of the last line."""
    nodes, counts = {}, None
    for line in lines:
        words = line.split()
        if words and words[0].isdigit():
            nodes[int(words[0])] = words
        elif len(words) == 4 and words[0] == "leaves" and words[2] == "members":
            counts = int(words[1]), int(words[3])
        else:
            sys.exit(f"draw_tree.py: this is no line of a tree: {line.strip()}")
    if counts is None or len(nodes) != 2 * counts[0] - 1:
        sys.exit("draw_tree.py: this is not all that `mlscheck show tree` prints of a tree")
    return nodes, counts


def short_key(key):
    if key == "-":
        return "no key"
    return key if len(key) <= 2 * KEY_BYTES else key[:2 * KEY_BYTES] + "…"


def joined(numbers):
    """Returns a list of numbers in words, in which numbers that follow one another are a range."""
    runs = []
    for number in numbers:
        if runs and runs[-1][1] + 1 == number:
            runs[-1][1] = number
        else:
            runs.append([number, number])
    return [str(first) if first == last else f"{first}-{last}" for first, last in runs]


def wrapped(words, width):
    """Returns the words with commas between, in lines of at most `width` characters if no word is longer."""
    lines = [""]
    for at, word in enumerate(words):
        word += "," if at + 1 < len(words) else ""
        if lines[-1] and len(lines[-1]) + 1 + len(word) > width:
            lines.append(word)
        else:
            lines[-1] = f"{lines[-1]} {word}".strip()
    return lines


def box_width(index):
    return min(COLUMN * 2 ** level(index), WIDEST_BOX) - 10


def unmerged_of(words):
    return [int(number) for number in words[4].split(",")] if words[1] == "parent" and words[4] != "-" else []


def texts(words):
    """Returns the lines of a node's box."""
    index = int(words[0])
    leaf = [f"leaf {index // 2}"] if index % 2 == 0 else []
    if words[1] == "blank":
        return [words[0], *leaf, "blank"]
    if words[1] == "leaf":
        return [words[0], *leaf, short_key(words[3]), words[5].replace("_", " ")]
    lines = [words[0], short_key(words[2])]
    unmerged = joined(unmerged_of(words))
    if unmerged:
        width = int((box_width(index) - 2 * PADDING) / CHARACTER)
        lines += wrapped(["unmerged " + unmerged[0], *unmerged[1:]], width)
    return lines


def heights(nodes):
    """Returns how high the boxes of each level are."""
    most = {}
    for index, words in nodes.items():
        most[level(index)] = max(most.get(level(index), 0), len(texts(words)))
    return {at: count * LINE + PADDING for at, count in most.items()}


def rows(high):
    """Returns where the boxes of each level begin, from the top."""
    tops, top = {}, HEADER + MARGIN
    for at in sorted(high, reverse=True):
        tops[at] = top
        top += high[at] + ROW_GAP
    return tops


def drawn_box(words, center, top, height, is_unmerged):
    index = int(words[0])
    kind = words[1] + (" unmerged" if is_unmerged else "")
    width = box_width(index)
    yield f"<g><title>{escape(' '.join(words))}</title>"
    yield (f'<rect class="{kind}" x="{center - width / 2:g}" y="{top:g}" width="{width:g}" height="{height:g}" '
           'rx="4"/>')
    lines = texts(words)
    for at, text in enumerate(lines):
        baseline = top + (height - len(lines) * LINE) / 2 + LINE * (at + 1) - 4
        style = ' class="index"' if at == 0 else ""
        yield f'<text{style} x="{center:g}" y="{baseline:g}">{escape(text)}</text>'
    yield "</g>"


def drawn(nodes, root, counts):
    """Writes the picture of the part below a node, as SVG."""
    first = root - (1 << level(root)) + 1
    part = {index: nodes[index] for index in range(first, 2 * root - first + 1)}
    unmerged = {leaf for words in nodes.values() for leaf in unmerged_of(words)}
    high = heights(part)
    tops = rows(high)
    width = max((2 * root - 2 * first + 2) / 2 * COLUMN, 440) + 2 * MARGIN
    height = tops[0] + high[0] + MARGIN
    left = (width - COLUMN * (root - first)) / 2

    def center(index):
        return left + (index - first) * COLUMN / 2

    leaves, members = counts
    title = f"{leaves} leaves, {members} members" if leaves > 1 else "1 leaf, 1 member"
    if len(part) < len(nodes):
        below = sum(words[1] == "leaf" for words in part.values())
        title = f"Below node {root}: {len(part) // 2 + 1} leaves, {below} members (of {title})"
    yield (f'<svg xmlns="http://www.w3.org/2000/svg" width="{width:g}" height="{height:g}" '
           f'viewBox="0 0 {width:g} {height:g}">')
    yield f"<title>A ratchet tree. {title}</title><style>{STYLE}</style>"
    yield '<rect width="100%" height="100%" style="fill: #fff; stroke: none"/>'
    yield f'<text class="header" x="{MARGIN}" y="{MARGIN + 8}">{title}</text>'
    yield f'<text class="note" x="{MARGIN}" y="{MARGIN + 28}">{LEGEND}</text>'
    for index in part:
        for child in [index - half(index), index + half(index)] if index % 2 else []:
            bottom = tops[level(index)] + high[level(index)]
            yield (f'<line x1="{center(index):g}" y1="{bottom:g}" x2="{center(child):g}" '
                   f'y2="{tops[level(child)]:g}"/>')
    for index, words in part.items():
        is_unmerged = index % 2 == 0 and index // 2 in unmerged
        yield from drawn_box(words, center(index), tops[level(index)], high[level(index)], is_unmerged)
    yield "</svg>"


def main():
    parser = argparse.ArgumentParser(usage=__doc__)
    parser.add_argument("file", nargs="?", type=argparse.FileType("r"), default=sys.stdin)
    parser.add_argument("--under", type=int)
    args = parser.parse_args()
    nodes, counts = read(args.file)
    root = counts[0] - 1 if args.under is None else args.under
    if root not in nodes:
        sys.exit(f"draw_tree.py: the tree has no node {root}: its nodes are 0 to {len(nodes) - 1}")
    leaves = 1 << level(root)
    if leaves > MOST_LEAVES:
        other = root - leaves + MOST_LEAVES
        sys.exit(f"draw_tree.py: below node {root} are {leaves} leaves, and at most {MOST_LEAVES} are drawn: "
                 f"name a lower node by --under, such as {other}")
    print("\n".join(drawn(nodes, root, counts)))


if __name__ == "__main__":
    main()
