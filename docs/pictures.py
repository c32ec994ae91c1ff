#!/usr/bin/env python3
"""Draws the pictures of the documents: docs/pictures/*.svg. Run it from anywhere; it needs python3 alone.

    docs/pictures.py

mark         the mark on a time line, restored onto a living arena and onto a lost one
arena        an arena's words, its nodes, the tree that they make, the list of pairs
split-merge  one split and one merge
cost         microseconds a message by batch size, from docs/operating.csv, which bench/run --operating writes

To look at one: rsvg-convert docs/pictures/mark.svg -o mark.png (Debian: librsvg2-bin).
"""
import math
from pathlib import Path

here = Path(__file__).resolve().parent
INK, GREY, PALE, BLUE, RED, GREEN, SAND = "#222222", "#777777", "#e4e4e4", "#1f6f8b", "#b23a48", "#3f7d4e", "#f4efe2"


def text(x, y, s, size=13, anchor="start", fill=INK, bold=False):
    weight = ' font-weight="bold"' if bold else ""
    s = s.replace("&", "&amp;").replace("<", "&lt;")
    return f'<text x="{x:.1f}" y="{y:.1f}" font-size="{size}" text-anchor="{anchor}" fill="{fill}"{weight}>{s}</text>'


def line(x1, y1, x2, y2, stroke=INK, width=1.5, dash="", arrow=False):
    more = f' stroke-dasharray="{dash}"' if dash else ""
    more += f' marker-end="url(#{"red" if stroke == RED else "green" if stroke == GREEN else "ink"})"' if arrow else ""
    return f'<line x1="{x1:.1f}" y1="{y1:.1f}" x2="{x2:.1f}" y2="{y2:.1f}" stroke="{stroke}" stroke-width="{width}"{more}/>'


def box(x, y, w, h, fill="white", stroke=INK, round=3):
    return f'<rect x="{x:.1f}" y="{y:.1f}" width="{w:.1f}" height="{h:.1f}" rx="{round}" fill="{fill}" stroke="{stroke}"/>'


def dot(x, y, fill, r=4):
    return f'<circle cx="{x:.1f}" cy="{y:.1f}" r="{r}" fill="{fill}"/>'


def save(name, wide, tall, body):
    heads = "".join(
        f'<marker id="{n}" viewBox="0 0 8 8" refX="7" refY="4" markerWidth="7" markerHeight="7" orient="auto"><path d="M0,0 L8,4 L0,8 z" fill="{c}"/></marker>'
        for n, c in (("ink", INK), ("red", RED), ("green", GREEN))
    )
    svg = [
        f'<svg xmlns="http://www.w3.org/2000/svg" width="{wide}" height="{tall}" viewBox="0 0 {wide} {tall}" font-family="DejaVu Sans, Verdana, sans-serif">',
        f"<defs>{heads}</defs>",
        f'<rect width="{wide}" height="{tall}" fill="white"/>',
        *body,
        "</svg>",
    ]
    (here / "pictures").mkdir(exist_ok=True)
    (here / "pictures" / f"{name}.svg").write_text("\n".join(svg) + "\n")


# ---- the mark's story


def steps(marks, colour, dash=""):
    """A step line through (x, y) points: each mark is held until the next event."""
    out = []
    for (x1, y1), (x2, y2) in zip(marks, marks[1:]):
        out.append(line(x1, y1, x2, y1, colour, 2.5, dash))
        if y1 != y2:
            out.append(line(x2, y1, x2, y2, colour, 2.5, dash))
    return out


def mark():
    body = []
    xs = [90 + 92 * i for i in range(10)]

    def panel(top, title, events):
        base = top + 176
        sy = lambda m: base - 22 * m
        body.append(text(30, top + 8, title, 15, bold=True))
        for m in range(0, 7):
            body.append(line(70, sy(m), 940, sy(m), PALE, 1))
            body.append(text(62, sy(m) + 4, str(m) if m else "none", 11, "end", GREY))
        body.append(text(62, sy(6) - 14, "mark", 11, "end", GREY))
        for x, name in zip(xs, events):
            body.append(line(x, base, x, base + 5, GREY, 1))
            for i, part in enumerate(name.split("/")):
                body.append(text(x, base + 20 + 14 * i, part, 11.5, "middle"))
        body.append(line(70, base, 960, base, INK, 1.2, arrow=True))
        body.append(text(966, base + 4, "time", 11, "start", GREY))
        return sy

    begun = ["put 1", "put 2", "put 3", "image/taken", "put 4", "put 5"]
    sy = panel(20, "An image is restored onto the arena that is still there", begun + ["restore/the image", "put the/next"])
    body += steps([(70, sy(0))] + [(x, sy(m)) for x, m in zip(xs, [1, 2, 3, 3, 4, 5, 5, 6])], BLUE)
    body.append(dot(xs[7], sy(6), GREEN, 5))
    body.append(text(xs[7] + 10, sy(6) + 4, "6: fresh", 12.5, "start", GREEN, True))
    body.append(text(xs[6], sy(5) + 18, "pairs 1, 2, 3; mark 5", 11.5, "middle", BLUE))
    body.append(text(xs[3], sy(3) + 18, "the image has mark 3", 11.5, "middle", GREY))

    sy = panel(270, "The arena is lost: a new one can only be formatted", begun + ["arena lost;/format", "put the/saved mark", "restore/the image", "put the/next"])
    body += steps([(70, sy(0))] + [(x, sy(m)) for x, m in zip(xs, [1, 2, 3, 3, 4, 5])] + [(xs[6] - 6, sy(5))], BLUE)
    x = xs[6]
    body += [line(x - 7, sy(5) - 7, x + 7, sy(5) + 7, RED, 3), line(x - 7, sy(5) + 7, x + 7, sy(5) - 7, RED, 3)]
    body += [line(x, sy(5) + 10, x, sy(0), GREY, 1.5, "3 4"), dot(x, sy(0), GREY)]
    body += steps([(x, sy(0)), (xs[7], sy(5)), (xs[8], sy(5)), (xs[9], sy(6))], GREEN)
    body += [dot(xs[9], sy(6), GREEN, 5), text(xs[9] + 10, sy(6) + 4, "6: fresh", 12.5, "start", GREEN, True)]
    body.append(text(xs[9] - 12, sy(6) - 6, "the recipe: 5 was saved in a second place", 11.5, "end", GREEN))
    body += steps([(x, sy(0) - 3), (xs[8], sy(3)), (xs[9], sy(4))], RED, "6 4")
    body += [dot(xs[9], sy(4), RED, 5), text(xs[9] + 10, sy(4) + 4, "4: used twice", 12.5, "start", RED, True)]
    body.append(text(xs[8] + 8, sy(2), "the image alone brings 3", 11.5, "start", RED))
    save("mark", 1040, 500, body)


# ---- arena, nodes, tree, list

NODES = [("leaf", 6, 2, 0, list(range(1, 7)), []), ("leaf", 5, 2, 1, list(range(8, 13)), []), ("inner, the root", 1, None, 0, [7], [0, 1]), ("free", 0, None, 0, [], [])]
COLOURS = ["#dcebf2", "#dcebf2", "#f6e3c5", "#eeeeee"]


def arena():
    body = []
    body.append(text(24, 30, "1  The arena: 10 header words, then N nodes of 39 words. Here N = 4, so 166 words", 15, bold=True))
    names = ["format", "N", "offset", "root", "height", "pairs", "first free", "free", "seen", "mark"]
    words = [2, 4, 10, 2, 1, 12, 3, 1, 1, 12]
    for i, (n, w) in enumerate(zip(names, words)):
        x = 24 + 56 * i
        body += [box(x, 48, 56, 34, SAND, round=0), text(x + 28, 70, str(w), 14, "middle"), text(x + 28, 97, n, 10, "middle", GREY)]
        body.append(text(x + 28, 44, str(i), 9, "middle", GREY))
    for k in range(4):
        x = 584 + 92 * k
        body += [box(x, 48, 92, 34, COLOURS[k], round=0), text(x + 46, 70, f"node {k}", 13, "middle"), text(x + 46, 97, "39 words", 10, "middle", GREY)]

    body.append(text(24, 138, "2  The nodes: up to 11 keys, 11 values and 12 edges; the count of pairs below; words not in use are 0", 15, bold=True))
    for k, (kind, n, parent, edge, keys, edges) in enumerate(NODES):
        y = 152 + 34 * k
        state = {"leaf": 1, "free": 0}.get(kind, 2)
        body.append(text(24, y + 20, f"node {k}", 13, bold=True))
        body.append(text(88, y + 20, kind, 11, "start", GREY))
        cells = [state, n, "NONE" if parent is None else parent, edge]
        x = 190
        for c in cells:
            body += [box(x, y + 3, 44, 26, COLOURS[k], round=0), text(x + 22, y + 20, str(c), 11.5, "middle")]
            x += 44
        x += 10
        for i in range(11):
            used = i < n
            body += [box(x, y + 3, 25, 26, COLOURS[k] if used else "white", GREY, 0), text(x + 12.5, y + 20, str(keys[i]) if used else "0", 11, "middle", INK if used else "#bbbbbb")]
            x += 25
        x += 10
        body += [box(x, y + 3, 92, 26, "white", GREY, 0), text(x + 46, y + 20, "11 values", 11, "middle", GREY)]
        x += 102
        for i in range(5):
            used = i < len(edges)
            body += [box(x, y + 3, 25, 26, COLOURS[k] if used else "white", GREY, 0), text(x + 12.5, y + 20, str(edges[i]) if used else "0", 11, "middle", INK if used else "#bbbbbb")]
            x += 25
        body.append(text(x + 6, y + 20, ".. 12", 11, "start", GREY))
        below = 12 if edges else n
        body += [box(926, y + 3, 30, 26, COLOURS[k], round=0), text(941, y + 20, str(below), 11.5, "middle")]
    for x, s in ((190, "state"), (234, "length"), (278, "parent"), (322, "edge")):
        body.append(text(x + 22, 300, s, 10, "middle", GREY))
    body.append(text(376, 300, "keys", 10, "start", GREY))
    body.append(text(763, 300, "edges", 10, "start", GREY))
    body.append(text(941, 300, "count", 10, "middle", GREY))

    body.append(text(24, 340, "3  The tree that the edges make: every leaf equally deep, 5 to 11 pairs in each node but the root", 15, bold=True))
    body += [box(440, 356, 80, 30, COLOURS[2]), text(480, 376, "7", 14, "middle"), text(530, 376, "node 2", 11, "start", GREY)]
    body += [box(190, 424, 230, 30, COLOURS[0]), text(305, 444, "1   2   3   4   5   6", 14, "middle"), text(182, 444, "node 0", 11, "end", GREY)]
    body += [box(540, 424, 230, 30, COLOURS[1]), text(655, 444, "8   9   10   11   12", 14, "middle"), text(778, 444, "node 1", 11, "start", GREY)]
    body += [line(460, 386, 305, 422, arrow=True), line(500, 386, 655, 422, arrow=True)]
    body += [text(360, 398, "edge 0", 11, "end", GREY), text(600, 398, "edge 1", 11, "start", GREY)]
    body += [box(860, 424, 70, 30, COLOURS[3], GREY), text(895, 444, "free", 12, "middle", GREY), text(895, 470, "node 3", 11, "middle", GREY)]

    body.append(text(24, 506, "4  The list: all pairs in rising order, which is all that a caller sees", 15, bold=True))
    for i in range(12):
        x = 100 + 64 * i
        fill = COLOURS[2] if i == 6 else COLOURS[0]
        body += [box(x, 522, 58, 28, fill), text(x + 29, 541, f"{i + 1} → v", 12, "middle")]
    save("arena", 976, 570, body)


# ---- a split and a merge


def node(x, y, keys, number, fill="#dcebf2", hot=(), short=False):
    w = 30 * max(len(keys), 1)
    out = [text(x, y - 6, f"node {number}", 11, "start", GREY)]
    for i, k in enumerate(keys):
        colour = "#f6c9c9" if k in hot else fill
        out += [box(x + 30 * i, y, 30, 28, colour, RED if short else INK, 0), text(x + 30 * i + 15, y + 19, str(k), 12.5, "middle")]
    return out, w


def split_merge():
    body = [text(30, 32, "A split: put 12 into a full leaf", 16, bold=True), text(500, 32, "A merge: delete 12", 16, bold=True)]
    body.append(line(475, 16, 475, 372, PALE, 1.5))
    # split
    part, _ = node(30, 76, list(range(1, 12)), 0, hot=(7,))
    body += part
    body += [text(380, 95, "+ 12", 14, "start", GREEN, True), text(30, 126, "Full: 11 pairs. 12 belongs at edge 11, so the pair at place 6 rises.", 12)]
    body.append(line(200, 140, 200, 176, arrow=True))
    part, _ = node(175, 206, [7], 2, "#f6c9c9")
    body += part
    body.append(text(212, 225, "the new root, taken last", 11, "start", GREY))
    part, _ = node(30, 286, list(range(1, 7)), 0)
    body += part
    part, _ = node(270, 286, list(range(8, 13)), 1)
    body += part
    body += [line(182, 234, 120, 268, arrow=True), line(198, 234, 330, 268, arrow=True)]
    body.append(text(30, 340, "The left half keeps its node, the right half takes a fresh one: 2 nodes", 12))
    body.append(text(30, 357, "are needed, counted before anything is changed; else NoRoom.", 12))
    # merge
    part, _ = node(650, 76, [7], 2, "#f6e3c5")
    body += part
    part, _ = node(500, 146, list(range(1, 7)), 0)
    body += part
    part, _ = node(740, 146, list(range(8, 12)), 1, short=True)
    body += part
    body += [box(860, 146, 30, 28, "white", GREY, 0), text(875, 165, "12", 12.5, "middle", "#bbbbbb"), line(862, 172, 888, 148, RED, 2)]
    body += [line(657, 104, 590, 128, arrow=True), line(673, 104, 800, 128, arrow=True)]
    body.append(text(740, 192, "4 left: short (fewer than 5)", 12, "start", RED))
    body.append(text(500, 216, "6 + 1 + 4 = 11 fit into one node, so they are merged.", 12))
    body.append(line(665, 226, 665, 256, arrow=True))
    part, _ = node(500, 286, list(range(1, 12)), 0, hot=(7,))
    body += part
    body.append(text(500, 340, "The left node keeps all pairs; node 1 is returned. The root is empty and is", 12))
    body.append(text(500, 357, "returned too. Free chain: 1, then 2. No pair is lost: that is proved.", 12))
    save("split-merge", 960, 384, body)


# ---- the cost


def cost():
    rows, on = [], False
    for l in (here / "operating.csv").read_text().splitlines():
        if l.startswith("cost,"):
            on = True
        elif on:
            nodes, pairs, batch, us = l.split(",")
            rows.append((int(nodes), int(pairs), int(batch), float(us)))
    x0, y0, wide, tall = 90, 60, 560, 330
    batches = sorted({r[2] for r in rows})
    low = 10 ** math.floor(math.log10(min(r[3] for r in rows)))
    high = 10 ** math.ceil(math.log10(max(r[3] for r in rows)))
    sx = lambda b: x0 + wide * math.log10(b / batches[0]) / math.log10(batches[-1] / batches[0])
    sy = lambda v: y0 + tall * (1 - math.log10(v / low) / math.log10(high / low))
    body = [text(x0, 28, "What a message costs, by the size of its batch", 16, bold=True)]
    body.append(text(x0, 46, "one delete and one put a message, one check a batch, no sync; both axes are logarithmic", 11.5, "start", GREY))
    v = low
    while v <= high * 1.001:
        body += [line(x0, sy(v), x0 + wide, sy(v), PALE, 1), text(x0 - 8, sy(v) + 4, f"{v:,.2f}".rstrip("0").rstrip("."), 12, "end")]
        v *= 10
    for b in batches:
        body += [line(sx(b), y0, sx(b), y0 + tall, PALE, 1), text(sx(b), y0 + tall + 20, f"{b:,}", 12, "middle")]
    body += [line(x0, y0, x0, y0 + tall, INK, 1.2), line(x0, y0 + tall, x0 + wide, y0 + tall, INK, 1.2)]
    body.append(text(x0 + wide / 2, y0 + tall + 44, "messages in a batch", 13, "middle"))
    body.append(f'<text x="24" y="{y0 + tall / 2}" font-size="13" text-anchor="middle" transform="rotate(-90 24 {y0 + tall / 2})">microseconds a message</text>')
    sizes = sorted({(r[0], r[1]) for r in rows})
    ends = []
    for (nodes, pairs), colour in zip(sizes, ["#7fb2c6", BLUE, "#8e6c8a", RED]):
        pts = [(sx(b), sy(us)) for n, _, b, us in rows if n == nodes]
        path = " ".join(f"{x:.1f},{y:.1f}" for x, y in pts)
        body.append(f'<polyline points="{path}" fill="none" stroke="{colour}" stroke-width="2.5"/>')
        body += [dot(x, y, colour) for x, y in pts]
        ends.append([pts[-1][1], f"{nodes:,} nodes, {pairs:,} pairs", colour])
    ends.sort()
    for a, b in zip(ends, ends[1:]):
        b[0] = max(b[0], a[0] + 17)
    body += [text(x0 + wide + 12, y + 4, s, 12.5, "start", c, True) for y, s, c in ends]
    save("cost", 900, 450, body)


if __name__ == "__main__":
    mark()
    arena()
    split_merge()
    cost()
