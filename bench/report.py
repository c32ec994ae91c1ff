"""The figures of bench/run as tables. docs/pictures.py draws the plot.

    report.py print TIMES.csv     prints the tables
    report.py write FOLDER        puts them between the marks of docs/SPEED.md
    report.py operating FILE.csv  puts capacity and cost between the marks of docs/OPERATING.md
    report.py native CSV          prints the tables of what bench/native wrote: times, counts or returns
"""

import os
import sys

NAMES = {
    "get": "get, present",
    "absent": "get, absent",
    "replace": "put, replaces",
    "new": "put, new",
    "delete": "delete",
    "list": "listing, a pair",
    "mixed": "mixed, one batch",
    "batches": "mixed, batches of 1,000",
    "swept": "the same, all caches swept",
}


def tables(path):
    """The tables of a file: each begins with a line of names."""
    found = []
    for line in open(path):
        fields = line.strip().split(",")
        if fields[0] in ("case", "arena", "capacity", "cost", "run", "call"):
            found.append((fields, []))
        else:
            found[-1][1].append(dict(zip(found[-1][0], fields)))
    return [rows for _, rows in found]


def number(n):
    return f"{int(float(n)):,}"


def time_tables(path):
    cases, checks = tables(path)
    yield "| case | pairs | ours | of it the check | BTreeMap | absl | ours without the check / BTreeMap | / absl |"
    yield "|---|---|---|---|---|---|---|---|"
    for r in cases:
        yield (
            f"| {NAMES[r['case']]} | {number(r['pairs'])} | {float(r['ours']):.1f} | {float(r['check']):.1f} | {float(r['btree']):.1f} "
            f"| {float(r['absl']):.1f} | **{float(r['b2']):.2f}** ({float(r['b1']):.2f} to {float(r['b3']):.2f}) | {float(r['a2']):.2f} |"
        )
    yield ""
    yield "| arena | nodes | words | pairs | check, µs | OR, µs | check / OR | single get, µs |"
    yield "|---|---|---|---|---|---|---|---|"
    for r in checks:
        check, orr, get = float(r["check"]), float(r["or"]), float(r["get"])
        yield (
            f"| {r['arena']} | {number(r['nodes'])} | {number(r['words'])} | {number(r['pairs'])} | {check / 1000:.2f} | {orr / 1000:.2f} "
            f"| **{check / orr:.1f}** | {get / 1000:.2f} |"
        )


def count_tables(path):
    cases, checks = tables(path)
    yield "| case | pairs | ours | of it the check | BTreeMap | absl | ours without the check / BTreeMap |"
    yield "|---|---|---|---|---|---|---|"
    by = {(r["case"], r["pairs"], r["who"]): r for r in cases}
    for case, pairs, who in by:
        if who != "ours":
            continue
        o, b, a = (by[case, pairs, w] for w in ("ours", "btree", "absl"))
        n = int(o["orders"])
        each = lambda r, k="all": int(r[k]) / n
        yield (
            f"| {NAMES[case]} | {number(pairs)} | {each(o):.0f} | {each(o, 'check'):.1f} | {each(b):.0f} | {each(a):.0f} "
            f"| **{(int(o['all']) - int(o['check'])) / int(b['all']):.2f}** |"
        )
    yield ""
    yield "| arena | nodes | words | check | OR | check, a word | OR, a word |"
    yield "|---|---|---|---|---|---|---|"
    by = {(r["arena"], r["nodes"], r["who"]): r for r in checks}
    for arena, nodes, who in by:
        if who == "check":
            c, o = by[arena, nodes, "check"], by[arena, nodes, "or"]
            words = int(c["words"])
            yield (
                f"| {arena} | {number(nodes)} | {number(words)} | {number(c['all'])} | {number(o['all'])} "
                f"| {int(c['all']) / words:.2f} | {int(o['all']) / words:.2f} |"
            )


def operating(path):
    """The tables of docs/OPERATING.md: capacity, and microseconds a message."""
    capacity, cost = tables(path)
    yield "| nodes | bytes | rising counters | pairs a node | bytes a pair | random keys | pairs a node |"
    yield "|---|---|---|---|---|---|---|"
    for r in capacity:
        nodes, size, rising, rand = int(r["capacity"]), 8 * int(r["words"]), int(r["rising"]), int(r["random"])
        yield f"| {nodes:,} | {size:,} | {rising:,} | {rising / nodes:.1f} | {size / rising:.0f} | {rand:,} | {rand / nodes:.1f} |"
    batches = list(dict.fromkeys(int(r["batch"]) for r in cost))
    yield ""
    yield "Microseconds a message, by the size of the batch:"
    yield ""
    yield "| nodes | pairs | " + " | ".join(f"{b:,}" for b in batches) + " |"
    yield "|---|---|" + "---|" * len(batches)
    by = {(int(r["cost"]), int(r["batch"])): r for r in cost}
    for nodes in dict.fromkeys(int(r["cost"]) for r in cost):
        each = [float(by[nodes, b]["microseconds"]) for b in batches]
        shown = [f"{v:,.0f}" if v >= 100 else f"{v:.1f}" if v >= 10 else f"{v:.2f}" for v in each]
        yield f"| {nodes:,} | {int(by[nodes, batches[0]]['pairs']):,} | " + " | ".join(shown) + " |"


# ---- bench/native: a column for each contestant


def grid(rows, keys, cell, titles):
    """A row for each different value of the keys, a column for each contestant."""
    who = list(dict.fromkeys(r["who"] for r in rows))
    yield "| " + " | ".join(titles + who) + " |"
    yield "|---" * (len(titles) + len(who)) + "|"
    by = {}
    for r in rows:
        by.setdefault(tuple(r[k] for k in keys), {})[r["who"]] = r
    for key, line in by.items():
        name = [NAMES.get(key[0], key[0]).replace(";", ","), number(key[1])]
        yield "| " + " | ".join(name + [cell(line[w]) if w in line else "" for w in who]) + " |"


def ratios(rows, keys, f, titles):
    """The middle of the rounds' ratios, and how far their quarters stand from it, by size."""
    yield from grid(rows, keys, lambda r: f"{float(r[f + '2']):.2f}", titles)
    off = {}
    for r in rows:
        low, middle, high = (float(r[f + q]) for q in "123")
        off[r[keys[1]]] = max(off.get(r[keys[1]], 0), high - middle, middle - low)
    yield ""
    yield "Quarters at most from these: " + ", ".join(f"{far:.2f} at {number(size)}" for size, far in off.items()) + "."


def native_tables(path):
    for rows in filter(None, tables(path)):
        if "returns" in rows[0]:
            yield "| run | nodes | orders | free at the end | returns | turns a return | most turns | turns an order |"
            yield "|---|---|---|---|---|---|---|---|"
            for r in rows:
                cells = [r["run"].replace(";", ","), *(number(r[k]) for k in ("nodes", "orders", "free", "returns"))]
                cells += [f"{float(r['each']):.1f}", number(r["most"]), f"{float(r['order']):.3f}"]
                yield "| " + " | ".join(cells) + " |"
        elif "time" in rows[0]:
            yield "Nanoseconds an order, without the checks:"
            yield ""
            yield from grid(rows, ("run", "nodes"), lambda r: r["time"], ["run", "nodes"])
        elif "b2" in rows[0]:
            keys, titles = ("case", "pairs"), ["case", "pairs"]
            yield "Nanoseconds an order, without the check:"
            yield ""
            yield from grid(rows, keys, lambda r: f"{float(r['ns']) - float(r['check']):.1f}", titles)
            for what, f in ("BTreeMap's", "b"), ("absl's", "a"), ("the first's", "f"):
                yield ""
                yield f"Time / {what}:"
                yield ""
                yield from ratios(rows, keys, f, titles)
        elif "r2" in rows[0]:
            yield "The check, time / one OR over the words:"
            yield ""
            yield from ratios(rows, ("arena", "nodes"), "r", ["arena", "nodes"])
            yield ""
            yield "The check, time a word / the first's:"
            yield ""
            yield from ratios(rows, ("arena", "nodes"), "f", ["arena", "nodes"])
            yield ""
            yield "Microseconds, check and OR:"
            yield ""
            both = lambda r: f"{float(r['check']) / 1000:.2f}, {float(r['or']) / 1000:.2f}"
            yield from grid(rows, ("arena", "nodes"), both, ["arena", "nodes"])
        elif "g2" in rows[0]:
            yield "Nanoseconds a single call, in a copy that does not check:"
            yield ""
            yield from grid(rows, ("call", "pairs"), lambda r: r["ns"], ["call", "pairs"])
            yield ""
            yield "Time / get's:"
            yield ""
            yield from ratios(rows, ("call", "pairs"), "g", ["call", "pairs"])
        elif "calls" in rows[0]:
            each = lambda r: f"{int(r['instructions']) / int(r['calls']):.0f}, {int(r['missed']) / int(r['calls']):.2f}"
            yield "Instructions and mispredictions a single call, without the check:"
            yield ""
            yield from grid(rows, ("call", "pairs"), each, ["call", "pairs"])
        elif "orders" in rows[0]:
            each = lambda r: f"{int(r['instructions']) / int(r['orders']):.0f}, {int(r['missed']) / int(r['orders']):.2f}"
            yield "Instructions and mispredictions an order, without the check:"
            yield ""
            yield from grid(rows, ("case", "pairs"), each, ["case", "pairs"])
        else:
            each = lambda r: f"{int(r['instructions']) / int(r['words']):.2f}, {int(r['missed']) / int(r['nodes']):.2f}"
            yield "The check: instructions a word, and mispredictions a node:"
            yield ""
            yield from grid(rows, ("arena", "nodes"), each, ["arena", "nodes"])
        yield ""


def put_between(path, lines):
    """Puts lines between the marks of a document."""
    text = open(path).read()
    begin, end = "<!-- figures: begin -->\n", "<!-- figures: end -->"
    before, rest = text.split(begin)
    open(path, "w").write(before + begin + "\n" + "\n".join(lines) + "\n\n" + end + rest.split(end)[1])


def main():
    if sys.argv[1] == "print":
        print("\n".join(time_tables(sys.argv[2])))
        return
    if sys.argv[1] == "operating":
        load = " ".join(open("/proc/loadavg").read().split()[:3])
        machine = f"{os.uname().sysname} {os.uname().machine}, {os.cpu_count()} processors, load averages {load} at the end."
        put_between(
            "docs/OPERATING.md",
            [
                f"Seen on {machine} A message is one delete of the oldest and one put of the next counter,",
                "both in one batch, in memory; a sync comes on top. Each time is the lower quarter of the rounds.",
                "",
                *operating(sys.argv[2]),
            ],
        )
        return
    if sys.argv[1] == "native":
        print("\n".join(native_tables(sys.argv[2])))
        return
    folder = sys.argv[2]
    load = lambda f: open(f"{folder}/load.{f}").read().strip()
    figures = [
        f"Load averages (1, 5, 15 minutes, two cores) before the timed run: {load('before')}; after it: {load('after')}.",
        "",
        "### Times",
        "",
        "Nanoseconds an order, medians; the ratio is the median of the rounds' own ratios, in brackets their quarter and three quarters. In the",
        "second table, of the check, each time is the quarter of the rounds.",
        "",
        *time_tables(f"{folder}/times.csv"),
        "",
        "### Instructions",
        "",
        "Instructions an order (callgrind); for the check, of the whole arena.",
        "",
        *count_tables(f"{folder}/counts.csv"),
    ]
    put_between("docs/SPEED.md", figures)


main()
