#!/usr/bin/env python3
"""Makes crates/damage/stdout: `python3 docs/oracle/damage.py > crates/damage/stdout`. The gate does not run it.

A second, plain implementation of formatting and of the sentence "Well-formed" of document 01, written from the document alone and
not from the proved code: it collects the nodes that it reaches and the keys in order, and counts afterwards. What the program prints
for the same arena, damaged in the same way, is compared with this list at each check.
"""
NONE = 4294967295
LARGEST = 1048575
WORDS = 39
HEADER = 10


def node(w, n):
    return w[HEADER + WORDS * n : HEADER + WORDS * (n + 1)]


def well_formed(w):
    if len(w) < HEADER:
        return False
    number, count, offset, root, height, pairs, first_free, free, seen, mark = w[:HEADER]
    if number != 2 or offset != HEADER:
        return False
    if not 1 <= count <= LARGEST or len(w) != HEADER + WORDS * count:
        return False

    met = []
    keys = []

    def sound(n, parent, index, depth):
        """The node n, reached along edge `index` of `parent`, and all below it."""
        if n >= count or n in met:
            return False
        met.append(n)
        x = node(w, n)
        state, length = x[0], x[1]
        if x[2] != parent or x[3] != index:
            return False
        if state != (1 if depth == height else 2):
            return False
        if n == root:
            least = 0 if state == 1 else 1
        else:
            least = 5
        if not least <= length <= 11:
            return False
        edges = length + 1 if state == 2 else 0
        if any(x[4 + length : 15]) or any(x[15 + length : 26]) or any(x[26 + edges : 38]):
            return False
        before = len(keys)
        for i in range(length):
            if state == 2 and not sound(x[26 + i], n, i, depth + 1):
                return False
            keys.append(x[4 + i])
        if state == 2 and not sound(x[26 + length], n, length, depth + 1):
            return False
        return x[38] == len(keys) - before

    if not sound(root, NONE, 0, 0):
        return False

    chain = []
    at = first_free
    while at != NONE:
        if at >= count or (chain and at <= chain[-1]):
            return False
        chain.append(at)
        x = node(w, at)
        if any(x[:2]) or any(x[3:]):
            return False
        at = x[2]

    if sorted(met + chain) != list(range(count)):
        return False
    if len(chain) != free or len(keys) != pairs:
        return False
    if any(a >= b for a, b in zip(keys, keys[1:])):
        return False
    if seen not in (0, 1):
        return False
    if keys and (seen != 1 or max(keys) > mark):
        return False
    return seen == 1 or mark == 0


def formatted(count):
    w = [2, count, HEADER, 0, 0, 0, 1 if count > 1 else NONE, count - 1, 0, 0]
    w += [1, 0, NONE] + [0] * 36
    for n in range(1, count):
        w += [0, 0, n + 1 if n + 1 < count else NONE] + [0] * 36
    return w


def damages(v):
    return [(v + 1) % 2**64, (v - 1) % 2**64, 0, 1, 2, 3, 4, 5, 6, 7, 11, 12, NONE, 2**64 - 1]


def leaf(w, n, index, keys):
    b = HEADER + WORDS * n
    w[b : b + 4] = [1, len(keys), 3, index]
    w[b + 4 : b + 4 + len(keys)] = keys
    w[b + 15 : b + 15 + len(keys)] = [k + 100 for k in keys]
    w[b + 38] = len(keys)


def tree():
    w = formatted(5)
    w[3:10] = [3, 1, 12, 1, 2, 1, 12]
    leaf(w, 0, 0, list(range(1, 7)))
    leaf(w, 4, 1, list(range(8, 13)))
    w[HEADER + WORDS * 1 + 2] = 2
    w[HEADER + WORDS * 2 + 2] = NONE
    b = HEADER + WORDS * 3
    w[b : b + 5] = [2, 1, NONE, 0, 7]
    w[b + 15] = 107
    w[b + 26 : b + 28] = [0, 4]
    w[b + 38] = 12
    return w


def every_word(w):
    assert well_formed(w)
    for i, v in enumerate(w):
        print("".join("04"[not well_formed(w[:i] + [x] + w[i + 1 :])] for x in damages(v)))


def short_leaf(w):
    b = HEADER + WORDS * 4
    w[5], w[b + 1], w[b + 8], w[b + 19], w[b + 38] = 11, 4, 0, 0, 4
    w[HEADER + WORDS * 3 + 38] = 11


def lost_node(w):
    w[7] = 1
    w[HEADER + WORDS * 1 + 2] = NONE


def empty_root(w):
    w[5], w[7] = 6, 3
    b = HEADER + WORDS * 3
    w[b : b + WORDS] = [2, 0, NONE] + [0] * 35 + [6]
    b = HEADER + WORDS * 4
    w[b : b + WORDS] = [0, 0, NONE] + [0] * 36
    w[HEADER + WORDS * 2 + 2] = 4


def falling(w):
    w[6] = 2
    w[HEADER + WORDS * 1 + 2] = NONE
    w[HEADER + WORDS * 2 + 2] = 1


def shifted_counts(w):
    w[HEADER + WORDS * 0 + 38] = 7
    w[HEADER + WORDS * 4 + 38] = 4


def main():
    print("".join("%d " % x for x in formatted(2)))
    every_word(formatted(1))
    w = [7] * 205
    for k in range(206):
        count, rest = divmod(k - HEADER, WORDS)
        good = rest == 0 and 1 <= count <= LARGEST
        if good:
            w[:k] = formatted(count)
        print("07"[not good] + "04"[not well_formed(w[:k])])
    every_word(tree())
    for made in short_leaf, lost_node, empty_root, falling, shifted_counts:
        w = tree()
        made(w)
        print("04"[not well_formed(w)])


if __name__ == "__main__":
    main()
