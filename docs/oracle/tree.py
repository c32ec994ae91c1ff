# A plain B-tree of nodes written from document 01's rules for insertion, removal and repair: what the other files here run.
MOST, LEAST, NONE = 11, 5, 2**32 - 1


class Node:
    def __init__(self, leaf):
        self.leaf, self.keys, self.vals, self.edges = leaf, [], [], []


class Tree:
    def __init__(self, count):
        self.count = count
        self.nodes = {0: Node(True)}
        self.root, self.height, self.free = 0, 0, list(range(1, count))
        self.seen, self.mark, self.pairs = 0, 0, 0

    def find(self, key):
        way, n = [], self.root
        while True:
            node = self.nodes[n]
            i = sum(k < key for k in node.keys)
            way.append((n, i))
            if i < len(node.keys) and node.keys[i] == key:
                return way, True
            if node.leaf:
                return way, False
            n = node.edges[i]

    def get(self, key):
        way, there = self.find(key)
        n, i = way[-1]
        return (1, self.nodes[n].vals[i]) if there else (2, 0)

    def put(self, key, val):
        way, there = self.find(key)
        n, i = way[-1]
        if there:
            old = self.nodes[n].vals[i]
            self.nodes[n].vals[i] = val
            return (1, old)
        need = 0
        for n, i in reversed(way):
            if len(self.nodes[n].keys) < MOST:
                break
            need += 1
        else:
            need += 1
        if need > len(self.free):
            return (3, 0)
        self.insert(way, key, val, None)
        self.pairs += 1
        self.mark = max(self.mark, key) if self.seen else key
        self.seen = 1
        return (0, 0)

    # The pair, and the edge right of it, into the last node of the way; a full one is split first.
    def insert(self, way, key, val, edge):
        n, i = way[-1]
        node = self.nodes[n]
        if len(node.keys) < MOST:
            self.fit(node, i, key, val, edge)
            return
        place, left, at = (4, True, i) if i < 5 else (5, True, i) if i == 5 else (5, False, 0) if i == 6 else (6, False, i - 7)
        m = self.free.pop(0)
        right = self.nodes[m] = Node(node.leaf)
        up = node.keys[place], node.vals[place]
        right.keys, node.keys = node.keys[place + 1:], node.keys[:place]
        right.vals, node.vals = node.vals[place + 1:], node.vals[:place]
        if not node.leaf:
            right.edges, node.edges = node.edges[place + 1:], node.edges[:place + 1]
        self.fit(node if left else right, at, key, val, edge)
        if len(way) > 1:
            self.insert(way[:-1], up[0], up[1], m)
            return
        top = self.free.pop(0)
        root = self.nodes[top] = Node(False)
        root.keys, root.vals, root.edges = [up[0]], [up[1]], [n, m]
        self.root, self.height = top, self.height + 1

    def fit(self, node, i, key, val, edge):
        node.keys.insert(i, key)
        node.vals.insert(i, val)
        if edge is not None:
            node.edges.insert(i + 1, edge)

    def delete(self, key):
        way, there = self.find(key)
        if not there:
            return (2, 0)
        n, i = way[-1]
        val = self.nodes[n].vals[i]
        if self.nodes[n].leaf:
            self.take(way)
        else:
            while not self.nodes[n].leaf:
                n = self.nodes[n].edges[way[-1][1]]
                way.append((n, len(self.nodes[n].edges) - 1))
            way[-1] = (n, len(self.nodes[n].keys) - 1)
            pair = self.take(way)
            n, i = self.find(key)[0][-1]
            self.nodes[n].keys[i], self.nodes[n].vals[i] = pair
        self.pairs -= 1
        return (1, val)

    # One order by its code.
    # A key above the mark becomes the mark.
    def reserve(self, key):
        if self.seen and key <= self.mark:
            return 11, 0
        self.seen, self.mark = 1, key
        return 0, 0

    def order(self, code, key, val):
        calls = {1: lambda: self.put(key, val), 2: lambda: self.get(key), 3: lambda: self.delete(key), 4: lambda: self.reserve(key)}
        return calls.get(code, lambda: (6, 0))()

    # The pair out of its leaf, and the repair upwards.
    def take(self, way):
        n, i = way[-1]
        pair = self.nodes[n].keys.pop(i), self.nodes[n].vals.pop(i)
        self.repair([n for n, i in way], [i for n, i in way])
        return pair

    def repair(self, ns, at):
        node = self.nodes[ns[-1]]
        if len(ns) == 1:
            if not node.leaf and not node.keys:
                self.root, self.height = node.edges[0], self.height - 1
                self.give(ns[-1])
            return
        if len(node.keys) >= LEAST:
            return
        p, i = self.nodes[ns[-2]], at[-2]
        k = i - 1 if i > 0 else i
        if self.merges(p, k):
            self.merge(p, k)
            self.repair(ns[:-1], at[:-1])
        else:
            self.move(p, k, i > 0)

    # The children left and right of the pair k of a node fit into one.
    def merges(self, p, k):
        return len(self.nodes[p.edges[k]].keys) + 1 + len(self.nodes[p.edges[k + 1]].keys) <= MOST

    # They become one: the left is kept, the right returned.
    def merge(self, p, k):
        l, r = self.nodes[p.edges[k]], self.nodes[p.edges[k + 1]]
        l.keys += [p.keys.pop(k)] + r.keys
        l.vals += [p.vals.pop(k)] + r.vals
        l.edges += r.edges
        self.give(p.edges.pop(k + 1))

    # One pair moves through the parent, to the right or to the left.
    def move(self, p, k, right):
        l, r = self.nodes[p.edges[k]], self.nodes[p.edges[k + 1]]
        if right:
            r.keys.insert(0, p.keys[k])
            r.vals.insert(0, p.vals[k])
            p.keys[k], p.vals[k] = l.keys.pop(), l.vals.pop()
            if not l.leaf:
                r.edges.insert(0, l.edges.pop())
        else:
            l.keys.append(p.keys[k])
            l.vals.append(p.vals[k])
            p.keys[k], p.vals[k] = r.keys.pop(0), r.vals.pop(0)
            if not l.leaf:
                l.edges.append(r.edges.pop(0))

    # The repair of the right or the left border: empty tops are dropped, then the border is gone down, then empty tops are dropped again.
    def fix_border(self, right):
        self.drop_tops()
        node = self.nodes[self.root]
        while not node.leaf:
            node = self.fix_child(node, right)
        self.drop_tops()

    def drop_tops(self):
        while self.height > 0 and not self.nodes[self.root].keys:
            top = self.root
            self.root, self.height = self.nodes[top].edges[0], self.height - 1
            self.give(top)

    # The border child is merged with its sibling where 11 allows, else stocked to 6 if it holds fewer.
    def fix_child(self, p, right):
        k = len(p.keys) - 1 if right else 0
        if self.merges(p, k):
            self.merge(p, k)
            return self.nodes[p.edges[k]]
        child = self.nodes[p.edges[k + 1 if right else k]]
        while len(child.keys) < LEAST + 1:
            self.move(p, k, right)
        return child

    def give(self, n):
        del self.nodes[n]
        self.free = sorted(self.free + [n])

    def below(self, n):
        """The pairs in node n and below it."""
        node = self.nodes[n]
        return len(node.keys) + sum(self.below(c) for c in node.edges)

    def words(self):
        links = {self.root: (NONE, 0)}
        for n, node in self.nodes.items():
            for i, c in enumerate(node.edges):
                links[c] = (n, i)
        first = self.free[0] if self.free else NONE
        w = [2, self.count, 10, self.root, self.height, self.pairs, first, len(self.free), self.seen, self.mark]
        pad = lambda l, k: l + [0] * (k - len(l))
        for n in range(self.count):
            if n in self.nodes:
                node = self.nodes[n]
                w += [1 if node.leaf else 2, len(node.keys), *links[n]]
                w += pad(node.keys, MOST) + pad(node.vals, MOST) + pad(node.edges, MOST + 1) + [self.below(n)]
            else:
                i = self.free.index(n)
                w += pad([0, 0, self.free[i + 1] if i + 1 < len(self.free) else NONE], 39)
        return w
