# Makes the list that crates/batches is compared with: batches and restores on the plain B-tree of tree.py, refused as document 01's table
# has it. An arena or an image is a tree, or words of which damage.py says that they are none. The gate does not run it.
#   python3 docs/oracle/batches.py > crates/batches/stdout
import copy

from damage import well_formed
from tree import Tree


def words(a):
    return a.words() if isinstance(a, Tree) else a


def good(a):
    assert well_formed(words(a)) == isinstance(a, Tree)
    return isinstance(a, Tree)


def run(a, orders, answers):
    number = 7 if len(orders) % 3 or 3 * len(answers) != 2 * len(orders) else 4 if not good(a) else 0
    if number == 0:
        answers = [x for i in range(0, len(orders), 3) for x in a.order(*orders[i : i + 3])]
    print(number, 0)
    print("".join("%d " % x for x in answers))
    print("".join("%d " % x for x in words(a)))


# The image's mark is lower than the arena's, which was seen.
def lower(image, a):
    return a.seen and (not image.seen or image.mark < a.mark)


# The arena after it.
def bring_back(a, image, older):
    number = 7 if len(words(a)) != len(words(image)) else 4 if not good(a) else 8 if not good(image) else 12 if not older and lower(image, a) else 0
    if number == 0:
        seen, mark, a = a.seen, a.mark, copy.deepcopy(image)
        a.seen, a.mark = max(seen, a.seen), max(mark, a.mark)
    print(number, 0)
    print("".join("%d " % x for x in words(a)))
    return a


# Four new pairs a batch.
def puts(a, pairs):
    for i in range(0, len(pairs), 4):
        run(a, [x for key, val in pairs[i : i + 4] for x in (1, key, val)], [9] * 8)


def no_arena():
    a = [7] * 49
    run(a, [1, 5, 50, 1], [9, 9])
    run(a, [1, 5, 50], [9, 9, 9])
    run(a, [1, 5, 50], [9, 9])
    run(a, [], [])
    a = bring_back(a, [7] * 88, False)
    a = bring_back(a, [7] * 49, False)


def no_image():
    a, image = Tree(1), Tree(1)
    wrong = image.words()
    wrong[5] = 1
    run(a, [1, 5, 50], [9, 9])
    a = bring_back(a, [7] * 88, False)
    a = bring_back(a, wrong, False)
    run(a, [2, 5, 0, 1], [9, 9])
    run(a, [2, 5, 0], [9, 9])
    a = bring_back(a, image, False)
    a = bring_back(a, image, True)
    run(a, [2, 5, 0], [9, 9])


def nonces():
    a = Tree(1)
    run(a, [1, 9, 90], [9, 9])
    image = copy.deepcopy(a)
    run(a, [1, 12, 120], [9, 9])
    later = copy.deepcopy(a)
    a = bring_back(a, image, False)
    a = bring_back(a, image, True)
    run(a, [2, 9, 0, 2, 12, 0], [9] * 4)
    a = Tree(1)
    run(a, [1, 3, 30], [9, 9])
    a = bring_back(a, later, False)
    a = bring_back(a, later, False)
    blank, a = Tree(1), Tree(1)
    a = bring_back(a, blank, False)
    run(a, [4, 0, 0], [9, 9])
    a = bring_back(a, blank, False)


def reserves():
    a = Tree(1)
    run(a, [4, 0, 7, 4, 0, 7, 1, 5, 50, 4, 9, 7], [9] * 8)
    run(a, [4, 9, 7, 1, 7, 70, 4, 10, 7, 5, 11, 7], [9] * 8)


def no_room():
    a = Tree(1)
    puts(a, [(10 * i, i) for i in range(1, 13)])
    run(a, [1, 5, 0, 9, 50, 5, 0, 50, 5, 1, 50, 55], [9] * 8)
    run(a, [3, 10, 0, 3, 10, 0, 1, 120, 12, 1, 5, 0], [9] * 8)


def split():
    a = Tree(3)
    puts(a, [(i, 100 + i) for i in range(1, 13)])
    image = copy.deepcopy(a)
    run(a, [3, 12, 0, 3, 7, 0, 1, 20, 120], [9] * 6)
    a = bring_back(a, image, True)
    run(a, [3, 12, 0, 3, 7, 0, 2, 20, 0], [9] * 6)


for part in no_arena, no_image, nonces, reserves, no_room, split:
    part()
