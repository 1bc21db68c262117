#!/usr/bin/env python3
"""Asks floorwalk which of some shelves is nearest to walk to. Floorwalk is run as a process: a floor and trips go in, answers come out."""
import functools
import pathlib
import subprocess

FLOORWALK = pathlib.Path(__file__).resolve().parent.parent / "floorwalk"

# The packing desk stands at the fire wall, which is open at the south end only. One store has no door.
FLOOR = """\
..........##........#...
.####.###.##.###.##.#...
..........##........####
..........##............
.####.###.##.####.####..
..........##............
..........##............
.####.###....####.####..
........................
"""
DESK = (9, 3)
SHELVES = {
    "screws": (12, 3),
    "paint": (1, 2),
    "rope": (6, 5),
    "lamps": (17, 6),
    "safes": (22, 1),
    "nails": (3, 7),
}
REFUSED = {"9": "the start is outside or blocked", "10": "the goal is outside or blocked", "12": "no walk leads there"}


def floorwalk(rows, trips):
    """What floorwalk says of the floor, and the numbers and the cells of each answer."""
    lines = ["%d %d" % (len(rows[0]), len(rows)), *rows, *("%d %d %d %d" % (*start, *goal) for start, goal in trips)]
    text = "\n".join(lines) + "\n"
    done = subprocess.run([FLOORWALK], input=text, stdout=subprocess.PIPE, encoding="ascii", check=True)
    about, *answers = done.stdout.splitlines()
    if len(answers) != len(trips):
        raise SystemExit("floorwalk: " + done.stdout.splitlines()[-1])
    return about, [(numbers.split(), cells.split()) for numbers, _, cells in (a.partition(" :") for a in answers)]


def octile(a, b):
    """The length of the direct line, as straight and diagonal steps: what the map alone says."""
    dx, dy = abs(a[0] - b[0]), abs(a[1] - b[1])
    return abs(dx - dy), min(dx, dy)


def compare(x, y):
    """The order of two lengths, exactly: p against q times the root of 2 by their squares, each with its sign."""
    p, q = x[0] - y[0], y[1] - x[1]
    left, right = p * abs(p), 2 * q * abs(q)
    return (left > right) - (left < right)


def nearest_first(lengths):
    return sorted(lengths, key=functools.cmp_to_key(lambda a, b: compare(lengths[a], lengths[b])))


def told(length):
    return "%d straight, %d diagonal" % length


def main():
    rows = FLOOR.splitlines()
    about, answers = floorwalk(rows, [(DESK, cell) for cell in SHELVES.values()])
    print("floorwalk says: %s" % about)
    print("%-7s  %-8s  %-23s  %s" % ("shelf", "cell", "on the map", "on foot"))
    on_map, on_foot = {}, {}
    for (shelf, cell), (numbers, cells) in zip(SHELVES.items(), answers):
        code, straight, diagonal, count, effort, _ = numbers
        on_map[shelf] = octile(DESK, cell)
        if code == "0":
            on_foot[shelf] = (int(straight), int(diagonal))
            said = "%s; %s cells, effort %s" % (told(on_foot[shelf]), count, effort)
            assert int(count) == len(cells)
        else:
            said = REFUSED.get(code, "refused by " + code)
        print("%-7s  (%2d, %2d)  %-23s  %s" % (shelf, *cell, told(on_map[shelf]), said))
    print("nearest first, on the map: " + ", ".join(nearest_first(on_map)))
    print("nearest first, on foot:    " + ", ".join(nearest_first(on_foot)))


if __name__ == "__main__":
    main()
