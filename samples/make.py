#!/usr/bin/env python3
"""Makes the sample layers: parcels.wkt and zones.wkt beside this file. Always the same ones.

Parcels share their borders with one another, some have a pond (a hole), and a few are missing. Zones have bent borders
that cross the parcels, some have a hole, one follows borders of parcels, and one crosses itself.
"""
import os
import random

HERE = os.path.dirname(os.path.abspath(__file__))
STEP = 900


def moved(rng, x, y, by):
    return (x + rng.randint(-by, by), y + rng.randint(-by, by))


def ring(points):
    return "(" + ", ".join("%d %d" % p for p in points + points[:1]) + ")"


def polygon(*rings):
    return "(" + ", ".join(map(ring, rings)) + ")"


def parcels(rng, corners):
    rows = []
    for i in range(len(corners) - 1):
        for j in range(len(corners) - 1):
            if rng.random() < 0.06:
                continue
            shell = [corners[i][j], corners[i + 1][j], corners[i + 1][j + 1], corners[i][j + 1]]
            if rng.random() < 0.08:
                x, y = i * STEP + STEP // 2, j * STEP + STEP // 2
                pond = [moved(rng, x - 120, y - 120, 40), moved(rng, x, y + 150, 40), moved(rng, x + 130, y - 90, 40)]
                rows.append("POLYGON " + polygon(shell, pond))
            else:
                rows.append("POLYGON " + polygon(shell))
    return rows


def border(rng, start, end, pieces):
    """The points of a bent line from start to end, without its end."""
    points = [start]
    for k in range(1, pieces):
        x = start[0] + (end[0] - start[0]) * k // pieces
        y = start[1] + (end[1] - start[1]) * k // pieces
        points.append(moved(rng, x, y, 140))
    return points


def turned(points, end):
    """The same line from its end, without its start."""
    return [end] + points[:0:-1]


def zones(rng, corners):
    count, step = 4, 2600
    at = [[moved(rng, 150 + i * step, -100 + j * step, 300) for j in range(count + 1)] for i in range(count + 1)]
    across = [[border(rng, at[i][j], at[i + 1][j], 6) for j in range(count + 1)] for i in range(count)]
    up = [[border(rng, at[i][j], at[i][j + 1], 6) for j in range(count)] for i in range(count + 1)]
    rows = []
    for i in range(count):
        for j in range(count):
            shell = across[i][j] + up[i + 1][j] + turned(across[i][j + 1], at[i + 1][j + 1]) + turned(up[i][j], at[i][j + 1])
            x, y = 150 + i * step + step // 2, -100 + j * step + step // 2
            if (i + j) % 3 == 0:
                hole = [moved(rng, x + dx, y + dy, 60) for dx, dy in ((-500, -400), (-450, 420), (60, 500), (480, 380), (500, -420), (0, -300))]
                rows.append("POLYGON " + polygon(shell, hole))
            else:
                rows.append("POLYGON " + polygon(shell))
    block = [corners[i][2] for i in range(2, 6)] + [corners[5][j] for j in range(3, 6)]
    block += [corners[i][5] for i in range(4, 1, -1)] + [corners[2][j] for j in range(4, 2, -1)]
    star = [moved(rng, 7600, 2000, 900) for _ in range(24)]
    far = [(9000, 9000), (9900, 9050), (9850, 9900), (9100, 9800)]
    rows.append("MULTIPOLYGON (" + polygon(block) + ", " + polygon(far) + ")")
    rows.append("POLYGON " + polygon(star))
    return rows


def main():
    rng = random.Random(20261122)
    corners = [[moved(rng, i * STEP, j * STEP, 250) for j in range(12)] for i in range(12)]
    for name, rows in (("parcels.wkt", parcels(rng, corners)), ("zones.wkt", zones(rng, corners))):
        with open(os.path.join(HERE, name), "w") as f:
            f.write("\n".join(rows) + "\n")


if __name__ == "__main__":
    main()
