"""Random layers, by a seed. As a program: writes a pair of them to two files."""

import random
import sys


def layer(draw, reach):
    """A layer of up to six polygons of any shape, their corners up to so far from the origin."""
    polygons = []
    for _ in range(draw.randint(0, 6)):
        ring = [(draw.randint(-reach, reach), draw.randint(-reach, reach)) for _ in range(draw.randint(3, 12))]
        ring.append(ring[0])
        polygons.append("POLYGON ((%s))" % ", ".join("%d %d" % point for point in ring))
    return "\n".join(polygons)


def pair(seed):
    draw = random.Random(seed)
    reach = draw.choice((5, 20, 100, 10000))
    return layer(draw, reach), layer(draw, reach)


if __name__ == "__main__":
    for text, name in zip(pair(int(sys.argv[1])), sys.argv[2:]):
        with open(name, "w") as file:
            file.write(text)
