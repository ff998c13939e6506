"""Part files by hand: polygons and a job to bytes, as document 01 lays them out."""
import struct

PLANE, CYLINDER, REVOLVED, OTHER = range(4)
CNC, SHEET, FDM, SLA, SLS = range(5)


def entry(feature, index, first, count, kind=PLANE, axis=(0.0,) * 7):
    return struct.pack("<6I7d", feature, index, first, count, kind, 0, *axis)


def job(process=CNC, flags=0, up=(0.0, 1.0, 0.0), layer=0.2, nozzle=0.0, min_wall=0.8, min_hole=2.0, tenths=0, cls=0, ratio=0, wall=0.0, name=b"", length=None):
    size = len(name) if length is None else length
    return struct.pack("<2I7d4Id40s", process, flags, *up, layer, nozzle, min_wall, min_hole, tenths, cls, ratio, size, wall, name)


def trailer(vertices, polygons, edition=1, back=None):
    return struct.pack("<4I", edition, vertices, polygons, 80 * polygons + 144 if back is None else back)


def part(polygons, job_bytes):
    """polygons: (feature, index, vertices) or (feature, index, vertices, kind, axis)."""
    vertices, entries, first = b"", b"", 0
    for polygon in polygons:
        feature, index, points = polygon[:3]
        vertices += b"".join(struct.pack("<3d", *p) for p in points)
        entries += entry(feature, index, first, len(points), *polygon[3:])
        first += len(points)
    return vertices + entries + job_bytes + trailer(first, len(polygons))


def box(lo, hi, feature=1, inward=False):
    """Six planes: bottom and top (z), then the four sides."""
    (a, b, c), (x, y, z) = lo, hi
    faces = [
        [(a, b, c), (a, y, c), (x, y, c), (x, b, c)],
        [(a, b, z), (x, b, z), (x, y, z), (a, y, z)],
        [(a, b, c), (x, b, c), (x, b, z), (a, b, z)],
        [(x, b, c), (x, y, c), (x, y, z), (x, b, z)],
        [(x, y, c), (a, y, c), (a, y, z), (x, y, z)],
        [(a, y, c), (a, b, c), (a, b, z), (a, y, z)],
    ]
    return [(feature, i, f[::-1] if inward else f) for i, f in enumerate(faces)]


def plate():
    """The plate of document 01: 20 by 20 by 0.5 with its corner at zero."""
    return box((0.0, 0.0, 0.0), (20.0, 20.0, 0.5))


def bore(radius, length, facets=40, feature=2, index=0, inward=True):
    """The wall of a bore along z from 0 up: a face of quads whose normals look at the axis, or a pin's, whose look away."""
    import math

    points = [(radius * math.cos(2 * math.pi * i / facets), radius * math.sin(2 * math.pi * i / facets)) for i in range(facets)]
    axis = (0.0, 0.0, 0.0, 0.0, 0.0, 1.0, radius)
    quads = []
    for i in range(facets):
        (a, b), (c, d) = points[i], points[(i + 1) % facets]
        quad = [(a, b, 0.0), (c, d, 0.0), (c, d, length), (a, b, length)]
        quads.append((feature, index, quad[::-1] if inward else quad, CYLINDER, axis))
    return quads


def ring(x, y, radius, low, high, feature, corners=32):
    """A hole of one polygon, round an axis along z: all its corners lie at `high` but one, which gives it its length."""
    import math

    angles = [2 * math.pi * i / corners for i in range(corners)]
    points = [(x + radius * math.cos(t), y + radius * math.sin(t), low if i == corners // 2 else high) for i, t in enumerate(angles)]
    return (feature, 0, points[::-1], CYLINDER, (x, y, low, 0.0, 0.0, 1.0, radius))


def holed_plate(at, radius=1.0):
    """A plate 40 by 20 by 1 with rings for holes at these places, each joined to the top by one triangle."""
    polygons = box((0.0, 0.0, 0.0), (40.0, 20.0, 1.0))
    for i, (x, y) in enumerate(at):
        hole = ring(x, y, radius, 0.0, 1.0, feature=2 + i)
        a, b = hole[2][-1], hole[2][0]
        polygons += [hole, (1, 1, [a, b, (x + 2 * radius, y - radius, 1.0)])]
    return polygons
