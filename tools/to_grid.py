#!/usr/bin/env python3
"""to_grid.py [--step STEP] IN OUT: puts a mesh of another tool on the 16-bit grid, as OFF or binary PLY for oemm.

IN is PLY (ASCII or binary, coordinates of any type), OBJ, STL (ASCII or binary) or OFF; OUT ends in .off or .ply.
A point is put on the nearest point of the grid: whole numbers of steps from the middle of the mesh's box. The step is
the finest that fits, or the given one. Points that fall together are joined, polygons are split into fans of triangles,
and triangles that lose a corner or come twice are dropped. Step and middle are kept in OUT.grid, by which from_grid.py
puts a result back. What was joined and dropped is told on standard output, with the largest rounding error.

This tool is tested, and nothing of it is proved. It mends no mesh: whether the result is an oriented 2-manifold is told
by oemm. The exit status is 0, 1 where the mesh can't be read, put on the grid or written, and 2 for wrong words.
"""
import argparse
import json
import math
import sys

from mesh_files import Mesh, MeshError, read_mesh, write_off, write_ply

GRID_LIMIT = 32767      # a coordinate of the grid is at most this in size (the grid's -32768 isn't used)
MOST_VERTICES = 4096    # oemm reads no more today


def box_of(points):
    """Returns the low and the high corner of the points."""
    axes = list(zip(*points))
    return [min(axis) for axis in axes], [max(axis) for axis in axes]


def grid_of(points, step):
    """Returns step and middle of the grid on which the points are put; a step of None asks for the finest that fits."""
    low, high = box_of(points)
    middle = [(a + b) / 2 for a, b in zip(low, high)]
    finest = max(b - a for a, b in zip(low, high)) / (2 * GRID_LIMIT)
    if not math.isfinite(finest + sum(middle)):
        raise MeshError("the coordinates are too great")
    if step is None:
        step = finest or 1.0
    if step < finest * (1 - 1e-9):
        raise MeshError(f"with the step {step!r} the mesh doesn't fit the grid; the finest step that fits is {finest!r}")
    return step, middle


def place_on(point, step, middle):
    """Returns the nearest point of the grid."""
    return tuple(max(-GRID_LIMIT, min(GRID_LIMIT, round((p - m) / step))) for p, m in zip(point, middle))


def rounding_error(point, placed, step, middle):
    """Returns by how much the point's coordinates are off on the grid, at most."""
    return max(abs(p - (m + g * step)) for p, g, m in zip(point, placed, middle))


def fan(corners):
    """Returns the triangles of a polygon, all from its first corner; of fewer than three corners, just these."""
    if len(corners) < 3:
        return [tuple(corners)]
    return [(corners[0], *pair) for pair in zip(corners[1:], corners[2:])]


def turned(triangle):
    """Returns the triangle with its least corner first."""
    at = triangle.index(min(triangle))
    return triangle[at:] + triangle[:at]


def put_on_grid(mesh, step):
    """Returns the mesh on the grid, its step and middle, and what was joined, split and dropped."""
    if not mesh.points:
        raise MeshError("the mesh has no point")
    step, middle = grid_of(mesh.points, step)
    placed = [place_on(point, step, middle) for point in mesh.points]
    told = {
        "points joined by equal coordinates": mesh.joined,
        "points joined on the grid": len(placed) - len(set(placed)),
        "polygons split": 0,
        "faces dropped that lost a corner": 0,
        "faces dropped that came twice": 0,
        "largest rounding error": max(rounding_error(p, g, step, middle) for p, g in zip(mesh.points, placed)),
    }
    places = {}
    for point in placed:
        places.setdefault(point, len(places))
    faces = {}
    for face in mesh.faces:
        told["polygons split"] += len(face) > 3
        for triangle in fan([places[placed[corner]] for corner in face]):
            if len(set(triangle)) < 3:
                told["faces dropped that lost a corner"] += 1
            elif turned(triangle) in faces:
                told["faces dropped that came twice"] += 1
            else:
                faces[turned(triangle)] = None
    return Mesh(list(places), list(faces)), step, middle, told


def tell(mesh, step, middle, told):
    """Tells what was made."""
    for what, number in told.items():
        print(what, repr(number))
    print("step", repr(step), "middle", *map(repr, middle))
    print("vertices", len(mesh.points), "faces", len(mesh.faces))
    if len(mesh.points) > MOST_VERTICES:
        print(f"note: oemm reads meshes of up to {MOST_VERTICES} vertices today")


def words_of(arguments):
    """Returns the words of the command line."""
    parser = argparse.ArgumentParser(description=__doc__, formatter_class=argparse.RawDescriptionHelpFormatter)
    parser.add_argument("--step", type=float, help="the distance of neighbours on the grid, in the units of IN")
    parser.add_argument("mesh", metavar="IN")
    parser.add_argument("out", metavar="OUT")
    words = parser.parse_args(arguments)
    if not words.out.endswith((".off", ".ply")):
        parser.error("OUT ends in .off or .ply")
    if words.step is not None and not 0 < words.step < float("inf"):
        parser.error("STEP is above 0")
    return words


def main(arguments):
    """Reads IN, writes OUT and OUT.grid, and returns the exit status."""
    words = words_of(arguments)
    try:
        mesh, step, middle, told = put_on_grid(read_mesh(words.mesh), words.step)
        if words.out.endswith(".off"):
            write_off(words.out, mesh)
        else:
            write_ply(words.out, mesh, "short")
        with open(f"{words.out}.grid", "w", encoding="utf-8") as file:
            json.dump({"step": step, "middle": middle}, file)
            file.write("\n")
    except (MeshError, OSError) as error:
        print(f"to_grid: {error}", file=sys.stderr)
        return 1
    tell(mesh, step, middle, told)
    return 0


if __name__ == "__main__":
    sys.exit(main(sys.argv[1:]))
