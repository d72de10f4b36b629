#!/usr/bin/env python3
"""from_grid.py GRID IN OUT: puts a result of oemm back into the units of the mesh that to_grid.py took.

GRID is the file that to_grid.py wrote beside its output, IN an OFF or PLY mesh on that grid, and OUT ends in .ply or
.obj. OBJ has each coordinate exactly. PLY is binary; its coordinates are of the type float, or double where float would
move a point by more than a hundredth of a step. The exit status is 0, 1 where a file can't be read or written, and 2
for wrong words. This tool is tested, and nothing of it is proved.
"""
import argparse
import json
import struct
import sys

from mesh_files import Mesh, MeshError, read_mesh, write_obj, write_ply

LEAST_OF_STEP = 0.01    # float is used while it moves no point by more than this part of a step


def read_grid(path):
    """Returns the step and the middle that a file of to_grid.py keeps."""
    with open(path, encoding="utf-8") as file:
        try:
            said = json.load(file)
            step, middle = float(said["step"]), [float(it) for it in said["middle"]]
        except (ValueError, KeyError, TypeError):
            raise MeshError(f"{path} isn't a file of to_grid.py") from None
    if len(middle) != 3 or not step > 0:
        raise MeshError(f"{path} isn't a file of to_grid.py")
    return step, middle


def put_back(mesh, step, middle):
    """Returns the mesh in the units that it came from."""
    return Mesh([tuple(m + g * step for g, m in zip(point, middle)) for point in mesh.points], mesh.faces)


def kind_for(mesh, step):
    """Returns 'float' where that tells each coordinate well enough, else 'double'."""
    for point in mesh.points:
        try:
            short = struct.unpack("<3f", struct.pack("<3f", *point))
        except OverflowError:
            return "double"
        if any(abs(a - b) > LEAST_OF_STEP * step for a, b in zip(point, short)):
            return "double"
    return "float"


def words_of(arguments):
    """Returns the words of the command line."""
    parser = argparse.ArgumentParser(description=__doc__, formatter_class=argparse.RawDescriptionHelpFormatter)
    parser.add_argument("grid", metavar="GRID")
    parser.add_argument("mesh", metavar="IN")
    parser.add_argument("out", metavar="OUT")
    words = parser.parse_args(arguments)
    if not words.out.endswith((".ply", ".obj")):
        parser.error("OUT ends in .ply or .obj")
    return words


def main(arguments):
    """Reads GRID and IN, writes OUT, and returns the exit status."""
    words = words_of(arguments)
    try:
        step, middle = read_grid(words.grid)
        mesh = put_back(read_mesh(words.mesh), step, middle)
        if words.out.endswith(".obj"):
            write_obj(words.out, mesh)
        else:
            write_ply(words.out, mesh, kind_for(mesh, step))
    except (MeshError, OSError) as error:
        print(f"from_grid: {error}", file=sys.stderr)
        return 1
    print("vertices", len(mesh.points), "faces", len(mesh.faces))
    return 0


if __name__ == "__main__":
    sys.exit(main(sys.argv[1:]))
