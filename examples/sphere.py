#!/usr/bin/env python3
"""sphere.py FOLDER: writes one sphere of 162 points and 320 triangles to the folder, in each format of other tools.

sphere_ascii.ply, sphere_little.ply, sphere_big.ply, sphere.obj, sphere_ascii.stl and sphere_binary.stl. Its coordinates
are numbers of 32 bits, so that each file tells the same ones, and its points are in the order in which the triangles
name them, so that an STL file, which has no order of points, tells the same mesh too."""
import math
import os
import struct
import sys

MIDDLE, RADIUS = (120.0, -45.5, 8.25), 12.5


def icosahedron():
    """Returns an icosahedron, its triangles counterclockwise from outside."""
    g = (1 + math.sqrt(5)) / 2
    points = [(-1, g, 0), (1, g, 0), (-1, -g, 0), (1, -g, 0), (0, -1, g), (0, 1, g),
              (0, -1, -g), (0, 1, -g), (g, 0, -1), (g, 0, 1), (-g, 0, -1), (-g, 0, 1)]
    faces = [(0, 11, 5), (0, 5, 1), (0, 1, 7), (0, 7, 10), (0, 10, 11), (1, 5, 9), (5, 11, 4), (11, 10, 2), (10, 7, 6),
             (7, 1, 8), (3, 9, 4), (3, 4, 2), (3, 2, 6), (3, 6, 8), (3, 8, 9), (4, 9, 5), (2, 4, 11), (6, 2, 10), (8, 6, 7),
             (9, 8, 1)]
    return points, faces


def subdivided(points, faces):
    """Returns the mesh with each triangle cut into four by the middles of its edges."""
    points, middles = list(points), {}

    def middle(a, b):
        if (b, a) not in middles and (a, b) not in middles:
            middles[a, b] = len(points)
            points.append(tuple((x + y) / 2 for x, y in zip(points[a], points[b])))
        return middles.get((a, b), middles.get((b, a)))

    made = []
    for a, b, c in faces:
        ab, bc, ca = middle(a, b), middle(b, c), middle(c, a)
        made += [(a, ab, ca), (ab, b, bc), (ca, bc, c), (ab, bc, ca)]
    return points, made


def placed(point):
    """Returns the point moved onto the sphere, in numbers of 32 bits."""
    size = math.sqrt(sum(x * x for x in point))
    return struct.unpack("<3f", struct.pack("<3f", *(m + RADIUS * x / size for m, x in zip(MIDDLE, point))))


def sphere():
    """Returns the points of the sphere, in the order in which its triangles name them, and the triangles."""
    points, faces = subdivided(*subdivided(*icosahedron()))
    order = {}
    for face in faces:
        for corner in face:
            order.setdefault(corner, len(order))
    return [placed(points[corner]) for corner in order], [tuple(order[corner] for corner in face) for face in faces]


def ply(points, faces, form):
    """Returns the sphere as PLY, with a property and an element that no mesh needs."""
    head = ["ply", f"format {form} 1.0", "comment a sphere", f"element vertex {len(points)}"]
    head += ["property float x", "property float y", "property float z", "property uchar quality"]
    head += [f"element face {len(faces)}", "property list uchar int vertex_indices"]
    head += ["element edge 1", "property int vertex1", "property int vertex2", "end_header"]
    text = "\n".join(head) + "\n"
    if form == "ascii":
        text += "".join(f"{x!r} {y!r} {z!r} 7\n" for x, y, z in points)
        return (text + "".join(f"3 {a} {b} {c}\n" for a, b, c in faces) + "0 1\n").encode()
    order = "<" if form == "binary_little_endian" else ">"
    body = b"".join(struct.pack(order + "3fB", *it, 7) for it in points)
    body += b"".join(struct.pack(order + "B3i", 3, *it) for it in faces)
    return text.encode() + body + struct.pack(order + "2i", 0, 1)


def obj(points, faces):
    """Returns the sphere as OBJ, half of its faces with corners that count from the last point."""
    lines = ["# a sphere", "o sphere", *[f"v {x!r} {y!r} {z!r}" for x, y, z in points], "vn 0 0 1"]
    for at, face in enumerate(faces):
        corners = [it + 1 if at % 2 else it - len(points) for it in face]
        lines.append("f " + " ".join(f"{it}//1" for it in corners))
    return ("\n".join(lines) + "\n").encode()


def ascii_stl(points, faces):
    """Returns the sphere as ASCII STL."""
    lines = ["solid sphere"]
    for face in faces:
        lines += ["facet normal 0 0 0", " outer loop"]
        lines += [" vertex {!r} {!r} {!r}".format(*points[it]) for it in face]
        lines += [" endloop", "endfacet"]
    return ("\n".join([*lines, "endsolid sphere"]) + "\n").encode()


def binary_stl(points, faces):
    """Returns the sphere as binary STL, whose first words look like those of ASCII STL, as in files of some tools."""
    parts = [b"solid sphere".ljust(80), struct.pack("<I", len(faces))]
    parts += [struct.pack("<12fH", 0, 0, 0, *points[a], *points[b], *points[c], 0) for a, b, c in faces]
    return b"".join(parts)


def main(folder):
    """Writes the files."""
    mesh = sphere()
    files = {
        "sphere_ascii.ply": ply(*mesh, "ascii"),
        "sphere_little.ply": ply(*mesh, "binary_little_endian"),
        "sphere_big.ply": ply(*mesh, "binary_big_endian"),
        "sphere.obj": obj(*mesh),
        "sphere_ascii.stl": ascii_stl(*mesh),
        "sphere_binary.stl": binary_stl(*mesh),
    }
    for name, data in files.items():
        with open(os.path.join(folder, name), "wb") as file:
            file.write(data)


if __name__ == "__main__":
    main(sys.argv[1])
