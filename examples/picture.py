#!/usr/bin/env python3
"""picture.py BEFORE.off AFTER.off: writes a picture of two meshes of a terrain side by side, as SVG, to standard output.

Each is seen from the front and above, its triangles from the farthest to the nearest, with the light from the left."""
import os
import sys

sys.path.insert(0, os.path.join(os.path.dirname(os.path.abspath(__file__)), "..", "tools"))
from mesh_files import read_mesh  # noqa: E402 (the folder is told just above)

WIDTH, HEIGHT, TEXT = 420, 250, 26
LIGHT = (-0.5, -0.35, 0.79)


def seen(point):
    """Returns where a point stands in the picture, rightwards and downwards, and how far away it is."""
    x, y, z = point
    right, away = 0.87 * x + 0.5 * y, 0.87 * y - 0.5 * x
    return right, -(0.5 * away + 1.1 * z), away


def shade(corners):
    """Returns how much light a triangle has, from 0 to 1."""
    (ax, ay, az), (bx, by, bz), (cx, cy, cz) = corners
    ux, uy, uz, vx, vy, vz = bx - ax, by - ay, bz - az, cx - ax, cy - ay, cz - az
    normal = (uy * vz - uz * vy, uz * vx - ux * vz, ux * vy - uy * vx)
    size = sum(n * n for n in normal) ** 0.5 or 1
    return max(0.0, sum(n * l for n, l in zip(normal, LIGHT)) / size)


def drawn(mesh, place):
    """Returns the lines of the picture's triangles, from the farthest to the nearest."""
    triangles = []
    for face in mesh.faces:
        corners = [mesh.points[it] for it in face]
        light = shade(corners)
        colour = "#" + "".join(f"{round(dark + light * (bright - dark)):02x}" for dark, bright in ((38, 226), (62, 232), (70, 206)))
        path = " ".join("{:.1f},{:.1f}".format(*place(it)) for it in corners)
        triangles.append((-max(seen(it)[2] for it in corners), f'<polygon points="{path}" fill="{colour}"/>'))
    return [line for _, line in sorted(triangles)]


def picture(meshes):
    """Returns the lines of the whole picture, all meshes at one scale."""
    spots = [seen(it) for mesh, _ in meshes for it in mesh.points]
    left, top = min(it[0] for it in spots), min(it[1] for it in spots)
    scale = min((WIDTH - 20) / (max(it[0] for it in spots) - left), (HEIGHT - 20) / (max(it[1] for it in spots) - top))
    total = len(meshes) * WIDTH
    lines = [f'<svg xmlns="http://www.w3.org/2000/svg" width="{total}" height="{HEIGHT + TEXT}" '
             f'viewBox="0 0 {total} {HEIGHT + TEXT}" font-family="sans-serif" font-size="14">']
    lines.append(f'<rect width="{total}" height="{HEIGHT + TEXT}" fill="#ffffff"/>')
    lines.append('<g stroke="#26343a" stroke-width="0.5" stroke-linejoin="round">')
    for at, (mesh, _) in enumerate(meshes):
        def place(point, at=at):
            right, down, _ = seen(point)
            return at * WIDTH + 10 + (right - left) * scale, 10 + (down - top) * scale
        lines += drawn(mesh, place)
    lines.append("</g>")
    for at, (mesh, title) in enumerate(meshes):
        words = f"{title}: {len(mesh.points)} vertices, {len(mesh.faces)} triangles"
        lines.append(f'<text x="{at * WIDTH + WIDTH // 2}" y="{HEIGHT + 14}" text-anchor="middle">{words}</text>')
    return [*lines, "</svg>"]


if __name__ == "__main__":
    before, after = map(read_mesh, sys.argv[1:3])
    print("\n".join(picture([(before, "before"), (after, "after")])))
