#!/usr/bin/env python3
"""thinning.py MESH.off TARGET OUT.off: thins a mesh by the definitions, as `simplify` with no bound, and prints the steps.

It is written from docs/DEFINITIONS.md and not from the program, and looks at each pair of neighbours before each step: so
the program's steps and mesh can be held to it, on small meshes. All vertices count as held."""
import os
import sys

sys.path.insert(0, os.path.join(os.path.dirname(os.path.abspath(__file__)), "..", "tools"))
from mesh_files import read_mesh  # noqa: E402 (the folder is told just above)


def plane(a, b, c):
    """Returns the plane of a triangle: the normal (b - a) x (c - a), and the offset."""
    (ux, uy, uz), (vx, vy, vz) = ([q - p for p, q in zip(a, it)] for it in (b, c))
    normal = uy * vz - uz * vy, uz * vx - ux * vz, ux * vy - uy * vx
    return *normal, -dot(normal, a)


def dot(one, other):
    """Returns the dot product of two vectors of three."""
    return sum(p * q for p, q in zip(one[:3], other[:3]))


def turned(triangle):
    """Returns the triangle with its least name first."""
    at = triangle.index(min(triangle))
    return triangle[at:] + triangle[:at]


class Thinning:
    """A mesh under way: points, triangles, and the planes that each vertex has gathered."""

    def __init__(self, mesh):
        self.points = [tuple(map(int, it)) for it in mesh.points]
        self.triangles = {turned(tuple(it)) for it in mesh.faces}
        self.planes = {name: [] for name in range(len(self.points))}
        for triangle in self.triangles:
            for name in triangle:
                self.planes[name].append(plane(*(self.points[it] for it in triangle)))

    def look(self):
        """Notes each vertex's triangles and neighbours, and the directed edges."""
        self.stars = {name: [] for name in self.planes}
        for triangle in self.triangles:
            for name in triangle:
                self.stars[name].append(triangle)
        self.near = {name: {it for triangle in star for it in triangle} - {name} for name, star in self.stars.items()}
        self.edges = {(it[at], it[(at + 1) % 3]) for it in self.triangles for at in range(3)}

    def is_closed(self, name):
        """Returns whether the vertex has triangles and none of its edges is on the border."""
        return bool(self.stars[name]) and all({(name, it), (it, name)} <= self.edges for it in self.near[name])

    def folds(self, u, v):
        """Returns whether a triangle of u without v turns over where v takes the place of u."""
        for triangle in self.stars[u]:
            old = plane(*(self.points[it] for it in triangle))
            new = plane(*(self.points[v if it == u else it] for it in triangle))
            if v not in triangle and any(old[:3]) and dot(old, new) <= 0:
                return True
        return False

    def is_done(self, u, v):
        """Returns whether v, a neighbour of u, may take its place: the border, the link condition, rings of three, folds."""
        opposite = {it for triangle in self.stars[u] if v in triangle for it in triangle} - {u, v}
        if not self.is_closed(u) or self.near[u] & self.near[v] != opposite:
            return False
        by_three = len(self.near[u]) == 3 and self.is_closed(v) and len(self.near[v]) == 3
        return not by_three and not self.folds(u, v)

    def cost(self, u, v):
        """Returns the squares of the planes of u and of v at the point of v, summed."""
        return sum((dot(it, self.points[v]) + it[3]) ** 2 for it in self.planes[u] + self.planes[v])

    def collapse(self, u, v):
        """Puts v in the place of u."""
        for triangle in self.stars[u]:
            self.triangles.discard(triangle)
            if v not in triangle:
                self.triangles.add(turned(tuple(v if it == u else it for it in triangle)))
        self.planes[v] += self.planes.pop(u)

    def step(self):
        """Makes the least collapse that is done, by cost and then by names, and returns it, or None."""
        self.look()
        for cost, u, v in sorted((self.cost(u, v), u, v) for u in self.near for v in self.near[u]):
            if self.is_done(u, v):
                self.collapse(u, v)
                return u, v, cost
        return None

    def off(self):
        """Returns the mesh as OFF, as the program writes it."""
        names = {name: place for place, name in enumerate(sorted(self.planes))}
        lines = ["OFF", f"{len(names)} {len(self.triangles)} 0"]
        lines += ["{} {} {}".format(*self.points[name]) for name in names]
        lines += ["3 {} {} {}".format(*(names[it] for it in triangle)) for triangle in sorted(self.triangles)]
        return "\n".join(lines) + "\n"


def main(mesh, target, out):
    """Thins the mesh, prints the steps, and writes what is left."""
    thinning = Thinning(read_mesh(mesh))
    while len(thinning.triangles) > target:
        step = thinning.step()
        if step is None:
            break
        print("  collapse {} {} {}".format(*step))
    print("  simplified", len(thinning.triangles))
    with open(out, "w", encoding="utf-8") as file:
        file.write(thinning.off())


if __name__ == "__main__":
    main(sys.argv[1], int(sys.argv[2]), sys.argv[3])
