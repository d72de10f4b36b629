#!/usr/bin/env python3
"""check_tools.py OEMM: checks tools/to_grid.py and tools/from_grid.py, with oemm itself as the program OEMM.

One sphere in each format gives the same grid mesh, which oemm takes; a round trip is within half a step; and small meshes
whose grid meshes are told by hand show what is joined, split, dropped and refused."""
import contextlib
import io
import json
import os
import subprocess
import sys
import tempfile
import unittest

HERE = os.path.dirname(os.path.abspath(__file__))
TOOLS = os.path.join(os.path.dirname(HERE), "tools")
sys.path.insert(0, TOOLS)
import from_grid  # noqa: E402 (their folder is told just above)
import sphere  # noqa: E402
import to_grid  # noqa: E402
from mesh_files import read_mesh  # noqa: E402

OEMM = os.path.abspath(sys.argv.pop(1)) if len(sys.argv) > 1 else ""
SPHERES = ["sphere_ascii.ply", "sphere_little.ply", "sphere_big.ply", "sphere.obj", "sphere_ascii.stl", "sphere_binary.stl"]


class Case(unittest.TestCase):
    """A test in a folder of its own."""

    def setUp(self):
        room = tempfile.TemporaryDirectory()
        self.addCleanup(room.cleanup)
        self.room = room.name

    def path(self, name):
        return os.path.join(self.room, name)

    def put(self, name, text):
        with open(self.path(name), "w", encoding="utf-8") as file:
            file.write(text)

    def text(self, name):
        with open(self.path(name), encoding="utf-8") as file:
            return file.read()

    def called(self, tool, words, status):
        """Calls a tool in the folder, asks for its status, and returns what it wrote."""
        wrote, said, was = io.StringIO(), io.StringIO(), os.getcwd()
        os.chdir(self.room)
        try:
            with contextlib.redirect_stdout(wrote), contextlib.redirect_stderr(said):
                ended = tool.main(words)
        except SystemExit as end:
            ended = end.code
        finally:
            os.chdir(was)
        self.assertEqual(ended, status, wrote.getvalue() + said.getvalue())
        return wrote.getvalue() if status == 0 else said.getvalue()

    def to_grid(self, *words, status=0):
        return self.called(to_grid, words, status)

    def from_grid(self, *words, status=0):
        return self.called(from_grid, words, status)


class Spheres(Case):
    def setUp(self):
        super().setUp()
        sphere.main(self.room)

    def test_each_format_gives_the_same_grid_mesh(self):
        for name in SPHERES:
            told = self.to_grid(name, f"{name}.off")
            self.assertIn(f"points joined by equal coordinates {798 if name.endswith('.stl') else 0}\n", told)
            self.assertIn("vertices 162 faces 320\n", told)
        self.assertEqual(len({self.text(f"{name}.off") for name in SPHERES}), 1)
        self.assertEqual(len({self.text(f"{name}.off.grid") for name in SPHERES}), 1)
        # 25 units are 65,534 steps from the least to the greatest point
        self.assertAlmostEqual(json.loads(self.text("sphere.obj.off.grid"))["step"], 25 / 65534, 9)

    def test_a_round_trip_is_within_half_a_step(self):
        points = read_mesh(self.path("sphere.obj")).points
        for step in ([], ["--step", "0.5"]):
            for form in ("off", "ply"):
                self.to_grid(*step, "sphere.obj", f"grid.{form}")
                half = json.loads(self.text(f"grid.{form}.grid"))["step"] / 2
                # (PLY may use coordinates of 32 bits, which are off by a hundredth of a step at most)
                for back, most in (("back.obj", 1 + 1e-9), ("back.ply", 1.02)):
                    self.from_grid(f"grid.{form}.grid", f"grid.{form}", back)
                    mesh = read_mesh(self.path(back))
                    self.assertEqual((len(mesh.points), len(mesh.faces)), (162, 320))
                    off = max(abs(a - b) for one, other in zip(points, mesh.points) for a, b in zip(one, other))
                    self.assertLessEqual(off, half * most)

    @unittest.skipUnless(OEMM, "no program is named")
    def test_oemm_takes_the_result(self):
        self.put("thin.txt", f"task 0 -32768 -32768 -32768 32767 32767 32767\nsimplify {2 ** 126} 280\n")
        for form in ("off", "ply"):
            self.to_grid("sphere_binary.stl", f"grid.{form}")
            ran = subprocess.run([OEMM, "run", f"grid.{form}", "thin.txt", f"thin.{form}"], cwd=self.room, capture_output=True)
            self.assertEqual((ran.returncode, ran.stderr), (0, b""))
            self.assertTrue(ran.stdout.endswith(b"\nvertices 142 faces 280 euler 2 border 0\n"), ran.stdout)
            self.from_grid(f"grid.{form}.grid", f"thin.{form}", f"thin_{form}.obj")
        self.assertEqual(self.text("thin_off.obj"), self.text("thin_ply.obj"))
        for point in read_mesh(self.path("thin_off.obj")).points:
            away = sum((a - b) ** 2 for a, b in zip(point, (120.0, -45.5, 8.25))) ** 0.5
            self.assertAlmostEqual(away, 12.5, 2)


class Commands(Case):
    def test_each_tool_runs_as_a_command(self):
        self.put("one.obj", "v 0 0 0\nv 4 0 0\nv 0 4 0\nf 1 2 3\n")
        for words in (["to_grid.py", "one.obj", "one.off"], ["from_grid.py", "one.off.grid", "one.off", "back.obj"]):
            words[0] = os.path.join(TOOLS, words[0])
            ran = subprocess.run([sys.executable, *words], cwd=self.room, capture_output=True, text=True)
            self.assertEqual((ran.returncode, ran.stderr), (0, ""))
            self.assertTrue(ran.stdout.endswith("vertices 3 faces 1\n"))
        self.assertEqual(self.text("back.obj"), "v 0.0 0.0 0.0\nv 4.0 0.0 0.0\nv 0.0 4.0 0.0\nf 1 2 3\n")


class SmallMeshes(Case):
    def test_a_square_becomes_two_triangles(self):
        self.put("square.obj", "v 0 0 5\nv 2 0 5\nv 2 2 5\nv 0 2 5\nf 1 2 3 4\n")
        told = self.to_grid("--step", "1", "square.obj", "square.off")
        self.assertIn("polygons split 1\n", told)
        self.assertIn("largest rounding error 0.0\n", told)
        self.assertEqual(self.text("square.off"), "OFF\n4 2 0\n-1 -1 0\n1 -1 0\n1 1 0\n-1 1 0\n3 0 1 2\n3 0 2 3\n")
        self.assertEqual(json.loads(self.text("square.off.grid")), {"step": 1.0, "middle": [1.0, 1.0, 5.0]})

    def test_points_that_fall_together_are_joined(self):
        # on a grid of step 10 the points 1 and 2 fall together, and the face between them loses a corner
        self.put("near.off", "OFF\n4 2 0\n0 0 0\n100 0 0\n101 1 0\n0 100 0\n3 0 1 3\n3 1 2 3\n")
        told = self.to_grid("--step", "10", "near.off", "near_grid.off")
        self.assertIn("points joined on the grid 1\n", told)
        self.assertIn("faces dropped that lost a corner 1\n", told)
        self.assertEqual(self.text("near_grid.off"), "OFF\n3 1 0\n-5 -5 0\n5 -5 0\n-5 5 0\n3 0 1 2\n")

    def test_faces_that_come_twice_are_dropped(self):
        # the second face is the first one from another corner; the third is turned over, and stays
        self.put("twice.obj", "v 0 0 0\nv 4 0 0\nv 0 4 0\nf 1 2 3\nf -2 -1 -3\nf 3 2 1\nf 1 2\n")
        told = self.to_grid("--step", "2", "twice.obj", "twice.off")
        self.assertIn("faces dropped that lost a corner 1\nfaces dropped that came twice 1\n", told)
        self.assertEqual(self.text("twice.off"), "OFF\n3 2 0\n-1 -1 0\n1 -1 0\n-1 1 0\n3 0 1 2\n3 0 2 1\n")

    def test_numeric_types_of_ply(self):
        for kind in ("char", "short", "int", "uchar", "ushort", "uint", "float", "double"):
            head = f"ply\nformat ascii 1.0\nelement vertex 3\nproperty {kind} x\nproperty {kind} y\nproperty {kind} z\n"
            head += "element face 1\nproperty list uchar uint vertex_index\nend_header\n"
            self.put("it.ply", head + "0 0 0\n8 0 0\n0 6 0\n3 2 0 1\n")
            self.to_grid("--step", "1", "it.ply", "it.off")
            self.assertEqual(self.text("it.off"), "OFF\n3 1 0\n-4 -3 0\n4 -3 0\n-4 3 0\n3 0 1 2\n")

    def test_great_coordinates_come_back_as_double(self):
        self.put("far.obj", "v 500000.3 4000000.1 0\nv 500001.3 4000000.1 0\nv 500000.3 4000001.1 0.25\nf 1 2 3\n")
        self.to_grid("far.obj", "far.ply")
        self.from_grid("far.ply.grid", "far.ply", "back.ply")
        with open(self.path("back.ply"), "rb") as file:
            self.assertIn(b"property double x\n", file.read())
        points = read_mesh(self.path("back.ply")).points
        self.assertLess(abs(points[2][1] - 4000001.1), 1 / 65534)

    def test_what_is_refused(self):
        self.put("wide.obj", "v 0 0 0\nv 70000 0 0\nv 0 1 0\nf 1 2 3\n")
        self.assertIn("doesn't fit the grid", self.to_grid("--step", "1", "wide.obj", "wide.off", status=1))
        self.put("nan.obj", "v 0 0 nan\n")
        self.assertIn("no finite number", self.to_grid("nan.obj", "nan.off", status=1))
        self.put("corner.obj", "v 0 0 0\nv 1 0 0\nf 1 2 3\n")
        self.assertIn("none of the 2 points", self.to_grid("corner.obj", "corner.off", status=1))
        self.put("zero.obj", "v 0 0 0\nv 1 0 0\nv 0 1 0\nf 0 1 2\n")
        self.assertIn("a corner that is none", self.to_grid("zero.obj", "zero.off", status=1))
        self.put("cut.ply", "ply\nformat ascii 1.0\nelement vertex 2\nproperty float x\nproperty float y\nproperty float z\n"
                 "element face 0\nproperty list uchar int vertex_indices\nend_header\n0 0 0\n")
        self.assertIn("ends among the records", self.to_grid("cut.ply", "cut.off", status=1))
        self.put("notes", "no mesh\n")
        self.assertIn("neither PLY, STL", self.to_grid("notes", "notes.off", status=1))
        self.to_grid("wide.obj", "wide.stl", status=2)
        self.assertEqual(sorted(os.listdir(self.room)), ["corner.obj", "cut.ply", "nan.obj", "notes", "wide.obj", "zero.obj"])


if __name__ == "__main__":
    unittest.main()
