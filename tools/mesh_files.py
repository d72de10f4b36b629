"""Meshes in files: reads PLY, OBJ, STL and OFF, and writes OFF, PLY and OBJ.

A mesh is a list of points, each three numbers, and a list of faces, each a list of places in the list of points. What is
read is what the file says: points keep their order, and a face may have any number of corners. An STL file has no shared
points, so there equal ones are joined, in the order in which they first come.
"""
import math
import os
import struct
from dataclasses import dataclass, field


class MeshError(Exception):
    """The file is no mesh that can be read; the text says why."""


@dataclass
class Mesh:
    """Points and faces. joined counts the corners of an STL file that are points which came before."""

    points: list = field(default_factory=list)
    faces: list = field(default_factory=list)
    joined: int = 0


def read_mesh(path):
    """Returns the mesh in the file, whose format its first bytes tell, or for OBJ its name."""
    with open(path, "rb") as file:
        data = file.read()
    if data[:3] == b"ply":
        mesh = read_ply(data)
    elif is_binary_stl(data):
        mesh = read_binary_stl(data)
    elif data.lstrip()[:5].lower() == b"solid":
        mesh = read_ascii_stl(data)
    elif data.lstrip()[:3] == b"OFF":
        mesh = read_off(data)
    elif path.lower().endswith(".obj"):
        mesh = read_obj(data)
    else:
        raise MeshError("this is neither PLY, STL nor OFF by its first bytes, nor OBJ by its name")
    hold_to_form(mesh)
    return mesh


def hold_to_form(mesh):
    """Refuses coordinates that are no finite numbers, and corners that are no points."""
    for place, point in enumerate(mesh.points):
        if not all(map(math.isfinite, point)):
            raise MeshError(f"point {place} has a coordinate that is no finite number")
    count = len(mesh.points)
    for place, face in enumerate(mesh.faces):
        if not all(0 <= corner < count for corner in face):
            raise MeshError(f"face {place} has a corner that is none of the {count} points")


def numbers(words, kind, what):
    """Returns the words as numbers of that kind."""
    try:
        return [kind(word) for word in words]
    except (ValueError, OverflowError):
        raise MeshError(f"{what} has a word that is no number: {' '.join(map(str, words))[:60]}") from None


def text_lines(data):
    """Returns the lines of a text, whatever ends them."""
    return data.decode("latin-1").splitlines()


# ---- PLY

PLY_TYPES = {
    "char": "b", "int8": "b", "uchar": "B", "uint8": "B", "short": "h", "int16": "h", "ushort": "H", "uint16": "H",
    "int": "i", "int32": "i", "uint": "I", "uint32": "I", "float": "f", "float32": "f", "double": "d", "float64": "d",
}


@dataclass
class Property:
    """A property of an element: its name, its type and, of a list, the type of its count."""

    name: str
    kind: str
    count_kind: str = ""


@dataclass
class Element:
    """An element of a PLY file, as its header declares it."""

    name: str
    count: int
    properties: list = field(default_factory=list)

    def place_of(self, *names):
        """Returns the place of the first property with one of the names, or None."""
        return next((at for at, it in enumerate(self.properties) if it.name in names), None)


def ply_header(data):
    """Returns the format, the elements and where the records begin."""
    form, elements, at = "", [], 0
    while True:
        end = data.find(b"\n", at)
        if end < 0:
            raise MeshError("the PLY header has no end_header")
        words = data[at:end].decode("latin-1").split()
        at = end + 1
        try:
            if words[:1] == ["end_header"]:
                break
            if words[:1] == ["format"]:
                form = words[1]
            elif words[:1] == ["element"]:
                elements.append(Element(words[1], int(words[2])))
            elif words[:2] == ["property", "list"]:
                elements[-1].properties.append(Property(words[4], PLY_TYPES[words[3]], PLY_TYPES[words[2]]))
            elif words[:1] == ["property"]:
                elements[-1].properties.append(Property(words[2], PLY_TYPES[words[1]]))
        except (IndexError, KeyError, ValueError):
            raise MeshError(f"this line of the PLY header can't be read: {' '.join(words)[:60]}") from None
    if form not in ("ascii", "binary_little_endian", "binary_big_endian"):
        raise MeshError(f"the PLY format is unknown: {form or 'none is told'}")
    return form, elements, at


def ascii_records(element, lines):
    """Yields the records of an element from lines of words, each a list of numbers and, for list properties, lists."""
    for _ in range(element.count):
        words = next(lines, None)
        if words is None:
            raise MeshError(f"the PLY file ends among the records of {element.name}")
        record, at = [], 0
        for prop in element.properties:
            kind = float if prop.kind in "fd" else int
            size = 1
            if prop.count_kind:
                size = numbers(words[at:at + 1], int, f"a record of {element.name}")[:1]
                size, at = (size[0] if size else -1), at + 1
            if size < 0 or at + size > len(words):
                raise MeshError(f"a record of {element.name} has too few words: {' '.join(words)[:60]}")
            found = numbers(words[at:at + size], kind, f"a record of {element.name}")
            record.append(found if prop.count_kind else found[0])
            at += size
        yield record


def binary_records(element, data, at, order):
    """Returns the records of an element from bytes, as ascii_records gives them, and where they end."""
    records = []
    try:
        if not any(it.count_kind for it in element.properties):
            form = struct.Struct(order + "".join(it.kind for it in element.properties))
            end = at + form.size * element.count
            if end > len(data):
                raise struct.error
            records = list(form.iter_unpack(data[at:end])) if form.size else [()] * element.count
            return records, end
        for _ in range(element.count):
            record = []
            for prop in element.properties:
                size = 1
                if prop.count_kind:
                    (size,) = struct.unpack_from(order + prop.count_kind, data, at)
                    at += struct.calcsize(order + prop.count_kind)
                form = f"{order}{int(size)}{prop.kind}"
                found = struct.unpack_from(form, data, at)
                record.append(list(found) if prop.count_kind else found[0])
                at += struct.calcsize(form)
            records.append(record)
    except struct.error:
        raise MeshError(f"the PLY file ends among the records of {element.name}, or a list there has a wrong count") from None
    return records, at


def read_ply(data):
    """Returns the mesh of a PLY file, ASCII or binary in either byte order, with coordinates of any type."""
    form, elements, at = ply_header(data)
    mesh, seen = Mesh(), set()
    lines = (words for words in map(str.split, text_lines(data[at:])) if words) if form == "ascii" else None
    for element in elements:
        if form == "ascii":
            records = list(ascii_records(element, lines))
        else:
            records, at = binary_records(element, data, at, "<" if form == "binary_little_endian" else ">")
        seen.add(element.name)
        if element.name == "vertex":
            places = [element.place_of(name) for name in "xyz"]
            if None in places:
                raise MeshError("the PLY vertices lack x, y or z")
            mesh.points = [tuple(record[place] for place in places) for record in records]
        elif element.name == "face":
            place = element.place_of("vertex_indices", "vertex_index")
            if place is None or not element.properties[place].count_kind:
                raise MeshError("the PLY faces lack the list vertex_indices")
            mesh.faces = [[int(corner) for corner in record[place]] for record in records]
    if not {"vertex", "face"} <= seen:
        raise MeshError("the PLY file lacks vertices or faces")
    return mesh


# ---- OBJ

def read_obj(data):
    """Returns the mesh of an OBJ file: its lines v and f. A corner may count from the last point, as -1."""
    mesh = Mesh()
    for line in data.decode("latin-1").replace("\\\r\n", " ").replace("\\\n", " ").splitlines():
        words = line.partition("#")[0].split()
        if words[:1] == ["v"]:
            if len(words) < 4:
                raise MeshError(f"a point of the OBJ file has too few coordinates: {line[:60]}")
            mesh.points.append(tuple(numbers(words[1:4], float, "a point of the OBJ file")))
        elif words[:1] == ["f"]:
            corners = numbers([word.split("/")[0] for word in words[1:]], int, "a face of the OBJ file")
            # (0 is no corner, and stands for none here too)
            mesh.faces.append([it - 1 if it >= 0 else len(mesh.points) + it for it in corners])
    if not mesh.points:
        raise MeshError("the OBJ file has no point")
    return mesh


# ---- STL

STL_HEAD, STL_FACET = 84, struct.Struct("<12fH")


def is_binary_stl(data):
    """Returns whether the length is that of a binary STL file with the count of facets that it tells."""
    return len(data) >= STL_HEAD and len(data) == STL_HEAD + STL_FACET.size * struct.unpack_from("<I", data, 80)[0]


def joined_mesh(loops):
    """Returns the mesh of loops of points, with equal points joined in the order in which they first come."""
    mesh, places = Mesh(), {}
    for loop in loops:
        face = []
        for point in loop:
            # (0.0 and -0.0 are equal)
            mesh.joined += point in places
            face.append(places.setdefault(point, len(places)))
        mesh.faces.append(face)
    mesh.points = list(places)
    return mesh


def read_binary_stl(data):
    """Returns the mesh of a binary STL file."""
    facets = STL_FACET.iter_unpack(data[STL_HEAD:])
    return joined_mesh([facet[3:6], facet[6:9], facet[9:12]] for facet in facets)


def read_ascii_stl(data):
    """Returns the mesh of an ASCII STL file."""
    loops, inside = [], None
    for words in map(str.split, data.decode("latin-1").lower().splitlines()):
        if words[:1] == ["outer"]:
            inside = []
        elif words[:1] == ["vertex"]:
            if inside is None or len(words) < 4:
                raise MeshError("a vertex of the STL file stands outside a loop, or has too few coordinates")
            inside.append(tuple(numbers(words[1:4], float, "a vertex of the STL file")))
        elif words[:1] == ["endloop"]:
            loops.append(inside or [])
            inside = None
    if inside is not None or not loops:
        raise MeshError("the STL file ends in a loop, or has no facet")
    return joined_mesh(loops)


# ---- OFF

def read_off(data):
    """Returns the mesh of an OFF file."""
    lines = (words for words in (line.partition("#")[0].split() for line in text_lines(data)) if words)
    first = next(lines, ["OFF"])
    counts = numbers((first[1:] or next(lines, []))[:2], int, "the counts of the OFF file")
    if len(counts) < 2 or min(counts) < 0:
        raise MeshError("the OFF file lacks its counts")
    mesh = Mesh()
    for _ in range(counts[0]):
        words = next(lines, [])
        if len(words) < 3:
            raise MeshError(f"the OFF file ends, or has too few words, at point {len(mesh.points)}")
        mesh.points.append(tuple(numbers(words[:3], float, f"point {len(mesh.points)}")))
    for _ in range(counts[1]):
        words = next(lines, [])
        size = numbers(words[:1], int, f"face {len(mesh.faces)}")
        if not size or not 0 <= size[0] < len(words):
            raise MeshError(f"the OFF file ends, or has too few words, at face {len(mesh.faces)}")
        mesh.faces.append(numbers(words[1:1 + size[0]], int, f"face {len(mesh.faces)}"))
    return mesh


# ---- what is written

def put_file(path, data):
    """Writes a file beside the path and renames it, so that an older file stands until the new one is whole."""
    with open(f"{path}.new", "wb") as file:
        file.write(data)
    os.replace(f"{path}.new", path)


def write_off(path, mesh):
    """Writes a mesh of whole coordinates as OFF."""
    lines = ["OFF", f"{len(mesh.points)} {len(mesh.faces)} 0"]
    lines += [f"{x} {y} {z}" for x, y, z in mesh.points]
    lines += [" ".join(map(str, [len(face), *face])) for face in mesh.faces]
    put_file(path, ("\n".join(lines) + "\n").encode())


def write_ply(path, mesh, kind):
    """Writes a mesh of triangles as binary PLY with coordinates of the kind 'short', 'float' or 'double'."""
    head = ["ply", "format binary_little_endian 1.0", f"element vertex {len(mesh.points)}"]
    head += [f"property {kind} {name}" for name in "xyz"]
    head += [f"element face {len(mesh.faces)}", "property list uchar int vertex_indices", "end_header"]
    point, face = struct.Struct(f"<3{PLY_TYPES[kind]}"), struct.Struct("<B3i")
    parts = ["\n".join(head).encode() + b"\n"]
    parts += [point.pack(*it) for it in mesh.points]
    parts += [face.pack(3, *it) for it in mesh.faces]
    put_file(path, b"".join(parts))


def write_obj(path, mesh):
    """Writes a mesh as OBJ, each coordinate in the fewest digits that tell it exactly."""
    lines = [f"v {x!r} {y!r} {z!r}" for x, y, z in mesh.points]
    lines += ["f " + " ".join(str(corner + 1) for corner in face) for face in mesh.faces]
    put_file(path, ("\n".join(lines) + "\n").encode())
