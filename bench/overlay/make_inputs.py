#!/usr/bin/env python3
"""Writes pairs of blobs to a folder that applying an overlay could be slow on: `make_inputs.py FOLDER full|small`.

Each shape has a folder with `base.dtb` and `overlay.dtb`; the figures are those of `full`, and SHAPES has both sizes.

board                         a board of 6,000 labelled devices, and 2,000 fragments with a fixup, a property and a new node each
fragments-by-path             100,000 fragments of one node, each sets another property; by `target-path`
fragments-by-label            the same by one label, so 100,000 fixups of it, each in a node of its own
wide-fragment                 one fragment with 100,000 new nodes, a phandle each
fixups-of-one-label           one property with 100,000 references to one label
labels                        one property with a reference to each of 100,000 labels
local-fixups-of-nodes         1,000,000 local fixups, each in a node of its own
local-fixups-of-properties    1,000,000 local fixups, each in a property of its own, of one node
local-fixups-of-one-property  1,000,000 local fixups in one property
new-nodes                     1,000,000 fragments with a new node each, below one target
new-children                  one fragment with 5,000,000 new nodes
great-base                    a base of 11,441,475 nodes (137 MB), and an overlay of one property
symbols                       4,000,000 symbols `/f/__overlay__`, whose target has a path of 16 KB: 64 GB of paths, so error 38
                              (small: 20,000 symbols, 328 MB of paths, so 38 too)
"""
import os
import sys

sys.path.insert(0, os.path.join(os.path.dirname(os.path.abspath(__file__)), "..", "dump"))
from flattened import BEGIN, END_NODE, Blob, cells, padded, strings  # noqa: E402

UNRESOLVED = cells(0xFFFFFFFF)
BODY = b"/fragment@0/__overlay__"


def rooted():
    blob = Blob()
    blob.begin(b"")
    return blob


def ended(blob, count):
    """The blob with so many nodes closed."""
    for _ in range(count):
        blob.end()
    return blob


def open_fragment(blob, name, path=None):
    """A fragment up to the inside of its `__overlay__`: by a path, or by a reference that a fixup has to fill in."""
    blob.begin(name)
    if path is None:
        blob.property(b"target", UNRESOLVED)
    else:
        blob.property(b"target-path", path + b"\0")
    blob.begin(b"__overlay__")


def labelled(count):
    """A base with `count` labelled nodes: n0 at /n0 with the phandle 1, and so on."""
    blob = rooted()
    for number in range(count):
        blob.begin(b"n%d" % number)
        blob.property(b"phandle", cells(number + 1))
        blob.end()
    blob.begin(b"__symbols__")
    for number in range(count):
        blob.property(b"n%d" % number, b"/n%d\0" % number)
    return ended(blob, 2)


def put_fixups(blob, fixups):
    """`__fixups__` with each label's places."""
    blob.begin(b"__fixups__")
    for label, places in fixups:
        blob.property(label, b"".join(place + b"\0" for place in places))
    blob.end()


def board_base(devices):
    """Buses of 16 devices each, and a symbol for each device."""
    blob = rooted()
    blob.property(b"compatible", strings("vendor,board", "vendor,soc"))
    paths = []
    for bus in range((devices + 15) // 16):
        path = b"bus@%x" % (0x1000_0000 + bus * 0x10000)
        blob.begin(path)
        blob.property(b"#address-cells", cells(1))
        blob.property(b"#size-cells", cells(1))
        for device in range(min(16, devices - len(paths))):
            name = b"device@%x" % (device * 0x100)
            blob.begin(name)
            blob.property(b"compatible", strings("vendor,device-%d" % device, "vendor,device"))
            blob.property(b"reg", cells(device * 0x100, 0x100))
            blob.property(b"interrupts", cells(0, device, 4))
            blob.property(b"status", strings("disabled"))
            paths.append(b"/" + path + b"/" + name + b"\0")
            blob.property(b"phandle", cells(len(paths)))
            blob.end()
        blob.end()
    blob.begin(b"__symbols__")
    for number, path in enumerate(paths):
        blob.property(b"device%d" % number, path)
    return ended(blob, 2)


def board(devices, fragments):
    overlay = rooted()
    for number in range(fragments):
        open_fragment(overlay, b"fragment@%d" % number)
        overlay.property(b"status", strings("okay"))
        overlay.begin(b"sensor@%x" % number)
        overlay.property(b"compatible", strings("vendor,sensor"))
        overlay.property(b"reg", cells(number))
        ended(overlay, 3)
    each = devices // fragments
    put_fixups(overlay, [(b"device%d" % (n * each), [b"/fragment@%d:target:0" % n]) for n in range(fragments)])
    return board_base(devices), ended(overlay, 1)


def fragments(count, path=None):
    overlay = rooted()
    for number in range(count):
        open_fragment(overlay, b"fragment@%d" % number, path)
        overlay.property(b"p%d" % number, cells(number))
        ended(overlay, 2)
    if path is None:
        put_fixups(overlay, [(b"n0", (b"/fragment@%d:target:0" % number for number in range(count)))])
    return labelled(1), ended(overlay, 1)


def wide_fragment(count):
    overlay = rooted()
    open_fragment(overlay, b"fragment@0", b"/n0")
    for number in range(count):
        overlay.begin(b"c%d" % number)
        overlay.property(b"phandle", cells(number + 1))
        overlay.end()
    return labelled(1), ended(overlay, 3)


def references(count, labels):
    """One property with `count` references, to so many labels in turn."""
    overlay = rooted()
    open_fragment(overlay, b"fragment@0", b"/n0")
    overlay.property(b"r", UNRESOLVED * count)
    ended(overlay, 2)
    places = [BODY + b":r:%d" % (4 * number) for number in range(count)]
    put_fixups(overlay, [(b"n%d" % label, places[label::labels]) for label in range(labels)])
    return labelled(labels), ended(overlay, 1)


def put_bodies(blob, nodes, properties, value):
    for node in range(nodes):
        blob.begin(b"c%d" % node)
        for number in range(properties):
            blob.property(b"r%d" % number, value)
        blob.end()


def local_fixups(nodes, properties, places):
    """References to a node of the overlay itself: `places` in each property of each node."""
    overlay = rooted()
    open_fragment(overlay, b"fragment@0", b"/n0")
    overlay.begin(b"e")
    overlay.property(b"phandle", cells(1))
    overlay.end()
    put_bodies(overlay, nodes, properties, cells(1) * places)
    ended(overlay, 2)
    for name in (b"__local_fixups__", b"fragment@0", b"__overlay__"):
        overlay.begin(name)
    put_bodies(overlay, nodes, properties, cells(*range(0, 4 * places, 4)))
    return labelled(1), ended(overlay, 4)


def new_nodes(count):
    overlay = rooted()
    for number in range(count):
        open_fragment(overlay, b"fragment@%d" % number, b"/n0")
        overlay.begin(b"c%d" % number)
        ended(overlay, 3)
    return labelled(1), ended(overlay, 1)


def new_children(count):
    overlay = rooted()
    open_fragment(overlay, b"fragment@0", b"/n0")
    for number in range(count):
        overlay.begin(b"c%x" % number)
        overlay.end()
    return labelled(1), ended(overlay, 3)


def great_base(width):
    """Nodes three deep, `width` in each, which are 12 bytes each up to a width of 256."""
    inner = b""
    for _ in range(3):
        inner = b"".join(BEGIN + padded(b"%x\0" % number) + inner + END_NODE for number in range(width))
    base = rooted()
    base.put(inner)
    overlay = rooted()
    open_fragment(overlay, b"fragment@0", b"/%x" % (width - 1) * 3)
    overlay.property(b"p", cells(1))
    return ended(base, 1), ended(overlay, 3)


def symbols(count):
    """The target is as deep as a node may be, and the names are as long as names may be."""
    names = [b"%02d" % level + b"n" * 253 for level in range(64)]
    base = rooted()
    for name in names:
        base.begin(name)
    overlay = rooted()
    open_fragment(overlay, b"f", b"".join(b"/" + name for name in names))
    ended(overlay, 2)
    overlay.begin(b"__symbols__")
    for number in range(count):
        overlay.property(b"s%x" % number, b"/f/__overlay__\0")
    return ended(base, 65), ended(overlay, 2)


# Each shape with what makes it, and with the words for the full and for the small size.
SHAPES = {
    "board": (board, (6_000, 2_000), (600, 200)),
    "fragments-by-path": (lambda count: fragments(count, b"/n0"), (100_000,), (1_000,)),
    "fragments-by-label": (fragments, (100_000,), (1_000,)),
    "wide-fragment": (wide_fragment, (100_000,), (1_000,)),
    "fixups-of-one-label": (references, (100_000, 1), (1_000, 1)),
    "labels": (references, (100_000, 100_000), (1_000, 1_000)),
    "local-fixups-of-nodes": (local_fixups, (1_000_000, 1, 1), (1_000, 1, 1)),
    "local-fixups-of-properties": (local_fixups, (1, 1_000_000, 1), (1, 1_000, 1)),
    "local-fixups-of-one-property": (local_fixups, (1, 1, 1_000_000), (1, 1, 10_000)),
    "new-nodes": (new_nodes, (1_000_000,), (2_000,)),
    "new-children": (new_children, (5_000_000,), (5_000,)),
    "great-base": (great_base, (225,), (48,)),
    "symbols": (symbols, (4_000_000,), (20_000,)),
}


def main(folder, size):
    for name, (make, full, small) in SHAPES.items():
        pair = os.path.join(folder, name)
        if os.path.isdir(pair):
            continue
        blobs = make(*{"full": full, "small": small}[size])
        os.makedirs(pair + ".new", exist_ok=True)
        for blob, kind in zip(blobs, ("base", "overlay")):
            with open(os.path.join(pair + ".new", kind + ".dtb"), "wb") as out:
                out.write(blob.bytes())
        os.rename(pair + ".new", pair)


if __name__ == "__main__":
    main(sys.argv[1], sys.argv[2])
