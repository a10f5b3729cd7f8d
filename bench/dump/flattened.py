"""A writer of flattened devicetree blobs: a structure block and its strings, in order."""
import struct

BEGIN, END_NODE, PROPERTY, NOP, END = (struct.pack(">I", token) for token in (1, 2, 3, 4, 9))


def padded(data):
    return data + b"\0" * (-len(data) % 4)


def cells(*numbers):
    return struct.pack(f">{len(numbers)}I", *numbers)


def strings(*texts):
    return b"".join(text.encode() + b"\0" for text in texts)


class Blob:
    def __init__(self, nops=False, reserves=()):
        self.structure = []
        self.strings = []
        self.offsets = {}
        self.size = 0
        self.nop = NOP if nops else b""
        self.reserves = reserves

    def put(self, data):
        self.structure.append(self.nop + data)

    def begin(self, name):
        self.put(BEGIN + padded(name + b"\0"))

    def end(self):
        self.put(END_NODE)

    def offset(self, name):
        if name not in self.offsets:
            self.offsets[name] = self.size
            self.strings.append(name + b"\0")
            self.size += len(name) + 1
        return self.offsets[name]

    def property(self, name, value):
        self.put(PROPERTY + struct.pack(">II", len(value), self.offset(name)) + padded(value))

    def bytes(self):
        reserved = b"".join(struct.pack(">QQ", *reserve) for reserve in self.reserves) + bytes(16)
        structure = b"".join(self.structure) + self.nop + END
        names = b"".join(self.strings)
        at_structure = 40 + len(reserved)
        at_strings = at_structure + len(structure)
        header = struct.pack(
            ">10I", 0xD00DFEED, at_strings + len(names), at_structure, at_strings, 40, 17, 16, 0, len(names), len(structure)
        )
        return header + reserved + structure + names
