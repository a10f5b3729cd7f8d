#!/usr/bin/env python3
"""Sets each byte of small blobs and overlays to 0, 1, 0x7f, 0x80 and 0xff, and gives them to the commands that read blobs.

Each answer has to be a number, or a tree whose blob is read again as the same tree: an overlay that changes nothing gives that blob, and
over it the same bytes again, which `dump` prints as it printed the changed ones. A plan has to be one that `replay` reads.
"""
import sys

from trials import compiled, tried

VALUES = (0, 1, 0x7F, 0x80, 0xFF)
PLUGIN = "/dts-v1/; /plugin/; "

BLOBS = {
    "one-cell": ("/dts-v1/; / { a = <1>; };",),
    "suffix-sharing": ("/dts-v1/; / { xreg; reg; };",),
    "reservation": ("/dts-v1/; /memreserve/ 0x1000 (0x1000 * 2); / { };",),
    "clock-and-uart": (
        '/dts-v1/; / { clk: clk { compatible = "fixed-clock"; #clock-cells = <0>; }; uart { compatible = "ns16550a"; clocks = <&clk>; }; };',
        "--symbols",
    ),
}
OVERLAYS = {
    "overlay-pair": (PLUGIN + "&ocp { d { r = <&e>; }; e: e { }; };",),
    "overlay-pair with symbols": (PLUGIN + "&ocp { d { r = <&e>; }; e: e { }; };", "--symbols"),
    "target-path": (PLUGIN + "&{/ocp} { f = <1>; x { }; };",),
}
INPUTS = {
    "base.dtb": compiled("/dts-v1/; / { ocp: ocp { }; };", "--symbols"),
    "nothing.dtb": compiled(PLUGIN + "&{/} { };"),
    "drivers": b"driver fixed fixed-clock\ndriver ns ns16550a\n",
    "nothing.schedule": b"",
}
READING, APPLYING, PLANNING = range(30, 39), range(40, 47), (54, 55)


def is_read_again(room, name):
    """Whether the blob is of a tree, as `write` makes it."""
    answer = room.run(f"overlay {name} nothing.dtb again", "again")
    if answer.status or room.contents("again") != room.contents(name):
        room.fault(answer)


def blob_trial(blob):
    def task(room):
        room.put("in", blob)
        shown = room.run("dump in")
        copied = room.run("overlay in nothing.dtb out", "out")
        planned = room.run("plan in drivers")
        if room.refused(shown, READING):
            if not room.refused(copied, READING, "out") or copied.number != shown.number or planned.number != shown.number:
                room.fault(copied)
            return
        if copied.status or room.run("dump out") != shown or room.contents("out")[28:32] != blob[28:32]:
            room.fault(copied)
            return
        is_read_again(room, "out")
        if not room.refused(planned, PLANNING):
            room.put("plan", planned.printed)
            room.refused(room.run("replay plan nothing.schedule"), ())

    return task


def overlay_trial(overlay):
    def task(room):
        room.put("in", overlay)
        applied = room.run("overlay base.dtb in out", "out")
        if not room.refused(applied, (*READING, *APPLYING), "out"):
            is_read_again(room, "out")

    return task


def changes(blob):
    """Each place and value, with the blob that has it there."""
    for place, old in enumerate(blob):
        for value in VALUES:
            if value != old:
                yield f"byte {place:#x} {value:#x}", blob[:place] + bytes([value]) + blob[place + 1 :]


def main():
    wrong = 0
    for sources, trial in ((BLOBS, blob_trial), (OVERLAYS, overlay_trial)):
        for name, words in sources.items():
            blob = compiled(*words)
            count, faults = tried(INPUTS, ((f"{name}, {what}", trial(changed)) for what, changed in changes(blob)))
            print(f"{name}: {len(blob)} bytes, {count} changes, {faults} wrong answers", flush=True)
            wrong += faults
    return 1 if wrong else 0


if __name__ == "__main__":
    sys.exit(main())
