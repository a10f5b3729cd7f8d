#!/usr/bin/env python3
"""early.py KERNEL > early.drivers

The devices that Linux sets up before its driver core begins, as lines of a driver file: `early COMPATIBLE`. They are what the
sources of a kernel declare by IRQCHIP_DECLARE, IRQCHIP_MATCH, TIMER_OF_DECLARE, CLK_OF_DECLARE and CLK_OF_DECLARE_DRIVER.
Behind them stand the buses whose devices another driver makes, as lines `bus COMPATIBLE`; these are told by hand.
"""
import os
import re
import sys

KINDS = "IRQCHIP_DECLARE", "IRQCHIP_MATCH", "TIMER_OF_DECLARE", "CLK_OF_DECLARE", "CLK_OF_DECLARE_DRIVER"
# drivers/bus/vexpress-config.c makes the devices of these once its system controller is bound.
BUSES = ("arm,vexpress,config-bus",)
# All but IRQCHIP_MATCH have a name of their own before the string, which may stand in a macro.
DECLARATION = re.compile(r"\b(%s)\s*\(\s*(?:\w+\s*,\s*)?(?:\"([^\"\s]+)\"|([A-Z][A-Z0-9_]+)\s*,)" % "|".join(KINDS))
MACRO = re.compile(r"^#define\s+([A-Z][A-Z0-9_]+)\s+\"([^\"\s]+)\"\s*$", re.MULTILINE)


def texts(kernel, tops, ending):
    """The files below these folders whose names end so, in order."""
    for top in tops:
        for folder, folders, files in os.walk(os.path.join(kernel, top)):
            folders.sort()
            for name in sorted(files):
                path = os.path.join(folder, name)
                if name.endswith(ending) and os.path.isfile(path):
                    with open(path, encoding="utf-8", errors="replace") as source:
                        yield source.read()


def macros(kernel):
    """The strings that headers of bindings and of drivers give names to."""
    return dict(pair for text in texts(kernel, ("drivers", "include/dt-bindings"), ".h") for pair in MACRO.findall(text))


def declarations(kernel):
    """The strings of each kind."""
    found = {kind: set() for kind in KINDS}
    named = macros(kernel)
    for text in texts(kernel, ("arch", "drivers"), ".c"):
        own = {**named, **dict(MACRO.findall(text))}
        for kind, string, macro in DECLARATION.findall(text):
            if string or macro in own:
                found[kind].add(string or own[macro])
    return found


def main():
    print("# Devices that Linux sets up before its driver core begins: what early.py finds in its sources.")
    said = set()
    for kind, strings in declarations(sys.argv[1]).items():
        print("# " + kind)
        for string in sorted(strings - said):
            print("early " + string)
        said |= strings
    print("# Buses whose devices another driver makes")
    for string in BUSES:
        print("bus " + string)


if __name__ == "__main__":
    main()
