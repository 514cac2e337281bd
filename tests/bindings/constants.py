"""Prints the version, the sizes of the structs, and the value of each constant of tilde.h that is named."""

import ctypes
import sys

import tilde


def value(name):
    short = name[len("TILDE_"):]
    found = [getattr(place, short) for place in (tilde, tilde.Code, tilde.Kind) if hasattr(place, short)]
    return int(found[0]) if found else "is missing"


print(tilde.version())
print("tilde_table", ctypes.sizeof(tilde._Table))
print("tilde_state", ctypes.sizeof(tilde._State))
for name in sys.argv[1:]:
    print(name, value(name))
