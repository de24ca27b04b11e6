#!/usr/bin/env python3
"""Writes the profile's module, as tools/profile_reader.py reads it, as a table of Lua for the dissector in tools/wireshark. A test compares the file with this.

Nothing here is proved.

Usage: tools/to_lua.py > tools/wireshark/splitgnb_profile.lua
"""

import sys

import profile_reader

HEAD = """-- Made by tools/to_lua.py from the profile's module, as `gnb profile 2` prints it. Not written by hand, and not proved.
-- types: each type assignment and object set by its name; elements: the name of each information element by its id.
"""


def lua(value):
    """A value as an expression of Lua; what is absent has no entry."""
    if isinstance(value, bool):
        return "true" if value else "false"
    if isinstance(value, int):
        return str(value)
    if isinstance(value, str):
        return f'"{value}"'
    if isinstance(value, dict):
        return "{" + ", ".join(f"{key(name)} = {lua(part)}" for name, part in value.items() if part is not None) + "}"
    # an absent message of a procedure is false, so that the others keep their places
    return "{" + ", ".join("false" if part is None else lua(part) for part in value) + "}"


def key(name):
    return f'["{name}"]' if isinstance(name, str) and not name.isidentifier() else f"[{name}]" if isinstance(name, int) else name


def table():
    types = "".join(f'    ["{name}"] = {lua(form)},\n' for name, form in profile_reader.profile().items())
    elements = "".join(f"    [{number}] = {lua(name)},\n" for number, name in profile_reader.ELEMENTS.items())
    return f"{HEAD}return {{\n  types = {{\n{types}  }},\n  elements = {{\n{elements}  }},\n}}\n"


def main():
    sys.stdout.write(table())
    return 0


if __name__ == "__main__":
    sys.exit(main())
