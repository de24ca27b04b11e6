"""Reads the text of the profile's module, as `gnb profile 2` prints it, for the names of messages and elements and for Wireshark's dissector.

The text that is read is examples/profile-2.out, which tools/examples.py compares with what the program prints. Each message of version 1 is one of
version 2. The names of the information elements aren't in a module; they stand here, as in docs/definitions/messages.md.

Octets are read by `gnb decode` (tools/control_messages.py). Nothing here is proved.
"""

import functools
import pathlib
import re

MODULE = pathlib.Path(__file__).resolve().parents[1] / "examples/profile-2.out"
ELEMENTS = {
    1: "ue", 2: "instance", 3: "epoch", 4: "bearers", 5: "uplinks", 6: "downlinks", 7: "container", 8: "cause", 9: "sn", 10: "quota", 11: "mode",
    12: "peer", 13: "n3", 14: "forwardDown", 15: "forwardUp", 16: "statuses", 17: "name", 18: "forward", 19: "du", 20: "final",
}
OUTCOMES = ("initiatingMessage", "successfulOutcome", "unsuccessfulOutcome")

# ---- the module's text


def tokens_of(text):
    text = re.sub(r"--.*?(--|$)", " ", text, flags=re.MULTILINE)
    return re.findall(r"[A-Za-z][A-Za-z0-9-]*|-?[0-9]+|::=|\.\.\.|\.\.|[{}(),|]", text)


class Tokens:
    """The tokens of a module, from the one that comes next."""

    def __init__(self, text):
        self.tokens, self.at = tokens_of(text), 0

    def next(self):
        self.at += 1
        return self.tokens[self.at - 1]

    def peek(self):
        return self.tokens[self.at]

    def expect(self, *awaited):
        for word in awaited:
            found = self.next()
            if found != word:
                raise ValueError(f"'{word}' is awaited in the module, and '{found}' stands there")

    def has(self, *words):
        """Whether these tokens come next; if so, they are passed."""
        if self.tokens[self.at : self.at + len(words)] != list(words):
            return False
        self.at += len(words)
        return True


def read_module(text):
    """The type assignments of a module: a form for each name."""
    tokens, types = Tokens(text), {}
    tokens.next()
    tokens.expect("DEFINITIONS", "AUTOMATIC", "TAGS", "::=", "BEGIN")
    while not tokens.has("END"):
        name = tokens.next()
        if tokens.has("PROTOCOL-IES"):
            types[name] = {"form": "elements", "rows": set_of(tokens, element_row)}
        elif tokens.has("ELEMENTARY-PROCEDURE"):
            types[name] = {"form": "procedures", "rows": set_of(tokens, procedure_row)}
        else:
            tokens.expect("::=")
            types[name] = read_type(tokens)
    return types


def set_of(tokens, row):
    """The rows of an information object set; each set ends with `, ...`."""
    tokens.expect("::=", "{")
    rows = [row(tokens)]
    while tokens.has("|"):
        rows.append(row(tokens))
    tokens.expect(",", "...", "}")
    return rows


def element_row(tokens):
    tokens.expect("{", "ID")
    row = {"id": int(tokens.next())}
    tokens.expect("CRITICALITY")
    row["criticality"] = tokens.next()
    tokens.expect("TYPE")
    row["type"] = tokens.next()
    tokens.expect("PRESENCE")
    row["optional"] = tokens.next() == "optional"
    tokens.expect("}")
    return row


def procedure_row(tokens):
    tokens.expect("{", "INITIATING", "MESSAGE")
    row = {"messages": [tokens.next(), None, None]}
    if tokens.has("SUCCESSFUL", "OUTCOME"):
        row["messages"][1] = tokens.next()
    if tokens.has("UNSUCCESSFUL", "OUTCOME"):
        row["messages"][2] = tokens.next()
    tokens.expect("PROCEDURE", "CODE")
    row["code"] = int(tokens.next())
    tokens.expect("CRITICALITY")
    row["criticality"] = tokens.next()
    tokens.expect("}")
    return row


def read_type(tokens):
    first = tokens.next()
    readers = {"INTEGER": read_integer, "ENUMERATED": read_enumerated, "SEQUENCE": read_sequence, "CHOICE": read_choice}
    if first in readers:
        return readers[first](tokens)
    if first == "BOOLEAN":
        return {"form": "boolean"}
    if first in ("BIT", "OCTET"):
        tokens.expect("STRING")
        return {"form": "bits" if first == "BIT" else "octets", "size": read_size(tokens)}
    if first == "PrintableString":
        return {"form": "text", "size": read_size(tokens)}
    if first in ("ProtocolIE-Container", "Protocol-PDU"):
        tokens.expect("{", "{")
        named = {"form": "container" if first == "ProtocolIE-Container" else "pdu", "set": tokens.next()}
        tokens.expect("}", "}")
        return named
    return {"form": "name", "name": first}


def read_integer(tokens):
    tokens.expect("(")
    bounds = read_bounds(tokens)
    tokens.expect(")")
    return {"form": "integer", **bounds}


def read_bounds(tokens):
    """`lo..hi` or `n`, and whether `, ...` follows."""
    low = int(tokens.next())
    high = int(tokens.next()) if tokens.has("..") else low
    return {"low": low, "high": high, "extensible": tokens.has(",", "...")}


def read_size(tokens):
    """A size in its brackets, or none."""
    if not tokens.has("(", "SIZE"):
        return None
    size = read_plain_size(tokens)
    tokens.expect(")")
    return size


def read_plain_size(tokens):
    tokens.expect("(")
    size = read_bounds(tokens)
    tokens.expect(")")
    return size


def read_enumerated(tokens):
    tokens.expect("{")
    names = [tokens.next()]
    while tokens.has(","):
        names.append(tokens.next())
    tokens.expect("}")
    extensible = names[-1] == "..."
    return {"form": "enumerated", "names": names[:-1] if extensible else names, "extensible": extensible}


def read_sequence(tokens):
    if tokens.has("("):
        tokens.expect("SIZE")
        size = read_plain_size(tokens)
        tokens.expect(")", "OF")
        return {"form": "list", "size": size, "of": read_type(tokens)}
    if tokens.has("OF"):
        return {"form": "list", "size": None, "of": read_type(tokens)}
    return {"form": "sequence", **read_parts(tokens)}


def read_choice(tokens):
    return {"form": "choice", **read_parts(tokens)}


def read_parts(tokens):
    """The components or alternatives in their brackets, those after `...` apart."""
    root, additions, extensible = [], [], False
    tokens.expect("{")
    while not tokens.has("}"):
        if tokens.has("..."):
            extensible = True
        else:
            part = {"name": tokens.next(), "type": read_type(tokens), "optional": tokens.has("OPTIONAL")}
            (additions if extensible else root).append(part)
        tokens.has(",")
    return {"root": root, "additions": additions, "extensible": extensible}


@functools.cache
def profile():
    return read_module(MODULE.read_text())
