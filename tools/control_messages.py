"""Reads control messages for the tools, by the program's word `decode` under version 2 of the profile: each message of version 1 is one of version 2. What was read is kept.

The names of information elements aren't in the module: they are those of docs/definitions/messages.md (tools/profile_reader.py). What `decode` answers is proved of the program; this isn't.
"""

import json

import codec
import profile_reader
import program
from transcripts import Wrong

HEADER = ["module builtin 2"]
known = {}


def read(of_type, octets):
    """What the octets of a type say: of a message its name with its elements by name, of a token its alternative with its parts; None where they are no value of the type."""
    if (of_type, octets) not in known:
        read_all([(of_type, octets)])
    return known[of_type, octets]


def read_all(pairs):
    """Reads messages, each a type and octets, in one call a type. Wrong where the program can't be run."""
    new = {}
    for of_type, octets in pairs:
        if (of_type, octets) not in known:
            new.setdefault(of_type, {})[octets] = None
    try:
        for of_type, listed in new.items():
            answers = codec.answers("decode", of_type, HEADER, [octets.hex().encode() for octets in listed])
            for octets, (is_value, text) in zip(listed, answers, strict=True):
                known[of_type, octets] = by_names(of_type, json.loads(text)) if is_value else None
    except (codec.WrongCall, program.NoProgram) as wrong:
        raise Wrong(0, f"its control messages can't be read: {wrong}") from None
    with_tokens([known[of_type, octets] for of_type, listed in new.items() for octets in listed])


def by_names(of_type, value):
    """A decoded value of a type: a message as its name with its elements by name; an element that isn't known as `#ID`, with its criticality and octets."""
    form = profile_reader.profile()[of_type]
    [(outcome, body)] = value.items()
    if form["form"] != "pdu" or outcome == "...":
        return value
    rows = [row for row in profile_reader.profile()[form["set"]]["rows"] if row["code"] == body["procedureCode"]]
    message = rows[0]["messages"][profile_reader.OUTCOMES.index(outcome)] if rows else None
    if message is None or "value" not in body:
        return {f"{outcome} of procedure {body['procedureCode']}": {"raw": body.get("raw")}}
    return {message: dict(map(named_element, body["value"]["protocolIEs"]))}


def named_element(element):
    if "raw" in element:
        return f"#{element['id']}", {"criticality": element["criticality"], "raw": element["raw"]}
    return profile_reader.ELEMENTS[element["id"]], element["value"]


def with_tokens(values):
    """Puts the token of RRC that each container's octets are, where they are one, beside them."""
    carried = [elements for value in values if value for elements in value.values() if isinstance(elements, dict) and isinstance(elements.get("container"), str)]
    tokens = [bytes.fromhex(elements["container"]) for elements in carried]
    if tokens:
        read_all([("RrcToken", octets) for octets in tokens])
    for elements, octets in zip(carried, tokens):
        token = known["RrcToken", octets]
        elements["container"] = {"octets": elements["container"], **({"RrcToken": token} if token else {})}
