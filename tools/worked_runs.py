#!/usr/bin/env python3
"""Writes the data of crates/law_worked_runs: for each script of its folder scripts/, its events with the lines that another reading of
the same specification gives. The crate's law is that the run of the definitions has these lines.

The other reading is a Python program, of the folder that GNB_OTHER_READING names. Where it isn't given, nothing is compared nor written, and the last
line says so. With --random COUNT the
scripts are random ones of the whole language, and the data is written to --into FOLDER, a copy of this repository, for a check outside
the gate.

Usage: tools/worked_runs.py [--random COUNT --length L --seed S --into FOLDER]
"""

import argparse
import pathlib
import random
import re
import sys

import other_reading

TOP = pathlib.Path(__file__).resolve().parents[1]
OTHER = other_reading.other_file("world.py")
CRATE = "law_worked_runs"
# its laws, and the modules that are written by hand: of a script whose lines are too many to be listed
LAWS = ["worked_runs", "worked_octet_runs", "old_copy_stops_a_run"]
BY_HAND = ["PlainCodec", "Octets", "OldUplinkCopyAndSpan"]
EVENTS = "scenario_text.specs.declared.event"
# the crates whose words are opened to compute a run
OPENED = ["tables", "transaction_defs", "pdcp_defs", "unit_defs", "transport_defs", "run_defs", "link_defs", "gtpu", "nr_user_plane",
          "pdcp", "gnb_types"]

if OTHER:
    sys.path.insert(0, str(OTHER.parent))
    import scenario_text as S  # noqa: E402
    import world as W  # noqa: E402


# ---- values as terms


def listed(xs):
    return "(" + " ∷ ".join([*xs, "[]"]) + ")"


def node(name):
    if name == "core":
        return "Core"
    if name[0] == "u":
        return f"(Ue {int(name[1:])})"
    gnb, unit = name.split(".")
    if unit == "cp":
        return f"(CuCp {gnb})"
    kind = "CuUp" if unit.startswith("up") else "Du"
    return f"({kind} {gnb} {unit[2:]})"


def ue(number):
    return f"(ue {number})"


def bearer(number):
    return f"(be {number})"


def direction(word):
    return "Dl" if word == "dl" else "Ul"


def octets(octets_of):
    return listed(str(octet) for octet in octets_of)


def optional(term, value):
    return "None" if value is None else f"(Some {term(value)})"


def truth(value):
    return "true" if value else "false"


def sn_bits(bits):
    return "Len12" if bits == 12 else "Len18"


def tunnels(values):
    return listed(f"(tn {number} {teid})" for number, teid in values)


def status(value):
    number, down, up, bits = value
    return f"(ss {number} {down} {up} {optional(lambda some: listed(truth(bit) for bit in some), bits)})"


def statuses(values):
    return listed(status(value) for value in values)


def peer(value):
    return f"(pe {value[0]} {value[1]})"


CAUSES = {"quota": 0, "busy": 1, "unit": 2}
MODES = {"uplinks": 0, "switch": 1, "freeze": 2, "status": 3, "resume": 4}


def token(value):
    kind, fields = value
    if kind == "command":
        return f"(toks.Command {ue(fields['ue'])} {fields['epoch']} {fields['gnb']} {fields['du']})"
    return f"(toks.{kind.capitalize()} {ue(fields['ue'])} {fields['epoch']})"


def name_of(fields):
    return f"(node_text {node(fields['name'])})"


# of each message: where it stands, its name here, and its fields in order; `?` marks one that may be absent
MESSAGES = {
    "F1SetupRequest": ("f1", "F1SetupRequest", "instance name"),
    "F1SetupResponse": ("f1", "F1SetupResponse", "instance"),
    "UEContextSetupRequest": ("f1", "UeContextSetupRequest", "ue instance epoch uplinks sn peer"),
    "UEContextSetupResponse": ("f1", "UeContextSetupResponse", "ue instance downlinks"),
    "UEContextModificationRequest": ("f1", "UeContextModificationRequest", "ue instance epoch"),
    "UEContextModificationResponse": ("f1", "UeContextModificationResponse", "ue instance downlinks"),
    "UEContextReleaseCommand": ("f1", "UeContextReleaseCommand", "ue instance"),
    "UEContextReleaseComplete": ("f1", "UeContextReleaseComplete", "ue instance"),
    "DLRRCMessageTransfer": ("f1", "DlRrcMessageTransfer", "ue container"),
    "ULRRCMessageTransfer": ("f1", "UlRrcMessageTransfer", "ue container"),
    "E1SetupRequest": ("e1", "E1SetupRequest", "instance name"),
    "E1SetupResponse": ("e1", "E1SetupResponse", "instance"),
    "BearerContextSetupRequest": ("e1", "BearerContextSetupRequest", "ue instance bearers sn quota forward"),
    "BearerContextSetupResponse": ("e1", "BearerContextSetupResponse", "ue instance uplinks n3 forwardDown? forwardUp?"),
    "BearerContextSetupFailure": ("e1", "BearerContextSetupFailure", "ue instance cause"),
    "BearerContextModificationRequest": (
        "e1", "BearerContextModificationRequest", "ue instance downlinks? mode peer? forwardDown? forwardUp? statuses? du?"),
    "BearerContextModificationResponse": ("e1", "BearerContextModificationResponse", "ue instance uplinks? statuses?"),
    "BearerContextModificationFailure": ("e1", "BearerContextModificationFailure", "ue instance cause"),
    "BearerContextReleaseCommand": ("e1", "BearerContextReleaseCommand", "ue instance final"),
    "BearerContextReleaseComplete": ("e1", "BearerContextReleaseComplete", "ue instance"),
    "HandoverRequest": ("xn", "HandoverRequest", "ue instance epoch bearers sn quota peer du origin?"),
    "HandoverRequestAcknowledge": ("xn", "HandoverRequestAcknowledge", "ue instance peer forwardDown forwardUp"),
    "HandoverPreparationFailure": ("xn", "HandoverPreparationFailure", "ue instance cause"),
    "SNStatusTransfer": ("xn", "SnStatusTransfer", "ue instance statuses"),
    "HandoverCancel": ("xn", "HandoverCancel", "ue instance"),
    "UEContextRelease": ("xn", "UeContextRelease", "ue instance"),
    "TransportConfirm": ("xn", "TransportConfirm", "ue instance"),
    "PathSwitchRequest": ("core", "PathSwitchRequest", "ue instance peer n3"),
    "PathSwitchAcknowledge": ("core", "PathSwitchAcknowledge", "ue instance"),
}
FIELDS = {
    "ue": ue, "sn": sn_bits, "peer": peer, "container": token, "mode": lambda mode: str(MODES[mode]), "cause": lambda cause: str(CAUSES[cause]),
    "forward": truth, "final": truth, "statuses": statuses, "name": lambda name: f"(node_text {node(name)})",
} | {name: tunnels for name in ("uplinks", "downlinks", "n3", "forwardDown", "forwardUp")}


def field(word, fields):
    name = word.rstrip("?")
    term = FIELDS.get(name, str)
    return optional(term, fields.get(name)) if word.endswith("?") else term(fields[name])


def message(value):
    name, fields = value
    if name not in MESSAGES:
        return f"(rrc {token(value)})"
    interface, variant, words = MESSAGES[name]
    return f"({interface} ({interface}s.{variant} {' '.join(field(word, fields) for word in words.split())}))"


def plan(value):
    number, gnb, up, du, bits, bearers, quota = value
    return f"(plan {number} {gnb} {up} {du} {sn_bits(bits)} {bearers} {quota})"


def end(value):
    return f"{node(value[0])} {value[1]}"


def lost(what):
    return f"LoseMessage {what[1]}" if what[0] == "#" else f"LoseItem {end(what[1])}"


def injected(values):
    if len(values) == 2:
        return f"InjectItem {end(values[0])} {octets(values[1])}"
    return f"InjectMessage {node(values[0])} {node(values[1])} {octets(values[2])}"


def event(kind, *values):
    if kind in ("static", "attach"):
        rest = f"{kind.capitalize()} {plan(values)}"
    elif kind == "offer":
        rest = f"Offer {ue(values[0])} {bearer(values[1])} {direction(values[2])} {octets(values[3])}"
    elif kind == "get":
        rest = f"Get {end(values[0])}"
    elif kind in ("air", "ack"):
        rest = f"{kind.capitalize()} {ue(values[0])} {bearer(values[1])} {direction(values[2])}"
    elif kind == "lose":
        rest = lost(values[0])
    elif kind in ("poll", "ask"):
        rest = f"{kind.capitalize()} {ue(values[0])} {bearer(values[1])}"
    elif kind == "handover":
        rest = f"Handover {ue(values[0])} {values[1]} {values[2]} {values[3]}"
    elif kind == "inject":
        rest = injected(values)
    elif kind == "give":
        rest = f"Give {values[0]}"
    else:
        rest = " ".join([kind.capitalize(), *(ue(value) for value in values)])
    return f"events.{rest}"


# ---- lines as terms


def entity(number, of_bearer, word):
    return f"(en {number} {of_bearer} {direction(word)})"


def link(text):
    if text.startswith("r/"):
        _, of_ue, of_bearer, word, epoch = text.split("/")
        return f"(radio_link {entity(int(of_ue[1:]), int(of_bearer[1:]), word)} {epoch})"
    name, teid = text.rsplit("/", 1)
    return f"(tunnel_link (te {node(name)} {teid}))"


def shown(item, raw):
    return f"(shown {entity(item.ue, item.b, item.d)} {optional(str, item.count)} {octets(raw)})"


def tunnel_line(world, verb, name, teid, item):
    raw = W.item_bytes(teid, world.sn(item.ue), item.item)
    return f"{verb}_item (tunnel_link (te {node(name)} {teid})) {shown(item, raw)}"


def radio_line(world, verb, epoch, item):
    raw = W.pdu_bytes(world.sn(item.ue), item.item)
    return f"{verb}_item (radio_link {entity(item.ue, item.b, item.d)} {epoch}) {shown(item, raw)}"


def control_line(world, verb, number):
    letter = world.bag[number - 1]
    return f"{verb}_message {number} (le {node(letter.frm)} {node(letter.to)} {letter.ue} {message(letter.msg)})"


def lost_line(what, count):
    return f"lost_message {what[1:]}" if what.startswith("#") else f"lost_items {link(what)} {count}"


PUTS = {"t": tunnel_line, "r": radio_line, "c": control_line}
LINES = {
    "deliver": lambda number, of_bearer, word, count, packet: f"delivers {entity(number, of_bearer, word)} {count} {octets(packet)}",
    "lost": lost_line,
    "drop": lambda name, reason: f"drops_input {node(name)} drops.{reason}",
    "held": lambda what, reason: f"held_at {link(what)} holds.{reason}",
    "failed": lambda name, number, cause: f"procedure_failed {node(name)} {ue(number)} causes.{cause.capitalize()}",
    "quiet": lambda number, of_bearer, down, up: f"is_quiet {ue(number)} {bearer(of_bearer)} {down} {up}",
    "busy": lambda number, of_bearer: f"is_busy {ue(number)} {bearer(of_bearer)}",
    "settled": lambda rounds: f"has_settled {rounds}",
    "unsettled": lambda rounds: f"has_not_settled {rounds}",
    "refused": lambda reason: f"was_refused refusals.{reason}",
}


def line(world, kind, *values):
    if kind[1:] in ("put", "got"):
        return PUTS[kind[0]](world, kind[1:], *values)
    return LINES[kind](*values)


# ---- a script and what it shows


class Worked:
    """The events of a script with their lines by the other reading, how the run stops, and what octets from outside are."""

    def __init__(self, texts):
        self.steps, self.stop, self.faults, self.items = [], "None", [], []
        world = W.World(text=False)
        for text in texts:
            made = S.read_event(text.encode())
            term = event(*made)
            lines = self.apply(world, made)
            self.outside(made, lines)
            self.steps.append(f"(step ({term}) {listed(line(world, *one) for one in lines)})")
            if self.stop != "None":
                break

    def apply(self, world, made):
        try:
            lines = world.apply(made)
        except W.Stop as stop:
            lines = stop.lines
            self.stop = self.stop_of(stop)
        return [one for one in lines if one[0] != ">"]

    @staticmethod
    def stop_of(stop):
        if stop.code == 5:
            number, of_bearer, word, span, window = stop.what
            return f"(Some (outstanding {entity(number, of_bearer, word)} {span} {window}))"
        return f"(Some (spent_counter {stop.reason}))"

    def outside(self, made, lines):
        if made[0] != "inject":
            return
        decodes = ("refused", "Decodable") in lines
        drops = [one[2] for one in lines if one[0] == "drop"]
        if len(made) == 3:
            self.items.append(f"({octets(made[2])}, {truth(decodes)})")
        elif decodes or drops:
            self.faults.append(f"({octets(made[3])}, {'None' if decodes else 'Some drops.' + drops[0]})")


HEAD = '''-- Written by tools/worked_runs.py: a script, and the lines that were worked out for it.
use Rattle.std.specs.Prelude.{ℕ, List, [], ◌∷◌, Option, Some, None, Bool, true, false, map}
use Rattle.gnb_types.specs.declared.names.Gnb.TheVariants.{A, B}
use Rattle.gnb_types.specs.declared.names.NodeId.{NodeId}
use Rattle.gnb_types.specs.declared.names.NodeId.TheVariants.{CuCp, CuUp, Du, Core, Ue}
use Rattle.gnb_types.specs.declared.names.Dir.TheVariants.{Dl, Ul}
use Rattle.gnb_types.specs.declared.names.SnBits.TheVariants.{Len12, Len18}
use Rattle.gnb_types.specs.declared.reasons.DropReason.{DropReason}
use Rattle.gnb_types.specs.declared.reasons.DropReason.TheVariants as drops
use Rattle.gnb_types.specs.declared.reasons.HeldReason.TheVariants as holds
use Rattle.gnb_types.specs.declared.reasons.CauseName.TheVariants as causes
use Rattle.gnb_types.specs.declared.reasons.RefuseReason.TheVariants as refusals
use Rattle.gnb_types.specs.Names.{node_text}
use Rattle.message_types.specs.declared.f1.F1.TheVariants as f1s
use Rattle.message_types.specs.declared.e1.E1Message.TheVariants as e1s
use Rattle.message_types.specs.declared.xn.XnMessage.TheVariants as xns
use Rattle.message_types.specs.declared.xn.CoreMessage.TheVariants as cores
use Rattle.message_types.specs.declared.rrc.Token.{Token}
use Rattle.message_types.specs.declared.rrc.Token.TheVariants as toks
use Rattle.unit_defs.specs.Ways.{Message, f1, e1, xn, core, rrc}
use Rattle.scenario_text.specs.declared.event.Event.{Event}
use Rattle.scenario_text.specs.declared.event.Event.TheVariants as events
use Rattle.run_defs.specs.Lines.{RunLine, put_item, got_item, put_message, got_message, delivers, lost_items, lost_message, drops_input, held_at, procedure_failed, is_quiet, is_busy, has_settled, has_not_settled, was_refused, tunnel_link, radio_link, shown}
use Rattle.run_defs.specs.States.{Stop, outstanding, spent_counter}
use Rattle.law_worked_runs.specs.Short.{ue, be, te, en, tn, ss, pe, plan, le, step, Worked}
'''

# ---- the crate's files


def opened_words(top):
    """The imports of all words that are opened to compute a run, and their names."""
    uses, names = {}, []
    taken = {"returns", "refl", "goal", "c"}
    for crate in OPENED:
        specs = top / "crates" / crate / "specs"
        for path in sorted(specs.rglob("*.antt")):
            module = ".".join(("Rattle", crate, "specs", *path.relative_to(specs).with_suffix("").parts))
            for found in re.finditer(r"^\s*unfoldable pub (?!use|data|record)([A-Za-z_0-9-]+)(?: \{[^}]*\})? ?:", path.read_text(), re.MULTILINE):
                name, number = found[1], 1
                alias = name
                while alias in taken:
                    number += 1
                    alias = f"{name}_{number}"
                taken.add(alias)
                names.append(alias)
                uses.setdefault(module, []).append(name if alias == name else f"{name} as {alias}")
    return "\n".join(f"use {module}.{{{', '.join(words)}}}" for module, words in uses.items()), " ".join(names)


def specs_of(worked):
    def listed_below(terms):
        return "\n    ∷ ".join([*terms, "[]"])

    return (
        HEAD
        + "\nabbrev pub worked : Worked\nworked = record {\n"
        + f"  steps = {listed_below(worked.steps)};\n"
        + f"  stop = {worked.stop};\n"
        + f"  faults = {listed_below(worked.faults)};\n"
        + f"  items = {listed_below(worked.items)};\n"
        + "}\n"
    )


def write_crate(top, scripts):
    """Writes what depends on the scripts: a module of each, the list of all, and the answer of the one law on them."""
    crate = top / "crates" / CRATE
    modules = {name: "".join(word.capitalize() for word in name.split("_")) for name, _ in scripts}
    for name, texts in scripts:
        (crate / f"specs/{modules[name]}.antt").write_text(specs_of(Worked(texts)))
    uses = "".join(f"use Rattle.{CRATE}.specs.{module}.{{worked as {name}}}\n" for name, module in modules.items())
    (crate / "specs/All.antt").write_text(
        "-- Written by tools/worked_runs.py: the worked scripts.\nuse Rattle.std.specs.Prelude.{List, [], ◌∷◌}\n"
        f"use Rattle.{CRATE}.specs.Short.{{Worked}}\n{uses}\n"
        "abbrev pub all : List Worked\nall = " + "\n  ∷ ".join([*modules, "[]"]) + "\n")
    (crate / "specs/Lib.antt").write_text("".join(f"pub mod {module}\n" for module in ["Short", "All", *BY_HAND, *modules.values()]))
    imports, opened = opened_words(TOP)
    for law in LAWS:
        (crate / f"proofs/{law}").mkdir(parents=True, exist_ok=True)
        (crate / f"proofs/{law}/Answers.antt").write_text(
            f"use Rattle.std.proofs.Common.{{refl}}\n{imports}\nuse Rattle.{CRATE}.proofs.{law}.Goals as goal\n\n"
            f"pub returns : goal.returns\nunfolding {opened}\nreturns c = refl\n")


def random_scripts(count, length, seed):
    import compare  # noqa: PLC0415

    for number in range(count):
        yield f"script_{number}", compare.world_script(random.Random(seed * 1_000_003 + number), length, None)[1:]


def own_scripts():
    for path in sorted((TOP / "crates" / CRATE / "scripts").glob("*.script")):
        texts = [text for text in path.read_text().splitlines() if text and not text.startswith((";", "module"))]
        yield path.stem, texts


def main():
    asked = argparse.ArgumentParser(description=__doc__, formatter_class=argparse.RawDescriptionHelpFormatter)
    asked.add_argument("--random", type=int)
    asked.add_argument("--length", type=int, default=60)
    asked.add_argument("--seed", type=int, default=1)
    asked.add_argument("--into", type=pathlib.Path, default=TOP)
    given = asked.parse_args()
    if OTHER is None:
        print(f"the theorems are left as they are\n{other_reading.NOT_COMPARED}")
        return 0
    scripts = list(random_scripts(given.random, given.length, given.seed) if given.random else own_scripts())
    write_crate(given.into, scripts)
    print(f"{len(scripts)} scripts with {sum(len(texts) for _, texts in scripts)} events are theorems of {CRATE}")
    return 0


if __name__ == "__main__":
    sys.exit(main())
