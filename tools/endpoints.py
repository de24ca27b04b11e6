"""Says of each item and message of a transcript on which kind of link it stands, who puts it and who gets it.

A line names a tunnel by its end alone. Who puts there is what the control messages before it say, as the units know it: a DU has the uplink TEIDs of a UE Context
Setup, a CU-UP the downlink TEIDs of a Bearer Context Modification and the forwarding TEIDs of a `freeze`, the core the N3 TEIDs of a Path Switch. `static` sets
up the same without messages. A radio leads to the DU to which the terminal sent its complete or re-establish of the radio's epoch.

Nothing here is proved.
"""

import dataclasses

import control_messages
import transcripts
from transcripts import Message, Radio, Tunnel, Wrong


@dataclasses.dataclass(frozen=True)
class Kind:
    """A kind of link: its interface in a capture, what stands on it, and the UDP port that a capture uses."""

    name: str
    title: str
    stands: str
    port: int

    @property
    def is_control(self):
        return self.stands not in ("GTP-U", "PDCP")


GTPU_PORT = 2152
N3 = Kind("N3", "N3 downlink, core to CU-UP", "GTP-U", GTPU_PORT)
F1U_DL = Kind("F1-U-DL", "F1-U downlink, CU-UP to DU", "GTP-U", GTPU_PORT)
F1U_UL = Kind("F1-U-UL", "F1-U uplink, DU to CU-UP", "GTP-U", GTPU_PORT)
XNU_DL = Kind("Xn-U-DL", "forwarding of downlink packets, source CU-UP to target CU-UP", "GTP-U", GTPU_PORT)
XNU_UL = Kind("Xn-U-UL", "forwarding of uplink packets, source CU-UP to target CU-UP", "GTP-U", GTPU_PORT)
UU_DL = Kind("Uu-DL", "radio downlink, DU to UE", "PDCP", 49152)
UU_UL = Kind("Uu-UL", "radio uplink, UE to DU", "PDCP", 49152)
F1AP = Kind("F1-C", "F1AP, CU-CP and DU", "F1AP-PDU", 38472)
E1AP = Kind("E1", "E1AP, CU-CP and CU-UP", "E1AP-PDU", 38462)
XNAP = Kind("Xn-C", "XnAP, the two CU-CPs", "XnAP-PDU", 38422)
N2 = Kind("N2", "path switch, CU-CP and core", "Core-PDU", 38412)
RRC = Kind("RRC", "tokens of RRC, DU and UE", "RrcToken", 49153)
KINDS = (N3, F1U_DL, F1U_UL, XNU_DL, XNU_UL, UU_DL, UU_UL, F1AP, E1AP, XNAP, N2, RRC)


def role(node):
    """What a node is: cp, up, du, core or ue."""
    if node == "core":
        return "core"
    return "ue" if node.startswith("u") else node.split(".")[1][:2]


CONTROL_KINDS = {
    frozenset(("cp", "du")): F1AP, frozenset(("cp", "up")): E1AP, frozenset(("cp",)): XNAP, frozenset(("cp", "core")): N2, frozenset(("du", "ue")): RRC,
}


def control_kind(line):
    kind = CONTROL_KINDS.get(frozenset((role(line.sender), role(line.receiver))))
    if kind is None or line.sender == line.receiver:
        raise Wrong(line.number, f"{line.sender} and {line.receiver} share no interface")
    return kind


def read_message(line, kind):
    """What a control message says: its name and its elements; none where its octets say nothing."""
    value = control_messages.read(kind.stands, line.octets)
    if value is None:
        return None, {}
    [(name, elements)] = value.items()
    return name, elements if isinstance(elements, dict) else {}


def read_messages(lines):
    """Reads all control messages of lines at once, so that the program is called but a few times."""
    control_messages.read_all([(kind.stands, line.octets) for line, kind in map(with_kind, lines) if kind])


def with_kind(line):
    """A line, and the interface of the control message that it puts or injects; None where it does neither."""
    is_message = line.is_control and line.kind == "put" or line.kind == "event" and line.what == "inject" and "sender" in line.fields and not line.refused
    return line, CONTROL_KINDS.get(frozenset((role(line.sender), role(line.receiver)))) if is_message else None


def token_of(kind, name, elements):
    """The token that a message is or carries: its name and its parts; none where its alternative isn't known."""
    carried = {name: elements} if kind == RRC else elements.get("container")
    token = carried.get("RrcToken", carried if kind == RRC else {}) if isinstance(carried, dict) else {}
    known = [(name, parts) for name, parts in token.items() if isinstance(parts, dict) and "epoch" in parts]
    return known[0] if known else (None, {})


@dataclasses.dataclass(frozen=True)
class Ends:
    """Where an item or a message goes."""

    kind: Kind
    sender: str
    receiver: str


class Endpoints:
    """What the lines so far say of who puts on which tunnel, and where radios lead."""

    def __init__(self):
        self.tunnels, self.radios, self.given, self.bits = {}, {}, {}, {}

    def see(self, line):
        """Takes what a line says; to be called with each line, in order."""
        if line.kind == "event" and not line.refused:
            self.see_event(line)
        elif line.kind == "put" and isinstance(line.link, Message):
            self.see_message(line, control_kind(line))

    def see_event(self, line):
        if line.what in ("static", "attach"):
            self.bits[line.ue] = int(line.bits)
        if line.what == "static":
            self.set_up(line)
        if line.what == "inject" and "sender" in line.fields:
            kind = CONTROL_KINDS.get(frozenset((role(line.sender), role(line.receiver))))
            if kind:
                self.see_message(line, kind)

    def set_up(self, line):
        """A terminal that is set up without messages: each unit gives its next TEIDs, by bearer."""
        up, du = f"{line.gnb}.up{line.up}", f"{line.gnb}.du{line.du}"
        self.radios[line.ue, 1] = du
        for _ in range(line.bearers):
            self.tell(N3, Tunnel(up, self.next_teid(up)), "core")
            self.tell(F1U_UL, Tunnel(up, self.next_teid(up)), du)
            self.tell(F1U_DL, Tunnel(du, self.next_teid(du)), up)

    def next_teid(self, node):
        return self.given.get(node, 0) + 1

    def tell(self, kind, tunnel, sender):
        self.tunnels[tunnel] = Ends(kind, sender, tunnel.node)
        self.gave(tunnel)

    def gave(self, tunnel):
        self.given[tunnel.node] = max(tunnel.teid, self.given.get(tunnel.node, 0))

    def see_message(self, line, kind):
        name, elements = read_message(line, kind)
        for tunnels in ("uplinks", "downlinks", "n3", "forwardDown", "forwardUp"):
            if name and name.endswith("Response"):
                for tunnel in tunnels_of(elements.get(tunnels), line.sender):
                    self.gave(tunnel)
        for part, told, at in told_by(name, elements, line.receiver):
            for tunnel in tunnels_of(elements.get(part), at):
                self.tell(told, tunnel, line.receiver)
        token, parts = token_of(kind, name, elements)
        if kind == RRC and token in ("complete", "reestablish"):
            self.radios[line.sender, parts["epoch"]] = line.receiver

    def ends(self, line):
        """Where the item or message of a `put` or `got` line goes."""
        link = line.link
        if isinstance(link, Message):
            return Ends(control_kind(line), line.sender, line.receiver)
        found = self.radio_ends(link) if isinstance(link, Radio) else self.tunnels.get(link)
        if found is None:
            raise Wrong(line.number, f"no line before this one says who puts on {link}")
        return found

    def injected_ends(self, line):
        """Where the octets of an `inject` go; None where it was refused."""
        if line.refused:
            return None
        if "link" in line.fields:
            return self.tunnels.get(line.link)
        return Ends(control_kind(line), line.sender, line.receiver)

    def radio_ends(self, radio):
        du = self.radios.get((radio.ue, radio.epoch))
        if du is None:
            return None
        return Ends(UU_DL, du, radio.ue) if radio.direction == "dl" else Ends(UU_UL, radio.ue, du)


def node_of_peer(peer):
    return f"{peer['gnb'].upper()}.up{peer['up']}" if isinstance(peer, dict) and peer.get("gnb") in ("a", "b") else None


def tunnels_of(listed, node):
    if not isinstance(listed, list) or node is None:
        return []
    return [Tunnel(node, tunnel["teid"]) for tunnel in listed]


def told_by(name, elements, receiver):
    """Of which tunnels a message tells its receiver, which puts there from then on: the element, the kind, and the node at their end."""
    peer = node_of_peer(elements.get("peer"))
    if name == "UEContextSetupRequest":
        return [("uplinks", F1U_UL, peer)]
    if name == "PathSwitchRequest":
        return [("n3", N3, peer)]
    if name == "BearerContextModificationRequest":
        du = f"{receiver.split('.')[0]}.du{elements['du']}" if "du" in elements else None
        return [("downlinks", F1U_DL, du), ("forwardDown", XNU_DL, peer), ("forwardUp", XNU_UL, peer)]
    return []


def with_ends(lines):
    """Each line, where its item or message goes, also the octets of an `inject` (None for a line of another kind), and how many bits its terminal's sequence numbers have."""
    known, lines = Endpoints(), list(lines)
    read_messages(lines)
    for line in lines:
        known.see(line)
        ends = known.ends(line) if line.kind in ("put", "got") else known.injected_ends(line) if line.kind == "event" and line.what == "inject" else None
        yield line, ends, known.bits.get(line.fields.get("ue"))


def read_with_ends(path):
    return list(with_ends(transcripts.read_file(path)))
