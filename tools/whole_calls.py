"""Whole calls of the program: the words, the input, and all that is printed. The status of a call is the one in its last line, `stop STATUS ..`, or 0.

The rows of `check`, `verify`, `um`, `duplicate`, `encode` and `decode` were worked by hand. tools/whole_calls_check.py compares the program with all of them, and
tools/failing_allocations.py lets each request for memory fail in those of `encode` and `decode`, and in three of `verify`.
"""

import pathlib
import re

TOP = pathlib.Path(__file__).resolve().parents[1]


def module(types):
    """The lines of a module's text with these types."""
    return f"module text\nM DEFINITIONS AUTOMATIC TAGS ::= BEGIN\n{types}\nEND\n"


def profile_text(name):
    """The text of the profile that the constant of this name has, in a file of the crate `profile`."""
    texts = [(TOP / f"crates/profile/src/{file}.rt").read_text() for file in ("text", "text_2")]
    return re.search(rf'pub const {name}: &\[u8\] = b"([^"\\]*)";', "".join(texts)).group(1)


PROFILE, PROFILE_2 = profile_text("PROFILE_TEXT"), profile_text("PROFILE_TEXT_2")

# ---- scripts, and what they print

# one packet goes from the core to the terminal
SCRIPT = """\
module builtin
static u1 A 1 1 12 1 64
offer u1 b1 dl 45
get A.up1/1
get A.du1/1
air u1 b1 dl
"""
TRANSCRIPT = """\
> static u1 A 1 1 12 1 64
> offer u1 b1 dl 45
put A.up1/1 u1 b1 dl - 30FF00010000000145
> get A.up1/1
got A.up1/1 u1 b1 dl - 30FF00010000000145
put A.du1/1 u1 b1 dl 0 34FF000F00000001000000840200000000000000800045
> get A.du1/1
got A.du1/1 u1 b1 dl 0 34FF000F00000001000000840200000000000000800045
put r/u1/b1/dl/1 u1 b1 dl 0 800045
> air u1 b1 dl
got r/u1/b1/dl/1 u1 b1 dl 0 800045
deliver u1 b1 dl 0 45
end 5
"""
# six packets go to a terminal that is handed over to the other gNB meanwhile
HANDOVER = """\
> static u1 A 1 1 12 1 64
> offer u1 b1 dl 01
put A.up1/1 u1 b1 dl - 30FF00010000000101
> offer u1 b1 dl 02
put A.up1/1 u1 b1 dl - 30FF00010000000102
> offer u1 b1 dl 03
put A.up1/1 u1 b1 dl - 30FF00010000000103
> get A.up1/1
got A.up1/1 u1 b1 dl - 30FF00010000000101
put A.du1/1 u1 b1 dl 0 34FF000F00000001000000840200000000000000800001
> get A.up1/1
got A.up1/1 u1 b1 dl - 30FF00010000000102
put A.du1/1 u1 b1 dl 1 34FF000F00000001000000840200000000010000800102
> get A.up1/1
got A.up1/1 u1 b1 dl - 30FF00010000000103
put A.du1/1 u1 b1 dl 2 34FF000F00000001000000840200000000020000800203
> handover u1 B 1 1
put #1 A.cp B.cp u1 0001002E000008000100010000020002000100030002000200040001000009000100000A0002003C000C0001400013000100
> pump
got #1 A.cp B.cp u1 0001002E000008000100010000020002000100030002000200040001000009000100000A0002003C000C0001400013000100
put #2 B.cp B.up1 u1 00020023000006000100010000020002000100040001000009000100000A0002003C0012000180
got #2 B.cp B.up1 u1 00020023000006000100010000020002000100040001000009000100000A0002003C0012000180
put #3 B.up1 B.cp u1 2002002A000006000100010000020002000100050003000002000D0003000001000E0003000003000F0003000004
got #3 B.up1 B.cp u1 2002002A000006000100010000020002000100050003000002000D0003000001000E0003000003000F0003000004
put #4 B.cp B.du1 u1 000200250000060001000100000200020001000300020002000500030000020009000100000C000140
got #4 B.cp B.du1 u1 000200250000060001000100000200020001000300020002000500030000020009000100000C000140
put #5 B.du1 B.cp u1 20020015000003000100010000020002000100060003000001
got #5 B.du1 B.cp u1 20020015000003000100010000020002000100060003000001
put #6 B.cp A.cp u1 200100210000050001000100000200020001000C000140000E0003000003000F0003000004
got #6 B.cp A.cp u1 200100210000050001000100000200020001000C000140000E0003000003000F0003000004
put #7 A.cp A.up1 u1 000300260000060001000100000200020001000B000120000C000140000E0003000003000F0003000004
got #7 A.cp A.up1 u1 000300260000060001000100000200020001000B000120000C000140000E0003000003000F0003000004
put B.up1/3 u1 b1 dl 0 34FF000900000003000000C00100000001
put B.up1/3 u1 b1 dl 1 34FF000900000003000000C00100010002
put B.up1/3 u1 b1 dl 2 34FF000900000003000000C00100020003
put #8 A.up1 A.cp u1 200300170000030001000100000200020001001000050000030000
got #8 A.up1 A.cp u1 200300170000030001000100000200020001001000050000030000
put #9 A.cp B.cp u1 000200170000030001000100000200020002001000050000030000
got #9 A.cp B.cp u1 000200170000030001000100000200020002001000050000030000
put #10 B.cp A.cp u1 0005000E0000020001000100000200020002
put #11 B.cp B.up1 u1 0003001C0000040001000100000200020002000B000130001000050000030000
got #10 B.cp A.cp u1 0005000E0000020001000100000200020002
got #11 B.cp B.up1 u1 0003001C0000040001000100000200020002000B000130001000050000030000
put #12 B.up1 B.cp u1 2003000E0000020001000100000200020002
got #12 B.up1 B.cp u1 2003000E0000020001000100000200020002
> offer u1 b1 dl 04
put A.up1/1 u1 b1 dl - 30FF00010000000104
> offer u1 b1 dl 05
put A.up1/1 u1 b1 dl - 30FF00010000000105
> get A.up1/1
got A.up1/1 u1 b1 dl - 30FF00010000000104
put B.up1/3 u1 b1 dl - 30FF00010000000304
> get A.up1/1
got A.up1/1 u1 b1 dl - 30FF00010000000105
put B.up1/3 u1 b1 dl - 30FF00010000000305
> tick
put #13 A.cp A.du1 u1 000500110000020001000100000700050400000280
> pump
got #13 A.cp A.du1 u1 000500110000020001000100000700050400000280
put #14 A.du1 u1 u1 00000280
got #14 A.du1 u1 u1 00000280
> arrive u1
put #15 u1 B.du1 u1 200002
put r/u1/b1/ul/2 u1 b1 ul - 0000000000
> pump
got #15 u1 B.du1 u1 200002
put #16 B.du1 B.cp u1 0006001000000200010001000007000403200002
got #16 B.du1 B.cp u1 0006001000000200010001000007000403200002
put #17 B.cp B.up1 u1 0003001F000005000100010000020002000300060003000001000B0001100013000100
put #18 B.cp core u1 0001001A0000040001000100000200020001000C000140000D0003000001
got #17 B.cp B.up1 u1 0003001F000005000100010000020002000300060003000001000B0001100013000100
put B.du1/1 u1 b1 dl - 34FF0011000000010000008402000000000000000000000000
put #19 B.up1 B.cp u1 2003000E0000020001000100000200020003
got #18 B.cp core u1 0001001A0000040001000100000200020001000C000140000D0003000001
put #20 core B.cp u1 2001000E0000020001000100000200020001
put A.up1/1 u1 b1 dl - 30FE000000000001
got #19 B.up1 B.cp u1 2003000E0000020001000100000200020003
put #21 B.cp B.du1 u1 0005001000000200010001000007000403600002
got #20 core B.cp u1 2001000E0000020001000100000200020001
put #22 B.cp A.cp u1 0004000E0000020001000100000200020001
got #21 B.cp B.du1 u1 0005001000000200010001000007000403600002
put #23 B.du1 u1 u1 600002
got #22 B.cp A.cp u1 0004000E0000020001000100000200020001
put #24 A.cp B.cp u1 0005000E0000020001000100000200020001
put #25 A.cp A.du1 u1 0004000E0000020001000100000200020001
put #26 A.cp A.up1 u1 0004001300000300010001000002000200020014000100
got #23 B.du1 u1 u1 600002
got #24 A.cp B.cp u1 0005000E0000020001000100000200020001
got #25 A.cp A.du1 u1 0004000E0000020001000100000200020001
put #27 A.du1 A.cp u1 2004000E0000020001000100000200020001
put A.up1/2 u1 b1 ul - 30FE000000000002
lost A.du1/1 3
got #26 A.cp A.up1 u1 0004001300000300010001000002000200020014000100
put #28 A.up1 A.cp u1 2004000E0000020001000100000200020002
got #27 A.du1 A.cp u1 2004000E0000020001000100000200020001
got #28 A.up1 A.cp u1 2004000E0000020001000100000200020002
> offer u1 b1 dl 06
put B.up1/1 u1 b1 dl - 30FF00010000000106
> get B.up1/1
held B.up1/1 Early
> get A.up1/1
got A.up1/1 u1 b1 dl - 30FE000000000001
put B.up1/3 u1 b1 dl - 30FE000000000003
> get B.up1/3
got B.up1/3 u1 b1 dl 0 34FF000900000003000000C00100000001
put B.du1/1 u1 b1 dl 0 34FF000F00000001000000840200000000010000800001
> get B.up1/3
got B.up1/3 u1 b1 dl 1 34FF000900000003000000C00100010002
put B.du1/1 u1 b1 dl 1 34FF000F00000001000000840200000000020000800102
> get B.up1/3
got B.up1/3 u1 b1 dl 2 34FF000900000003000000C00100020003
put B.du1/1 u1 b1 dl 2 34FF000F00000001000000840200000000030000800203
> get B.up1/3
got B.up1/3 u1 b1 dl - 30FF00010000000304
put B.du1/1 u1 b1 dl 3 34FF000F00000001000000840200000000040000800304
> get B.up1/3
got B.up1/3 u1 b1 dl - 30FF00010000000305
put B.du1/1 u1 b1 dl 4 34FF000F00000001000000840200000000050000800405
> get B.up1/3
got B.up1/3 u1 b1 dl - 30FE000000000003
> get B.up1/1
got B.up1/1 u1 b1 dl - 30FF00010000000106
put B.du1/1 u1 b1 dl 5 34FF000F00000001000000840200000000060000800506
> get B.du1/1
got B.du1/1 u1 b1 dl - 34FF0011000000010000008402000000000000000000000000
put r/u1/b1/dl/2 u1 b1 dl - 0000000000
> air u1 b1 dl
got r/u1/b1/dl/2 u1 b1 dl - 0000000000
> get B.du1/1
got B.du1/1 u1 b1 dl 0 34FF000F00000001000000840200000000010000800001
put r/u1/b1/dl/2 u1 b1 dl 0 800001
> air u1 b1 dl
got r/u1/b1/dl/2 u1 b1 dl 0 800001
deliver u1 b1 dl 0 01
> get B.du1/1
got B.du1/1 u1 b1 dl 1 34FF000F00000001000000840200000000020000800102
put r/u1/b1/dl/2 u1 b1 dl 1 800102
> air u1 b1 dl
got r/u1/b1/dl/2 u1 b1 dl 1 800102
deliver u1 b1 dl 1 02
> get B.du1/1
got B.du1/1 u1 b1 dl 2 34FF000F00000001000000840200000000030000800203
put r/u1/b1/dl/2 u1 b1 dl 2 800203
> air u1 b1 dl
got r/u1/b1/dl/2 u1 b1 dl 2 800203
deliver u1 b1 dl 2 03
> get B.du1/1
got B.du1/1 u1 b1 dl 3 34FF000F00000001000000840200000000040000800304
put r/u1/b1/dl/2 u1 b1 dl 3 800304
> air u1 b1 dl
got r/u1/b1/dl/2 u1 b1 dl 3 800304
deliver u1 b1 dl 3 04
> get B.du1/1
got B.du1/1 u1 b1 dl 4 34FF000F00000001000000840200000000050000800405
put r/u1/b1/dl/2 u1 b1 dl 4 800405
> air u1 b1 dl
got r/u1/b1/dl/2 u1 b1 dl 4 800405
deliver u1 b1 dl 4 05
> get B.du1/1
got B.du1/1 u1 b1 dl 5 34FF000F00000001000000840200000000060000800506
put r/u1/b1/dl/2 u1 b1 dl 5 800506
> air u1 b1 dl
got r/u1/b1/dl/2 u1 b1 dl 5 800506
deliver u1 b1 dl 5 06
end 41
"""
# each refusal that a short script may meet
REFUSALS = """\
module builtin
offer u1 b1 dl 45
get A.up1/1
static u1 A 1 1 12 1 4
get A.up1/9
get A.up1/2
offer u2 b1 dl 45
air u1 b1 dl
static u1 A 1 1 12 1 8
get A.up1/1
"""
REFUSED = """\
> offer u1 b1 dl 45
refused NoBearer
> get A.up1/1
refused NoSuch
> static u1 A 1 1 12 1 4
> get A.up1/9
refused NoSuch
> get A.up1/2
refused Empty
> offer u2 b1 dl 45
refused NoBearer
> air u1 b1 dl
refused Empty
> static u1 A 1 1 12 1 8
refused Attached
> get A.up1/1
refused Empty
end 9
"""
# five packets where the quota is four: the fifth stays at the head of its tunnel, however often it is asked for
FIVE_PACKETS = """\
module builtin
static u1 A 1 1 12 1 4
offer u1 b1 dl 01
offer u1 b1 dl 02
offer u1 b1 dl 03
offer u1 b1 dl 04
offer u1 b1 dl 05
get A.up1/1
get A.up1/1
get A.up1/1
get A.up1/1
get A.up1/1
get A.up1/1
"""
HELD = """\
> static u1 A 1 1 12 1 4
> offer u1 b1 dl 01
put A.up1/1 u1 b1 dl - 30FF00010000000101
> offer u1 b1 dl 02
put A.up1/1 u1 b1 dl - 30FF00010000000102
> offer u1 b1 dl 03
put A.up1/1 u1 b1 dl - 30FF00010000000103
> offer u1 b1 dl 04
put A.up1/1 u1 b1 dl - 30FF00010000000104
> offer u1 b1 dl 05
put A.up1/1 u1 b1 dl - 30FF00010000000105
> get A.up1/1
got A.up1/1 u1 b1 dl - 30FF00010000000101
put A.du1/1 u1 b1 dl 0 34FF000F00000001000000840200000000000000800001
> get A.up1/1
got A.up1/1 u1 b1 dl - 30FF00010000000102
put A.du1/1 u1 b1 dl 1 34FF000F00000001000000840200000000010000800102
> get A.up1/1
got A.up1/1 u1 b1 dl - 30FF00010000000103
put A.du1/1 u1 b1 dl 2 34FF000F00000001000000840200000000020000800203
> get A.up1/1
got A.up1/1 u1 b1 dl - 30FF00010000000104
put A.du1/1 u1 b1 dl 3 34FF000F00000001000000840200000000030000800304
> get A.up1/1
held A.up1/1 Quota
> get A.up1/1
held A.up1/1 Quota
end 12
"""
# of an unacknowledged bearer a packet is missing, is awaited for two ticks, and comes too late
LATE_PACKET = """\
offer 01
offer 02
offer 03
give #1
give #3
tick
tick
give #2
ask
"""
LATE = """\
> offer 01
put #1 0 800001
> offer 02
put #2 1 800102
> offer 03
put #3 2 800203
> give #1
got #1 0 800001
deliver 0 01
> give #3
got #3 2 800203
> tick
> tick
deliver 2 03
> give #2
got #2 1 800102
drop Late
> ask
waiting 3 3 0
end 9
"""
# a packet goes over two legs: the copy that comes first is delivered, the other one dropped
TWO_LEGS = """\
offer 01
carry 2
carry 1
confirm 2
confirm 1
ask
"""
DUPLICATED = """\
> offer 01
put L1 0 800001
put L2 0 800001
> carry 2
got L2 0 800001
deliver 0 01
> carry 1
got L1 0 800001
drop Duplicate
> confirm 2
> confirm 1
> ask
quiet 1
end 6
"""


def script_of(transcript):
    """The script of `run` whose transcript this is."""
    return "module builtin\n" + "".join(f"{line[2:]}\n" for line in transcript.splitlines() if line.startswith("> "))


# ---- calls: the words, the input, and what is printed

# scripts that are run, and words that are no form
RUNS = [
    ("run", SCRIPT, TRANSCRIPT),
    ("run", script_of(HANDOVER), HANDOVER),
    ("go", SCRIPT, "stop 2 0 0\n"),
    ("profile 1", SCRIPT, "stop 2 0 0\n"),
    ("profile 2 2", SCRIPT, "stop 2 0 0\n"),
    ("run", "", "stop 4 1 1\n"),
    ("run", "module builtin x", "stop 4 1 4\n"),
    ("run", "module builtin\n\n; none\n\n", "end 0\n"),
    ("run", "module builtin\n\nair u2 b1 dl\n; one\nget A.up1\n", "> air u2 b1 dl\nrefused NoBearer\nstop 4 5 2\n"),
    ("run", "module builtin\nair u1 b1 dl", "> air u1 b1 dl\nrefused NoBearer\nend 1\n"),
    ("run", REFUSALS, REFUSED),
    ("run", FIVE_PACKETS, HELD),
    ("run", "module builtin 2\n", "stop 4 1 4\n"),
    ("run", "module text\n", "module 2 1 9\nstop 3 2 9\n"),
    ("run", "module text\nM DEFINITIONS AUTOMATIC TAGS ::= BEGIN\nEND\nair u1 b1 dl\n", "differs Bearer\nstop 3 0 20\n"),
    ("run", "module text\nM DEFINITIONS AUTOMATIC TAGS ::= BEGIN END x\nEND\nair u1 b1 dl\n", "stop 4 3 4\n"),
    # the text of the profile itself is taken, and that of its version 2 is another module
    ("run", f"module text\n{PROFILE}air u1 b1 dl\n", "> air u1 b1 dl\nrefused NoBearer\nend 1\n"),
    ("run", f"module text\n{PROFILE_2}air u1 b1 dl\n", "differs HandoverRequest\nstop 3 0 20\n"),
]
# scripts of one bearer
BEARERS = [
    ("um 12 2", LATE_PACKET, LATE),
    ("um 18 1000", "\n; none\n", "end 0\n"),
    ("um 12 2", "tick\ngive 1\n", "> tick\nstop 4 2 2\n"),
    ("um", LATE_PACKET, "stop 2 0 0\n"),
    ("um 12", LATE_PACKET, "stop 2 0 0\n"),
    ("um 13 2", LATE_PACKET, "stop 2 0 0\n"),
    ("um 12 0", LATE_PACKET, "stop 2 0 0\n"),
    ("um 12 1001", LATE_PACKET, "stop 2 0 0\n"),
    ("um 12 2 2", LATE_PACKET, "stop 2 0 0\n"),
    ("duplicate 12 4", TWO_LEGS, DUPLICATED),
    ("duplicate 18 4096", "", "end 0\n"),
    ("duplicate 12 4", "ask\ncarry 0\n", "> ask\nquiet 0\nstop 4 2 2\n"),
    ("duplicate 12", TWO_LEGS, "stop 2 0 0\n"),
    ("duplicate 12 3", TWO_LEGS, "stop 2 0 0\n"),
    ("duplicate 12 4097", TWO_LEGS, "stop 2 0 0\n"),
]
# scripts of an unacknowledged bearer, worked by hand from TS 38.323, 5.2.2
UNACKNOWLEDGED = [
    # in order: a packet is delivered at once
    ("um 12 1", "offer 0a\ngive #1\nask\n", "> offer 0A\nput #1 0 80000A\n> give #1\ngot #1 0 80000A\ndeliver 0 0A\n> ask\nwaiting 1 1 0\nend 3\n"),
    # a message that was never put, and one that isn't on the link any more
    ("um 12 1", "give #1\noffer ab\nlose #1\ngive #1\nagain #1\nlose #1\n", "> give #1\nrefused NoSuch\n> offer AB\nput #1 0 8000AB\n> lose #1\nlost #1 1\n> give #1\nrefused Empty\n> again #1\nrefused Empty\n> lose #1\nrefused Empty\nend 6\n"),
    # a packet that is stored, and then one that was delivered
    ("um 12 5", "offer 01\noffer 02\nagain #2\nagain #2\ngive #1\nagain #2\n", "> offer 01\nput #1 0 800001\n> offer 02\nput #2 1 800102\n> again #2\ngot #2 1 800102\n> again #2\ngot #2 1 800102\ndrop Duplicate\n> give #1\ngot #1 0 800001\ndeliver 0 01\ndeliver 1 02\n> again #2\ngot #2 1 800102\ndrop Late\nend 6\n"),
    # two gaps: the timer awaits the first one, and then the second one with all its ticks
    ("um 12 1", "offer 01\noffer 02\noffer 03\noffer 04\ngive #2\ngive #4\ntick\ntick\nask\ngive #1\n", "> offer 01\nput #1 0 800001\n> offer 02\nput #2 1 800102\n> offer 03\nput #3 2 800203\n> offer 04\nput #4 3 800304\n> give #2\ngot #2 1 800102\n> give #4\ngot #4 3 800304\n> tick\ndeliver 1 02\n> tick\ndeliver 3 04\n> ask\nwaiting 4 4 0\n> give #1\ngot #1 0 800001\ndrop Late\nend 10\n"),
    # what came after the timer started is delivered with what it awaited, where there is no gap between
    ("um 12 2", "offer 01\noffer 02\noffer 03\ngive #2\ntick\ngive #3\ntick\nask\n", "> offer 01\nput #1 0 800001\n> offer 02\nput #2 1 800102\n> offer 03\nput #3 2 800203\n> give #2\ngot #2 1 800102\n> tick\n> give #3\ngot #3 2 800203\n> tick\ndeliver 1 02\ndeliver 2 03\n> ask\nwaiting 3 3 0\nend 8\n"),
    # the gap is filled: the timer stops, and starts anew for the next gap
    ("um 12 2", "offer 01\noffer 02\noffer 03\noffer 04\ngive #2\ntick\ngive #4\ngive #1\ntick\nask\ntick\nask\n", "> offer 01\nput #1 0 800001\n> offer 02\nput #2 1 800102\n> offer 03\nput #3 2 800203\n> offer 04\nput #4 3 800304\n> give #2\ngot #2 1 800102\n> tick\n> give #4\ngot #4 3 800304\n> give #1\ngot #1 0 800001\ndeliver 0 01\ndeliver 1 02\n> tick\n> ask\nwaiting 2 4 1\n> tick\ndeliver 3 04\n> ask\nwaiting 4 4 0\nend 12\n"),
    # only a part of the gap is filled: the timer runs on
    ("um 12 2", "offer 01\noffer 02\noffer 03\ngive #3\ntick\ngive #1\ntick\nask\n", "> offer 01\nput #1 0 800001\n> offer 02\nput #2 1 800102\n> offer 03\nput #3 2 800203\n> give #3\ngot #3 2 800203\n> tick\n> give #1\ngot #1 0 800001\ndeliver 0 01\n> tick\ndeliver 2 03\n> ask\nwaiting 3 3 0\nend 8\n"),
    # a timer that doesn't run
    ("um 12 1", "tick\nask\n", "> tick\n> ask\nwaiting 0 0 0\nend 2\n"),
    # nothing, or lines that are skipped alone
    ("um 12 1", "", "end 0\n"),
    ("um 12 1", "; none\n\n;tick\n", "end 0\n"),
    # lines that are no event
    ("um 12 1", "; a half octet\n\noffer 0\n", "stop 4 3 3\n"),
    ("um 12 1", "tick\ntick 1", "> tick\nstop 4 2 4\n"),
    # a packet that is missing is passed by a tick
    ("um 12 1", "offer 01\noffer 02\ngive #2\ntick\nask", "> offer 01\nput #1 0 800001\n> offer 02\nput #2 1 800102\n> give #2\ngot #2 1 800102\n> tick\ndeliver 1 02\n> ask\nwaiting 2 2 0\nend 5\n"),
]
# scripts of one bearer with duplication
DUPLICATES = [
    # each leg fails in turn: the one that is mended gets all that is unconfirmed
    ("duplicate 12 4", "offer 01\noffer 02\nfail 1\ncarry 2\nfail 2\ncarry 2\nmend 1\ncarry 1\ncarry 1\ndrain\nask\n", "> offer 01\nput L1 0 800001\nput L2 0 800001\n> offer 02\nput L1 1 800102\nput L2 1 800102\n> fail 1\nlost L1 2\n> carry 2\ngot L2 0 800001\ndeliver 0 01\n> fail 2\nlost L2 2\n> carry 2\nrefused Down\n> mend 1\nput L1 0 800001\nput L1 1 800102\n> carry 1\ngot L1 0 800001\ndrop Duplicate\n> carry 1\ngot L1 1 800102\ndeliver 1 02\n> drain\n> ask\nquiet 2\nend 11\n"),
    # the mode comes to be the leg that is down: packets are numbered, and put where it is mended
    ("duplicate 12 4", "fail 1\noffer 01\nmode 1\ncarry 1\noffer 02\nask\nmode 1\nmend 1\ndrain\nask\n", "> fail 1\n> offer 01\nput L2 0 800001\n> mode 1\nlost L2 1\n> carry 1\nrefused Down\n> offer 02\n> ask\nbusy\n> mode 1\nrefused Same\n> mend 1\nput L1 0 800001\nput L1 1 800102\n> drain\ngot L1 0 800001\ndeliver 0 01\ngot L1 1 800102\ndeliver 1 02\n> ask\nquiet 2\nend 10\n"),
    # a leg that is mended outside the mode gets nothing before it enters
    ("duplicate 12 4", "mode 1\nfail 2\noffer 01\nmend 2\nmend 2\ncarry 2\nmode both\ncarry 2\n", "> mode 1\n> fail 2\n> offer 01\nput L1 0 800001\n> mend 2\n> mend 2\nrefused Up\n> carry 2\nrefused Empty\n> mode both\nput L2 0 800001\n> carry 2\ngot L2 0 800001\ndeliver 0 01\nend 8\n"),
    # both legs are down: a drain does nothing
    ("duplicate 12 4", "fail 1\nfail 2\nfail 2\noffer 01\ndrain\nask\nmend 2\ndrain\nask\n", "> fail 1\n> fail 2\n> fail 2\nrefused Down\n> offer 01\n> drain\n> ask\nbusy\n> mend 2\nput L2 0 800001\n> drain\ngot L2 0 800001\ndeliver 0 01\n> ask\nquiet 1\nend 9\n"),
    # the quota is full, and a confirmation takes the copy off the other leg
    ("duplicate 12 4", "offer 01\noffer 02\noffer 03\noffer 04\noffer 05\nconfirm 1\ncarry 1\nconfirm 1\noffer 05\n", "> offer 01\nput L1 0 800001\nput L2 0 800001\n> offer 02\nput L1 1 800102\nput L2 1 800102\n> offer 03\nput L1 2 800203\nput L2 2 800203\n> offer 04\nput L1 3 800304\nput L2 3 800304\n> offer 05\nrefused Quota\n> confirm 1\nrefused Empty\n> carry 1\ngot L1 0 800001\ndeliver 0 01\n> confirm 1\nlost L2 1\n> offer 05\nput L1 4 800405\nput L2 4 800405\nend 9\n"),
    # the leg that leaves the mode loses its items before the one that enters gets any; a carried copy stays
    ("duplicate 12 4", "offer 01\nmode 2\nmode 1\ncarry 1\nmode both\ncarry 2\nconfirm 1\nask\nconfirm 2\nask\n", "> offer 01\nput L1 0 800001\nput L2 0 800001\n> mode 2\nlost L1 1\n> mode 1\nlost L2 1\nput L1 0 800001\n> carry 1\ngot L1 0 800001\ndeliver 0 01\n> mode both\nput L2 0 800001\n> carry 2\ngot L2 0 800001\ndrop Duplicate\n> confirm 1\n> ask\nbusy\n> confirm 2\n> ask\nquiet 1\nend 10\n"),
    # nothing, and lines that are no event
    ("duplicate 12 4", "", "end 0\n"),
    ("duplicate 12 4", "; a leg\n\ncarry 3\n", "stop 4 3 2\n"),
    ("duplicate 12 4", "mode 3", "stop 4 1 1\n"),
    ("duplicate 12 4", "ask\ndrain 1\n", "> ask\nquiet 0\nstop 4 2 4\n"),
]
# scripts that are made
GENERATED = [
    ("generate 1", SCRIPT, "generated 1 delivered 1 returns 0 events 8 quiet 1\n"),
    ("generate 2", "not a header", "generated 2 delivered 2 returns 0 events 14 quiet 1\n"),
    ("generate 100", SCRIPT, "generated 100 delivered 100 returns 1 events 611 quiet 1\n"),
    ("generate", SCRIPT, "stop 2 0 0\n"),
    ("generate 0", SCRIPT, "stop 2 0 0\n"),
    ("generate 01", SCRIPT, "stop 2 0 0\n"),
    ("generate +1", SCRIPT, "stop 2 0 0\n"),
    ("generate 100001", SCRIPT, "stop 2 0 0\n"),
    ("generate 1 1", SCRIPT, "stop 2 0 0\n"),
]
# the texts of the profile
PROFILES = [
    ("profile", "not a header", PROFILE),
    ("profile 2", "not a header", PROFILE_2),
]
# modules that are checked
CHECKS = [
    ("check", "", "stop 4 1 1\n"),
    ("check", "module", "stop 4 1 1\n"),
    ("check", "module x\n", "stop 4 1 1\n"),
    ("check", "module builtin\n", "module SplitGNB 53\n"),
    ("check", "module builtin 2", "module SplitGNB 53\n"),
    ("check", "module builtin\n\n", "stop 4 2 4\n"),
    ("check", "module text x\n", "stop 4 1 4\n"),
    ("check", module("T ::= BOOLEAN"), "module M 1\n"),
    ("check", "module text\nM DEFINITIONS AUTOMATIC TAGS ::= BEGIN\nT ::= BOOLEAN END", "module M 1\n"),
    ("check", module("T ::= REAL") + "more\n", "module 3 7 6\nstop 3 3 6\n"),
    ("check", "module text\nM DEFINITIONS AUTOMATIC TAGS ::= BEGIN END x\n\n", "stop 4 3 4\n"),
    ("check", "module text\nM DEFINITIONS AUTOMATIC TAGS ::= BEGIN\nEND\n\n", "stop 4 4 4\n"),
    ("check", "module text\nM END\nEND\n", "module 2 3 2\nstop 3 2 2\n"),
    ("check", "module text\nM END\nEND\nmore\n", "module 2 3 2\nstop 3 2 2\n"),
    ("check", "module text\nM DEFINITIONS AUTOMATIC TAGS ::= BEGIN\nT ::= BOOLEAN\nEND", "module M 1\n"),
    ("check", "module text\nM-1 DEFINITIONS AUTOMATIC TAGS ::= BEGIN END", "module M-1 0\n"),
    ("check", "module text\nM DEFINITIONS AUTOMATIC TAGS ::= BEGIN T ::= U U ::= BOOLEAN END -- the last\n\r\n\n", "module M 2\n"),
    ("check", "module text\nM DEFINITIONS AUTOMATIC TAGS ::= BEGIN END--\n-- END\n", "module M 0\n"),
    ("check", "\n", "stop 4 1 1\n"),
    ("check", " module text\n", "stop 4 1 1\n"),
    ("check", "module  text\n", "stop 4 1 1\n"),
    ("check", "module text\r\n", "stop 4 1 1\n"),
    ("check", "module text \n", "stop 4 1 4\n"),
    ("check", "module text", "module 2 1 9\nstop 3 2 9\n"),
    ("check", "module text\n", "module 2 1 9\nstop 3 2 9\n"),
    ("check", "module text\nM DEFINITIONS", "module 2 14 9\nstop 3 2 9\n"),
    ("check", "module text\nM DEFINITIONS\n", "module 3 1 9\nstop 3 3 9\n"),
    ("check", module("T ::= REAL"), "module 3 7 6\nstop 3 3 6\n"),
    ("check", module("T ::= U") + "more\n", "module 3 7 3\nstop 3 3 3\n"),
    ("check", "module text\nEND\nmore\n", "module 2 1 2\nstop 3 2 2\n"),
    ("check", "module text\nM DEFINITIONS AUTOMATIC TAGS ::= BEGIN END x\nEND\nmore\n", "stop 4 3 4\n"),
    ("check", "module text\nM DEFINITIONS AUTOMATIC TAGS ::= BEGIN END\n-- c -- END\n\n", "stop 4 4 4\n"),
    ("check", "module text\nM DEFINITIONS AUTOMATIC TAGS ::= BEGIN END\n  END\n", "stop 4 3 4\n"),
    ("check", 'module text\nM DEFINITIONS AUTOMATIC TAGS ::= BEGIN END "', "stop 4 2 4\n"),
    ("check", "module text\nM DEFINITIONS AUTOMATIC TAGS ::= BEGIN\nEND\nmore\n", "stop 4 4 4\n"),
    ("check", "module builtin", "module SplitGNB 53\n"),
    ("check", "module builtin 2\n", "module SplitGNB 53\n"),
    ("check", "module builtins\n", "stop 4 1 1\n"),
    ("check", "module builtin\r\n", "stop 4 1 1\n"),
    ("check", "module builtin \n", "stop 4 1 4\n"),
    ("check", "module builtin 3\n", "stop 4 1 4\n"),
    ("check", "module builtin 2 \n", "stop 4 1 4\n"),
    ("check", "module builtin 2\nmore", "stop 4 2 4\n"),
]
# lines after a module, and words that are no form
LINES = [
    ("decode T", module("T ::= BOOLEAN") + "80\n00\n", "true\nfalse\n"),
    ("encode", module("T ::= BOOLEAN"), "stop 2 0 0\n"),
    ("decode", module("T ::= BOOLEAN"), "stop 2 0 0\n"),
    ("decode T T", module("T ::= BOOLEAN"), "stop 2 0 0\n"),
    ("decode T", "", "stop 4 1 1\n"),
    ("decode T", module("T ::= BOOLEAN"), ""),
    ("encode T", "module builtin 2\n", "module 0 0 3\nstop 3 0 3\n"),
    ("decode Z", module("T ::= BOOLEAN"), "module 0 0 3\nstop 3 0 3\n"),
    ("decode T", module("T ::= REAL") + "80\n", "module 3 7 6\nstop 3 3 6\n"),
    ("decode T", module("T ::= BOOLEAN") + "81\n80\n", "wrong 1 2 -\nstop 8 5 2\n"),
    ("decode T", module("T ::= BOOLEAN") + "8g\n", "wrong 0 100 -\nstop 8 5 100\n"),
    ("decode T", module("T ::= BOOLEAN") + "\n80\n", "wrong 0 1 -\nstop 8 5 1\n"),
]
# values of each form of type, both ways, and faults of JSON
VALUES = [
    ("encode T", module("T ::= SEQUENCE {a BOOLEAN, b INTEGER (0..255)}") + '{"a":true,"b":200}\n', "80C8\n"),
    ("encode T", module("T ::= SEQUENCE {a BOOLEAN, b INTEGER (0..254)}") + '{"b":200,"a":true}\n', "E400\n"),
    ("encode T", module("T ::= INTEGER (0..65536)") + "0\n65536", "0000\n80010000\n"),
    ("decode T", module("T ::= INTEGER (0..65536)") + "80010000\n400000\n", "65536\nwrong 8 4 -\nstop 8 6 4\n"),
    ("encode T", module("T ::= INTEGER (0..68719476735)") + "1\n68719476735\n", "0001\n800FFFFFFFFF\n"),
    ("encode T", module("T ::= PrintableString (SIZE (1..150, ...))") + '"du1"\n', "0100647531\n"),
    ("encode T", module("T ::= SEQUENCE {}") + "{}\n", "00\n"),
    ("decode T", module("T ::= SEQUENCE {}") + "00\n\n", "{}\nwrong 0 1 -\nstop 8 6 1\n"),
    ("encode T", module("T ::= ENUMERATED {a, b, ...}") + '"b"\n{"unknown":2}\n', "40\n82\n"),
    ("encode T", module("T ::= INTEGER (0..10, ...)") + "5\n300\n", "28\n8002012C\n"),
    ("encode T", module("T ::= SEQUENCE OF BOOLEAN") + "[true,false]\n", "0280\n"),
    ("encode T", module("T ::= CHOICE {a BOOLEAN, b INTEGER (0..255), ...}") + '{"b":7}\n{"...":[1,"aa"]}\n', "4007\n8101AA\n"),
    ("encode T", module("S PROTOCOL-IES ::= {{ID 1 CRITICALITY reject TYPE BOOLEAN PRESENCE mandatory}, ...}\nT ::= ProtocolIE-Container {{S}}") + '[{"criticality":"reject","id":1,"value":true}]\n[]\n', "00010001000180\nwrong 0 103 -\nstop 8 7 103\n"),
    ("decode T", module("S PROTOCOL-IES ::= {{ID 1 CRITICALITY reject TYPE BOOLEAN PRESENCE mandatory}, ...}\nT ::= ProtocolIE-Container {{S}}") + "0000\n", "wrong 0 10 -\nstop 8 6 10\n"),
    ("decode T", module("S PROTOCOL-IES ::= {{ID 1 CRITICALITY reject TYPE BOOLEAN PRESENCE mandatory}, ...}\nT ::= ProtocolIE-Container {{S}}") + "00010001000180\n0001000100028000\n", '[{"criticality":"reject","id":1,"value":true}]\nwrong 56 9 #1\nstop 8 7 9\n'),
    ("decode T", module("S PROTOCOL-IES ::= {{ID 1 CRITICALITY reject TYPE INTEGER (0..65535) PRESENCE mandatory}, ...}\nT ::= ProtocolIE-Container {{S}}") + "00010001000180\n", "wrong 48 8 #1\nstop 8 6 8\n"),
    ("encode T", module("T ::= SEQUENCE {a BOOLEAN, ..., b BOOLEAN}") + '{"a":true,"...":[true]}\n{"a":true,"...":[null]}\n', "C0400180\nwrong 0 103 -\nstop 8 6 103\n"),
    ("decode T", module("T ::= SEQUENCE {a BOOLEAN, ..., b BOOLEAN}") + "C0400180\nC0400181\n", '{"...":[true],"a":true}\nwrong 25 2 b\nstop 8 6 2\n'),
    ("decode T", module("T ::= SEQUENCE {a BOOLEAN, ...}") + "C0400180\nC0400181\n", '{"...":["80"],"a":true}\n{"...":["81"],"a":true}\n'),
    # white space, an escaped name, the last of two members of one name
    ("encode T", module("T ::= SEQUENCE {a OCTET STRING, b BOOLEAN OPTIONAL}") + ' { "b" : true , "b" : false , "a" : "aB" , "\\u0061" : "cD" } \n', "8001CD00\n"),
    # an empty line is no JSON
    ("encode T", module("T ::= BOOLEAN") + "true\n\nfalse\n", "80\nwrong 0 101 -\nstop 8 6 101\n"),
    ("encode T", module("T ::= INTEGER (0..5)") + "-0\n", "wrong 0 102 -\nstop 8 5 102\n"),
    # the members come in the order of the type, then what concerns the whole object
    ("encode T", module("T ::= SEQUENCE {a SEQUENCE (SIZE (2)) OF BOOLEAN, b INTEGER (0..5)}") + '{"c":1,"b":9,"a":[true,1,2]}\n', "wrong 0 102 a.[1]\nstop 8 5 102\n"),
    ("encode T", module("T ::= SEQUENCE {a SEQUENCE (SIZE (2)) OF BOOLEAN, b INTEGER (0..5)}") + '{"c":1,"b":9,"a":[true,true]}\n', "wrong 0 103 b\nstop 8 5 103\n"),
    ("encode F1AP-PDU", 'module builtin\n{"initiatingMessage":{"criticality":"reject","procedureCode":6,"value":{"protocolIEs":[{"criticality":"reject","id":1,"value":1},{"criticality":"reject","id":7,"value":"400002"},{"criticality":"ignore","id":99,"raw":"aa"}]}}}\n', "000600150000030001000100000700040340000200634001AA\n"),
]


def unsound(line, rule):
    """What is printed of a text that breaks this rule first, in this line."""
    return f"unsound {line} {rule}\nstop 12 {line} {rule}\n"


def sound(text):
    """A row of a transcript that is sound."""
    return "verify", text, f"sound {len(text.splitlines())}\n"


def without(text, *lines):
    """A text without the lines of these numbers."""
    return "".join(line for number, line in enumerate(text.splitlines(keepends=True), 1) if number not in lines)


PLACED = "> static u1 A 1 1 12 1 64\n"
OFFERED = PLACED + "> offer u1 b1 dl 45\nput A.up1/1 u1 b1 dl - 30FF00010000000145\n"
TWO_OFFERED = OFFERED + "> offer u1 b1 dl 46\nput A.up1/1 u1 b1 dl - 30FF00010000000146\n"
# a message that needs no other one, and its octets with a length of two octets, which has a shorter form
CONFIRM = "> pump\nput #1 B.cp A.cp u1 0005000E0000020001000100000200020002\n"
LONGER_FORM = CONFIRM.replace("0005000E", "000500800E")
# transcripts that are judged, of each rule some
VERIFIED = [
    sound(TRANSCRIPT),
    ("verify", TRANSCRIPT[:-1], "sound 13\n"),
    *map(sound, (HANDOVER, REFUSED, HELD, "end 0\n", "stop 4 1 1\n", "stop 255 18446744073709551615 65535\n", CONFIRM + "end 1\n")),
    # 1: no line of a transcript, or not at this place
    ("verify", "\n", unsound(1, 1)),
    ("verify", "; a remark\n" + TRANSCRIPT, unsound(1, 1)),
    ("verify", TRANSCRIPT.replace("\n", "\r\n"), unsound(1, 1)),
    ("verify", "\x00\x7f", unsound(1, 1)),
    ("verify", "differs Quota\nstop 3 0 20\n", unsound(1, 1)),
    ("verify", "refused Empty\nend 0\n", unsound(1, 1)),
    ("verify", "end 1\n", unsound(1, 1)),
    ("verify", TRANSCRIPT.replace("30FF", "30ff"), unsound(3, 1)),
    ("verify", TRANSCRIPT.replace("end 5", "end 6"), unsound(13, 1)),
    ("verify", TRANSCRIPT + "\n", unsound(14, 1)),
    ("verify", "stop 6 0 0\nstop 6 0 0\n", unsound(2, 1)),
    ("verify", PLACED + "outstanding u1 b1 dl 2049 2048\nend 1\n", unsound(3, 1)),
    sound(PLACED + "outstanding u1 b1 dl 2049 18446744073709551615\nstop 5 2 0\n"),
    ("verify", PLACED + "put r/u1/b1/dl/1 u1 b2 dl 0 800045\nend 1\n", unsound(2, 1)),
    ("verify", PLACED + "stop 256 0 0\n", unsound(2, 1)),
    # 2: the newest item for the oldest, one that was lost, more than stand, and messages
    ("verify", TWO_OFFERED + "> get A.up1/1\ngot A.up1/1 u1 b1 dl - 30FF00010000000146\nend 4\n", unsound(7, 2)),
    ("verify", OFFERED + "got A.up1/1 u1 b1 dl 0 30FF00010000000145\nend 2\n", unsound(4, 2)),
    ("verify", TWO_OFFERED + "lost A.up1/1 2\nlost A.up1/1 1\nend 3\n", unsound(7, 2)),
    sound(TRANSCRIPT.replace("end 5", "lost r/u1/b1/dl/1 9\nlost #7 18446744073709551615\nend 5")),
    ("verify", TRANSCRIPT.replace("> air u1 b1 dl", "lost r/u1/b1/dl/1 1"), unsound(11, 2)),
    ("verify", CONFIRM + CONFIRM, unsound(4, 2)),
    ("verify", CONFIRM + "got #1 B.cp A.cp u2 0005000E0000020001000100000200020002\nend 1\n", unsound(3, 2)),
    ("verify", CONFIRM + "got #2 B.cp A.cp u1 0005000E0000020001000100000200020002\nend 1\n", unsound(3, 2)),
    # 3: octets without a layout of the link, and bearers that no accepted event set
    ("verify", TRANSCRIPT.replace("put A.up1/1 u1 b1 dl - 30FF", "put A.up1/1 u1 b1 dl - 20FF"), unsound(3, 3)),
    ("verify", TRANSCRIPT.replace("put A.up1/1", "put A.du1/1"), unsound(3, 3)),
    ("verify", TRANSCRIPT.replace("put A.up1/1", "put core/1"), unsound(3, 3)),
    ("verify", PLACED + "refused Quota\nput r/u1/b1/dl/1 u1 b1 dl - 0000000000\nend 1\n", unsound(3, 3)),
    ("verify", PLACED + "put A.up1/1 u1 b2 ul - 30FE000000000001\nend 1\n", unsound(2, 3)),
    sound(PLACED + "put A.up1/1 u1 b1 ul - 30FE000000000001\nend 1\n"),
    # the first event that sets a terminal counts, so numbers have 12 bits
    sound(PLACED + "> static u1 A 1 1 18 8 64\n> offer u1 b1 dl 45\nput r/u1/b1/dl/1 u1 b1 dl 0 800045\nend 3\n"),
    # 4: another packet than that of the COUNT, another number
    ("verify", TRANSCRIPT.replace("dl 0 45", "dl 0 46"), unsound(12, 4)),
    ("verify", TWO_OFFERED + "put r/u1/b1/dl/1 u1 b1 dl 0 800046\nend 3\n", unsound(6, 4)),
    ("verify", TRANSCRIPT.replace("dl 0 800045", "dl 0 800145"), unsound(9, 4)),
    # 5: a packet that was delivered, and a bearer that isn't quiet
    ("verify", TRANSCRIPT.replace("end 5", "deliver u1 b1 dl 0 45\nend 5"), unsound(13, 5)),
    ("verify", OFFERED + "> ask u1 b1\nquiet u1 b1 1 0\nend 3\n", unsound(5, 5)),
    sound(TRANSCRIPT.replace("end 5", "quiet u1 b1 1 0\nend 5")),
    # 6: a packet that was never offered, was refused, is of the other direction, or wasn't received
    ("verify", OFFERED.replace("145\n", "146\n"), unsound(3, 6)),
    ("verify", OFFERED.replace("45\nput", "45\nrefused Size\nput"), unsound(4, 6)),
    ("verify", OFFERED.replace("offer u1 b1 dl", "offer u1 b1 ul"), unsound(3, 6)),
    ("verify", without(TRANSCRIPT, 11), unsound(11, 6)),
    # 7: octets that are no message, and such that aren't its one spelling
    ("verify", "> pump\nput #1 B.cp A.cp u1 00\nend 1\n", unsound(2, 7)),
    ("verify", CONFIRM[:-1] + "00\nend 1\n", unsound(2, 7)),
    ("verify", LONGER_FORM + "end 1\n", unsound(2, 7)),
    # 8: the end is missing
    ("verify", "", unsound(1, 8)),
    ("verify", TRANSCRIPT.removesuffix("end 5\n"), unsound(13, 8)),
    # and words that are no form
    ("verify x", TRANSCRIPT, "stop 2 0 0\n"),
]
CALLS = [*RUNS, *BEARERS, *UNACKNOWLEDGED, *DUPLICATES, *GENERATED, *PROFILES, *CHECKS, *VERIFIED, *LINES, *VALUES]

# ---- long calls

# a packet of 2,048 octets is taken, and one of 2,049 is refused
LONGEST = "A5" * 2048
SIZES = (
    "run",
    f"module builtin\nstatic u1 A 1 1 12 1 4\noffer u1 b1 dl {LONGEST}\noffer u1 b1 dl {LONGEST}00\n",
    f"> static u1 A 1 1 12 1 4\n> offer u1 b1 dl {LONGEST}\nput A.up1/1 u1 b1 dl - 30FF080000000001{LONGEST}\n> offer u1 b1 dl {LONGEST}00\nrefused Size\nend 3\n",
)
# octets of an OCTET STRING, where # stands for 16,384 of them: as many have a head of their own, and a last part of no octets after them. A spelling has 131,072 octets at most, its heads among them
LONG_VALUES = [
    ("encode T", '"#"', "C1#00\n"),
    ("decode T", "C1#00", '"#"\n'),
    ("decode T", "C1#", "wrong 131080 1 -\nstop 8 5 1\n"),
    ("decode T", "C1#C1", "wrong 131080 4 -\nstop 8 5 4\n"),
    ("encode T", '"########"', "wrong 0 104 -\nstop 8 5 104\n"),
]
ZEROS = "00" * 16_384
LONG_CALLS = [SIZES, *((words, module("T ::= OCTET STRING") + line.replace("#", ZEROS), printed.replace("#", ZEROS)) for words, line, printed in LONG_VALUES)]


def delivered(count):
    """The lines by which so many packets are offered and given at once."""
    return "".join(f"offer 00\ngive #{number}\n" for number in range(1, count + 1))


# an input of `verify` that is longer than one may be: lines before its last byte are judged first
LIMIT = 16_777_216
TICKS = "> tick\n" * (LIMIT // 7 + 1)
# calls of which the end of what is printed is compared: one uplink packet more than half the space of numbers, none of which is delivered, and one offer more than that of an unacknowledged
# bearer, none of which is given
LONG_ENDS = [
    (
        "run",
        "module builtin\nstatic u1 A 1 1 12 1 64\n" + "offer u1 b1 ul 00\nair u1 b1 ul\nack u1 b1 ul\n" * 2049,
        "outstanding u1 b1 ul 2049 2048\nstop 5 6147 0\n",
    ),
    ("verify", TICKS, f"stop 11 {LIMIT + 1} 0\n"),
    ("verify", "> tick\nend 2\n" + TICKS, unsound(2, 1)),
    ("verify", TICKS[: LIMIT // 7 * 7], unsound(LIMIT // 7 + 1, 8)),
    ("um 12 2", "offer 00\n" * 2049, "> offer 00\nput #2049 2048 880000\noutstanding 2049 2048\nstop 5 2049 0\n"),
    # 1,024 above the awaited COUNT is too far ahead, one less isn't; the held message stays on the link
    ("um 12 1000", "offer 00\n" * 1025 + "give #1025\ngive #1024\ngive #1\ngive #1025\nask\n", "> give #1025\nheld #1025 Ahead\n> give #1024\ngot #1024 1023 83FF00\n> give #1\ngot #1 0 800000\ndeliver 0 00\n> give #1025\ngot #1025 1024 840000\n> ask\nwaiting 1 1025 2\nend 1030\n"),
    # numbers wrap: 4,095 is awaited, and 4,096 comes first, whose number is 0
    ("um 12 1", delivered(4095) + "offer AA\noffer BB\noffer CC\ngive #4097\ngive #4096\ngive #4098\nask\n", "> offer AA\nput #4096 4095 8FFFAA\n> offer BB\nput #4097 4096 8000BB\n> offer CC\nput #4098 4097 8001CC\n> give #4097\ngot #4097 4096 8000BB\n> give #4096\ngot #4096 4095 8FFFAA\ndeliver 4095 AA\ndeliver 4096 BB\n> give #4098\ngot #4098 4097 8001CC\ndeliver 4097 CC\n> ask\nwaiting 4098 4098 0\nend 8197\n"),
    # and a late packet whose number is the greater one
    ("um 12 1", delivered(4094) + "offer 01\noffer 02\noffer 03\nagain #4095\nlose #4096\ngive #4097\ntick\nagain #4095\nask\n", "> offer 01\nput #4095 4094 8FFE01\n> offer 02\nput #4096 4095 8FFF02\n> offer 03\nput #4097 4096 800003\n> again #4095\ngot #4095 4094 8FFE01\ndeliver 4094 01\n> lose #4096\nlost #4096 1\n> give #4097\ngot #4097 4096 800003\n> tick\ndeliver 4096 03\n> again #4095\ngot #4095 4094 8FFE01\ndrop Late\n> ask\nwaiting 4097 4097 0\nend 8197\n"),
    # 2,048 COUNTs may be outstanding, and one more ends the run
    ("um 12 2", "offer 00\n" * 2048 + "offer 01\nask\n", "> offer 01\nput #2049 2048 880001\noutstanding 2049 2048\nstop 5 2049 0\n"),
    # a message that stays on the link is outstanding, though its packet was delivered
    ("um 12 2", "offer 00\n" * 2048 + "again #1\ngive #2\noffer 01\n", "> again #1\ngot #1 0 800000\ndeliver 0 00\n> give #2\ngot #2 1 800100\ndeliver 1 00\n> offer 01\nput #2049 2048 880001\noutstanding 2049 2048\nstop 5 2051 0\n"),
    # and isn't any more once it is lost
    ("um 12 2", "offer 00\n" * 2048 + "again #1\ngive #2\nlose #1\noffer 01\nask\n", "> again #1\ngot #1 0 800000\ndeliver 0 00\n> give #2\ngot #2 1 800100\ndeliver 1 00\n> lose #1\nlost #1 1\n> offer 01\nput #2049 2048 880001\n> ask\nwaiting 2 2 0\nend 2053\n"),
    # numbers of 18 bits don't wrap there
    ("um 18 1", delivered(4096) + "offer 01\nask\n", "> offer 01\nput #4097 4096 80100001\n> ask\nwaiting 4096 4096 0\nend 8194\n"),
    # numbers wrap: COUNT 4,096 has number 0
    ("duplicate 12 4", "offer 00\ncarry 1\nconfirm 1\n" * 4095 + "offer AA\noffer BB\ncarry 2\ncarry 2\nconfirm 2\nconfirm 2\nask\n", "> offer AA\nput L1 4095 8FFFAA\nput L2 4095 8FFFAA\n> offer BB\nput L1 4096 8000BB\nput L2 4096 8000BB\n> carry 2\ngot L2 4095 8FFFAA\ndeliver 4095 AA\n> carry 2\ngot L2 4096 8000BB\ndeliver 4096 BB\n> confirm 2\nlost L1 1\n> confirm 2\nlost L1 1\n> ask\nquiet 4097\nend 12292\n"),
    # a carried copy stays on a leg while others come and go: 2,048 COUNTs may be outstanding, and one more ends the run
    ("duplicate 12 4", "offer 00\ncarry 1\ncarry 2\nconfirm 2\n" + "offer 00\ncarry 2\nconfirm 2\n" * 2047 + "offer 01\nask\n", "> confirm 2\nlost L1 1\n> offer 01\nput L1 2048 880001\nput L2 2048 880001\noutstanding 2049 2048\nstop 5 6146 0\n"),
    # and it may end within a drain
    ("duplicate 12 4096", "offer 00\ncarry 2\ncarry 1\nconfirm 1\n" + "offer 00\n" * 2048 + "drain\nask\n", "got L1 2047 87FF00\ndeliver 2047 00\nlost L2 1\nput L1 2048 880000\nput L2 2048 880000\noutstanding 2049 2048\nstop 5 2053 0\n"),
]
