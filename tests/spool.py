"""The command `spool`: what is pending in the spool of a folder, and why a spool is refused.

`tools/try-spool` runs many more spools, cut and changed byte by byte, and looks at the files that are left.
"""

from cases import case

HEADER = bytes.fromhex("014b5350020000000000000000000001")
OLD_HEADER = bytes.fromhex("014b5350010000000000000000000001")
HELD = bytes.fromhex(
    "010100000044000000000000000000000000000000010000000000000000"
    "0000000b7340622e6578616d706c650000000b7540612e6578616d706c65"
    "0000000000000000000000026869"
)
DEFERRED = bytes.fromhex("01030000001c00000000000000000000000000000001000000010000000000124f80")
SETTLED = bytes.fromhex("01020000001000000000000000000000000000000001")
LINE = (
    '{"body":"hi","created":0,"id":"00000000-0000-0000-0000-000000000001",'
    '"recipient":"u@a.example","sender":"s@b.example"}'
)


def spool(first, wanted, status, second=b""):
    """`spool` over a folder with these areas; an area without bytes has no file."""
    areas = {"kumosend.spool.0": first, "kumosend.spool.1": second}
    case("spool --spool .", wanted, status, **{name: area for name, area in areas.items() if area})


def damaged(first, area, at, second=b""):
    spool(first, [f"error: spool damaged: area {area} at {at}"], 8, second)


# Nothing is pending: a spool in memory, a folder without files, areas that are blank, a message that was settled.
case("spool", [], 0)
case("spool --spool=.", [], 0)
spool(b"\x00", [], 0)
spool(b"\x00" + b"\x07" * 500, [], 0, b"\x01")
spool(HEADER + HELD + SETTLED + b"\x00", [], 0)

# A message is pending, also where it failed before, where the spool is of the first version, and in the other area; what stands
# behind a gate that is not open has no meaning.
for area in (
    HEADER + HELD + b"\x00",
    HEADER + HELD + DEFERRED + b"\x00",
    OLD_HEADER + HELD + b"\x00",
    HEADER + HELD + b"\x05" + b"\x01" * 100,
    HEADER + HELD + b"\x00" + SETTLED,
):
    spool(area, [LINE], 0)
    spool(b"", [LINE], 0, area)

# The area in force is the one whose generation follows the other's.
spool(HEADER + HELD + b"\x00", [], 0, HEADER[:15] + b"\x02\x00")
spool(HEADER[:15] + b"\x03" + HELD + b"\x00", [LINE], 0, HEADER[:15] + b"\x02\x00")

# What is damaged is named by its area and the least offset.
damaged(b"\x01" * 20, 0, 1)
damaged(HEADER[:15], 0, 15)
damaged(HEADER, 0, 16)
damaged(HEADER + HELD, 0, 16)
damaged(HEADER + HELD[:1] + b"\x09" + HELD[2:] + b"\x00", 0, 16)
damaged(HEADER + HELD + HELD + b"\x00", 0, 90)
damaged(HEADER + HELD + SETTLED[:-1] + b"\x02\x00", 0, 90)
damaged(OLD_HEADER + HELD + DEFERRED + b"\x00", 0, 90)
damaged(HEADER[:4] + b"\x03" + HEADER[5:] + b"\x00", 0, 4)
damaged(HEADER + HELD + b"\x00", 1, 8, HEADER + HELD + b"\x00")
damaged(HEADER + HELD + b"\x00", 1, 3, b"\x01KSQ")

# A folder that is not there, and a file in its place.
case("spool --spool missing", ["error: spool fault"], 7)
case("spool --spool f", ["error: spool fault"], 7, f="")
