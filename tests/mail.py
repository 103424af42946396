"""Mail files: what a message is sent as, which lines are refused and by which word, and where the limits are.

A file of one message that is due at moment 0 is sent, and the log tells what was read. A file of several, or of one that is due
later, is read whole and is not sent yet, which shows that none of its lines is refused.
"""

import json

from cases import case

ID = "00000000-0000-0000-0000-000000000001"
GOOD = {"id": ID, "created": 0, "sender": "s@b.example", "recipient": "u@a.example", "body": "hi"}
STOPPED = '{"at":0,"by":0,"kind":"Stopped"}'
LAST_MOMENT = 9_007_199_254_740_991


def compact(keys):
    return json.dumps(keys, ensure_ascii=False, separators=(",", ":"), sort_keys=True)


def line(*without, **keys):
    """A mail line: the good one with other values at some keys, and without some keys."""
    return json.dumps({name: value for name, value in {**GOOD, **keys}.items() if name not in without}, ensure_ascii=False)


def sent(mail, queue="a.example", site="a.example", **keys):
    """A file whose one message is sent: `keys` are what differs from the good message in the log."""
    message = {**GOOD, **keys}
    each = {"at": 0, "by": 0}
    held = {**each, "id": message["id"]}
    one = {"conn": 1}
    entries = [
        {**each, **message, "queue": queue, "kind": "Reception"},
        {**held, "kind": "Promoted", "source": "unspecified"},
        {**each, **one, "key": 0, "kind": "Opened", "path": "unspecified->" + site},
        {**held, **one, "key": 0, "kind": "Begun"},
        {**held, **one, "kind": "Delivery", "reply": "250 ok"},
        {**each, **one, "cause": "Empty", "kind": "Closed"},
    ]
    case("send --mail mail", [compact(entry) for entry in entries] + [STOPPED], 0, mail=mail)


def refused(mail, word, number=1):
    case("send --mail mail", [f"error: mail line {number}: {word}"], 4, mail=mail)


def unsent(mail):
    case("send --mail mail", ["error: not yet mail"], 12, mail=mail)


# One message: as in README.md, with line ends, keys that have no meaning, and the parts of the queue's name.
sent(line())
for end in ("\n", "\r\n", "\n\n\r\n", "\r", "\r\r\n"):
    sent(line() + end)
sent("\n\r\n" + line() + "\n")
sent(" \t" + line() + " ")
sent(line("id")[:-1] + ', "other": [null, {"id": 1}], "id": "' + ID + '"}')
sent(line(recipient="U@A.Example"), recipient="U@A.Example")
sent(line(tenant="t", campaign="c d"), queue="c d:t@a.example")
sent(line(tenant="T"), queue="T@a.example")
sent(line(campaign="C"), queue="C:@a.example")
sent(line(sender=""), sender="")
sent(line().replace("created", "creat\\u0065d").replace("hi", "\\u0068\\u0069"))
sent(line(body=""), body="")

# Bodies are written to the log as they are; control bytes are escaped.
for body in ("a\nb\r\nc\rd", ".\n..\n", '"\\/', "\x00\x01\x1f\x7f\b\f\t", "\u00e9 \u20ac \U0001f600", "\u2028"):
    sent(line(body=body), body=body)
sent(line(body="").replace('""', '"\\ud83d\\ude00\\u00e9"'), body="\U0001f600\u00e9")

# An id is read in any spelling.
UPPER = "ABCDEF00-1234-5678-9ABC-DEF012345678"
for spelled in (UPPER, UPPER.lower(), UPPER.replace("-", ""), "{" + UPPER + "}", "urn:uuid:" + UPPER):
    sent(line(id=spelled), id=UPPER.lower())
for spelled in (
    "", "1", ID[:-1], ID + "1", "g" + ID[1:], " " + ID, "{" + ID, "uuid:" + ID, ID.replace("-", "_"),
    ID.replace("-", "", 1),
):
    refused(line(id=spelled), "BadId")

# A text without a line that is not empty has no message.
for text in ("", "\n", "\r\n\n\n"):
    case("send --mail mail", [STOPPED], 0, mail=text)

# A file of several messages is read whole.
IDS = (
    "11111111-2222-3333-4444-5555555555aa",
    "{22222222-2222-3333-4444-555555555555}",
    "urn:uuid:33333333-2222-3333-4444-555555555555",
    "44444444222233334444555555555555",
)
unsent("\n".join(line(id=spelled) for spelled in IDS))
unsent("\r\n\n".join(line(id=spelled) for spelled in IDS[:2]) + "\r\n")

# One message is not due before it was made; each moment up to the last is read.
unsent(line(created=1))
unsent(line(created=LAST_MOMENT))

# The words of a refusal, in the order in which they are tried: each line breaks all later rules too.
NO_KEYS = {"id": 5, "created": "x", "sender": None, "recipient": [], "campaign": 0, "tenant": {}, "body": 1}
BAD_KEYS = {"id": "1", "created": -1, "sender": "s", "recipient": "u", "campaign": ":", "tenant": "", "body": 1}
WORDS = {"id": "BadId", "created": "BadMoment", "sender": "BadAddress", "recipient": "BadAddress", "campaign": "BadName"}
refused("x" + json.dumps(NO_KEYS), "NotJson")
refused(json.dumps(NO_KEYS), "Missing")
right = {}
for key, word in WORDS.items():
    refused(json.dumps({**BAD_KEYS, **right, key: NO_KEYS[key]}), "Missing" if key in ("id", "sender", "recipient") else word)
    refused(json.dumps({**BAD_KEYS, **right}), word)
    right[key] = GOOD.get(key, "c")
refused(json.dumps({**BAD_KEYS, **right}), "BadName")  # the tenant
refused(json.dumps({**BAD_KEYS, **right, "tenant": "t"}), "Missing")  # the body

# What is no JSON object in UTF-8.
for text in (
    "[]", " ", "\t", "\r", "x", "5", "null", '"x"', "{} {}", "{", line()[:-1], line() + ",", line() + line(),
    "\ufeff" + line(),
):
    refused(text, "NotJson")
for text in (b'{"id":"\xff"}', b"\xff", line().encode()[:-2] + b'\xc3"}', line().encode() + b"\n\x80"):
    refused(text, "NotJson", text.count(b"\n") + 1)
refused(line(body="").replace('""', '"\\ud800"'), "NotJson")
refused(line(body="\t").replace("\\t", "\t"), "NotJson")

# What is not there, and what has no text at its key.
for key in ("id", "created", "sender", "recipient", "body"):
    refused(line(key), "Missing")
    refused(line(**{key: None}), "BadMoment" if key == "created" else "Missing")
refused("{}", "Missing")
refused(line("sender", recipient="u", created=1), "Missing")
refused(line(recipient=1), "Missing")

# Moments are whole numbers up to the last one, without a sign.
for moment in ("1.0", "1e3", "-0", "-1", '"0"', str(LAST_MOMENT + 1), "18446744073709551616", "true", "[0]"):
    refused(line(created=7).replace("7", moment), "BadMoment")

# Addresses. The longest have 254 bytes.
LONGEST = "u@" + "d" * 252
sent(line(recipient=LONGEST), recipient=LONGEST, queue=LONGEST[2:], site=LONGEST[2:])
refused(line(recipient=LONGEST + "d"), "BadAddress")
sent(line(sender="s" * 252 + "@d"), sender="s" * 252 + "@d")
refused(line(sender="s" * 253 + "@d"), "BadAddress")
for address in ("a@b@c.example", "!~@c.example", "|=:\"@c.example", "@@c.example"):
    sent(line(recipient=address), recipient=address, queue="c.example", site="c.example")
    sent(line(sender=address), sender=address)
BARE = ("s", "@", "s@", "@b", "s@b c", "s b@c", "s@b\n", "\x7f@b", "s<@b", "s@b>")
for address in (*BARE, "s@b:c", "s@b!c", "s@b|c", "s@b=c", "s@\u00e9"):
    refused(line(sender=address), "BadAddress")
    refused(line(recipient=address), "BadAddress")
refused(line(recipient=""), "BadAddress")

# Campaigns and tenants, and the 1,024 bytes of a whole name.
for name in ("", "a:b", "a@b", "a!", "\u007f", "\n", "\x00", None, 5, ["t"]):
    refused(line(tenant=name), "BadName")
    refused(line(campaign=name), "BadName")
sent(line(tenant="\u00e9 |=>"), queue="\u00e9 |=>@a.example")
LEFT = 1_024 - len("@a.example")
sent(line(tenant="t" * LEFT), queue="t" * LEFT + "@a.example")
refused(line(tenant="t" * (LEFT + 1)), "BadName")
sent(line(campaign="c" * (LEFT - 1)), queue="c" * (LEFT - 1) + ":@a.example")
refused(line(campaign="c" * LEFT), "BadName")
refused(line(campaign="c", tenant="t" * (LEFT - 1)), "BadName")

# The first refused line is named; lines that are passed over count.
refused(line(id=IDS[0]) + "\n \n{}\n", "NotJson", 2)
refused("\n" + line(id=IDS[0]) + "\n{}\n[]", "Missing", 3)
refused("\n\r\n" + line(id=IDS[0]) + "\r\n\r\n{}", "Missing", 5)
refused(line(id=IDS[0]) + "\r" + line(id=IDS[1]), "NotJson")

# An id that an earlier line has, in whatever spelling.
refused(line(id=IDS[0]) + "\n\n\r\n" + line(id="111111112222333344445555555555AA"), "Duplicate", 4)
refused("\n".join([line(id="{" + IDS[0] + "}"), line(id=IDS[3]), line(id="URN:UUID:" + IDS[0].upper())]), "Duplicate", 3)

# A body has at most 1,048,576 bytes, and a file 100,000 messages. A body that is too long is told before its id.
LONGEST_BODY = "\u00e9" * 524_288
sent(line(body=LONGEST_BODY), body=LONGEST_BODY)
refused(line() + "\n" + line(body=LONGEST_BODY + "a"), "TooLong", 2)
MANY = "".join(line(id=f"{number:032x}", sender="", body="") + "\n" for number in range(100_000))
refused(MANY + "x", "TooMany", 100_001)
