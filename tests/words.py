"""The words of the command line: which lists of words are commands, what each option is for, and what is not built yet.

Every list of words that is no command prints `error: usage`. A command that is known and not built yet prints
`error: not yet words`, whatever its options are, and reads no file.
"""

from cases import OPTIONS, SETTINGS, case, checked, explained

STOPPED = ['{"at":0,"by":0,"kind":"Stopped"}']
EMPTY_SEND = {"m": ""}


def usage(*words):
    case(list(words), ["error: usage"], 2)


def told(line, queue, site, source, **files):
    """`explain` by a whole command line, where no file sets anything."""
    found = {"queue": queue, **SETTINGS, "site": site, "source": source, **OPTIONS}
    case(line, [f"{name} {value}" for name, value in found.items()], 0, **files)


def not_yet(line):
    case(line, ["error: not yet words"], 12)


# Words that are no command at all.
usage()
for word in ("", "fly", "--help", "-h", "help", "Check", "check ", "--mail", "--mail=m", "sent"):
    usage(word)

# A word that is no UTF-8 is none of a command.
usage("check", "--mx", "\udcff")
usage("send", "--mail=\udcff")

# `check`: no option has to be given, and each stands for its file.
checked()
FILES = {"s": "x = 1\n", "q": "y = 1\n", "h": "[default]\nz = 1\n", "m": "a h\n"}
IGNORED = ["ignored queues - y", "ignored shaping default z", "ignored sources - x", "ok"]
for line in (
    "check --mx m --shaping=h --queues q --sources=s",
    "check --sources=s --queues=q --shaping=h --mx=m",
    "check --shaping h --sources s --mx m --queues q",
):
    case(line, IGNORED, 0, **FILES)
for option in ("sources", "queues", "shaping"):
    case(["check", "--" + option, "f"], [f"error: policy {option} - -: NotToml"], 3, f="x")
    case(["check", f"--{option}=f"], ["ok"], 0, f="")
case("check --mx f", ["error: policy mx line 1 -: NoHost"], 3, f="x")
case("check --mx=f", ["ok"], 0, f="")

# `explain`: the domain has to be given, and the parts of the name are in any order. The domain is taken in lower case.
explained("B.Example", queue="b.example", site="b.example")
explained("b", source="ip-1", queue="c:T@b", words=["--tenant", "T", "--campaign", "c"], mx="")
explained("b", queue="T@b", words=["--tenant=T"])
explained("B", queue="C:@b", site="b", words=["--campaign", "C"])
explained("b", queue="c d:t  1@b", words=["--campaign=c d", "--tenant", "t  1"])
explained("b", source="a source: @ ! >", queue="b")
told("explain --domain=b --source=-x", "b", "b", "-x")
told("explain --mx=m --source ip-1 --campaign c --tenant=T --domain B", "c:T@b", "h", "ip-1", m="b h")
told("explain --campaign=c --domain=B --tenant=t", "c:t@b", "b", "unspecified")
for words in (
    [],
    ["--source", "s"],
    ["--domain", "a@b"],
    ["--domain", "a:b"],
    ["--domain", "a!b"],
    ["--domain", "a\tb"],
    ["--domain", "b", "--tenant", "a:b"],
    ["--domain", "b", "--tenant", "a@b"],
    ["--domain", "b", "--tenant="],
    ["--domain", "b", "--tenant", "\x7f"],
    ["--domain", "b", "--campaign", "a!b"],
    ["--domain", "b", "--campaign", "\n"],
    ["--domain", "b", "--mail", "m"],
    ["--domain", "b", "--domain", "b"],
):
    usage("explain", *words)

# A name has at most 1,024 bytes, with the `@` and the `:` in it.
LONGEST = "d" * 1_020
explained(LONGEST, queue=f"c:t@{LONGEST}", words=["--tenant", "t", "--campaign", "c"])
usage("explain", "--tenant", "t", "--campaign", "c", "--domain", LONGEST + "d")
explained(LONGEST + "dddd")
usage("explain", "--domain", LONGEST + "ddddd")

# `send`: a value of its own word does not begin with `-`; after `=` it may, and may have a `=` in it.
for words in (["--mail", "m"], ["--mail=m"]):
    case(["send", *words], STOPPED, 0, **EMPTY_SEND)
case(["send", "--mail=-x"], STOPPED, 0, **{"-x": ""})
for words in (["--mail", "a=b"], ["--mail=a=b"]):
    case(["send", *words], STOPPED, 0, **{"a=b": ""})
case(["send", "--mail", "two words"], STOPPED, 0, **{"two words": ""})
case(["send", "--mail", "none"], ["error: read fault"], 5)
for words in (
    [],
    ["--mail"],
    ["--mail", ""],
    ["--mail="],
    ["--mail", "-x"],
    ["--mail", "--"],
    ["m"],
    ["-mail", "m"],
    ["--Mail", "m"],
    ["--mai", "m"],
    ["--mail", "m", "--mail", "m"],
    ["--mail", "m", "--mail=n"],
    ["--mail=m", "--mail=m"],
    ["--mail", "m", "n"],
    ["n", "--mail", "m"],
    ["--mail", "m", "--help"],
    ["--mail", "m", "--"],
    ["--mail", "m", "--peers"],
    ["--mail", "m", "--until", "000000000000000000007"],
    ["--mail", "m", "--until", "9007199254740992"],
    ["--mail", "m", "--until="],
    ["--mail", "m", "--start", "1s"],
    ["--mail", "m", "--start", "9007199254740992"],
    ["--mail", "m", "--start= 1"],
    ["--mail", "m", "--workers", "3"],
    ["--mail", "m", "--domain", "b"],
    ["--mail", "m", "--seed", "1"],
    ["--peers", "p"],
):
    usage("send", *words)

# Commands and options that are known and not built yet.
for line in (
    "send --until 9007199254740991 --mail m --start=00000000000000000007",
    "send --spool=d --orders o --peers p --mail m --sources s",
    "send --mail m --sources s",
    "send --mail m --queues q",
    "send --mail m --shaping h",
    "send --mail m --mx x",
    "send --mail m --peers p",
    "send --mail m --orders o",
    "send --mail m --until 0",
    "send --mail m --start 0",
    "send --mail m --spool d",
    "crew --workers 64 --mail m",
    "crew --mail m --workers=1 --sources s --spool d --until 7",
    "load --seed 18446744073709551615 --count 100000",
    "load --count=1 --seed=0",
):
    not_yet(line)

# Commands that lack an option, have one that is not theirs, or a number out of its bounds.
for line in (
    "crew",
    "crew --mail m",
    "crew --workers 1",
    "crew --mail m --workers 0",
    "crew --mail m --workers 65",
    "crew --mail m --workers x",
    "spool d",
    "spool --mail m",
    "load",
    "load --seed 1",
    "load --count 1",
    "load --seed 1 --count 0",
    "load --seed 1 --count 100001",
    "load --seed 18446744073709551616 --count 1",
    "load --seed +1 --count 1",
    "load --seed=-1 --count 1",
    "load --seed 1 --count 1 --mail m",
    "check --mail m",
    "check --domain b",
    "check a",
    "check --sources",
    "check --sources= --mx m",
    "check --mx m --mx m",
):
    usage(*line.split())

# The words are judged before any file is read.
case("check --sources none --sources none", ["error: usage"], 2)
