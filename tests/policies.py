"""Policies of several files: in which order the files are read and refused, pools that are not there, the report of keys
without effect, and what `check` and `explain` say of the files in examples/policy.

What one file may hold is shown in `sources.py`, `queues.py`, `shaping.py` and `mx.py`.
"""

import pathlib

from cases import case, checked, explained, named, refused

NAMES = ["sources", "queues", "shaping", "mx"]
READ_FAULT = "error: read fault\n"

# --- Files that fit together

SOURCES = """[source."ip-1"]
source_address = "10.0.0.1"
ehlo_domain = "mta1.b.example"
[source."ip-2"]
source_address = "10.0.0.2"
[pool."pool0"]
[pool."pool0"."ip-1"]
[pool."pool0"."ip-2"]
weight = 2
"""
QUEUES = """[tenant.'mytenant']
egress_pool = 'pool0'
[queue.default]
max_age = '24 hours'
[queue.'one.example']
retry_interval = '17 mins'
"""
SHAPING = """["default"]
connection_limit = 10
max_message_rate = "100/min"
enable_tls = "Opportunistic"
[["default".automation]]
regex = 'too busy'
action = "Suspend"
trigger = {Threshold="3/hr"}
duration = "30 mins"
[provider."Big"]
match = [{MXSuffix=".big.example"}]
max_deliveries_per_connection = 20
["one.example"]
connection_limit = 5
["one.example".sources."ip-1"]
max_message_rate = "10/s,max_burst=20"
["two.example"]
connection_limit = 4
["solo.example"]
mx_rollup = false
"""
MX = "".join(f"{domain}.example mx2.big.example mx1.big.example\n" for domain in ["one", "two", "solo"])
OF_SOURCES = ["sources source.ip-1 source_address", "sources source.ip-2 source_address"]
OF_SHAPING = ["shaping default enable_tls"]
BUSY = ['Suspend Threshold 3/3600000 for 1800000 on ["too busy"]']

checked(sources="", queues="", shaping="", mx="")
checked(*OF_SOURCES, sources=SOURCES, queues=QUEUES)
checked(*OF_SHAPING, shaping=SHAPING, mx=MX)
checked(*OF_SHAPING, *OF_SOURCES, mx=MX, queues=QUEUES, sources=SOURCES, shaping=SHAPING)
checked("queues - x", "queues - y", sources="[source.a]\n[pool.p.a]\n", queues="y = 1\nx = 1\n[tenant.t]\negress_pool = 'p'\n")

# The keys without effect of all files stand together in byte order.
checked(
    "queues - x",
    "queues queue.d z",
    "queues queue.d.t.c x",
    "shaping default B",
    "shaping default a",
    "sources - B",
    "sources - a",
    sources="a = 1\nB = 1\n",
    queues="[queue.'d']\nz = 1\n[queue.'d'.'t'.'c'.'x']\n[x]\n",
    shaping="[default]\na = 1\nB = 1\n",
)

SITE = "mx1.big.example|mx2.big.example"
OF_ONE = {"connection_limit": "4", "max_message_rate": "10/1000 burst 20", "max_deliveries_per_connection": "20"}
OF_SOLO = {"connection_limit": "10", "max_message_rate": "100/60000 burst 100", "max_deliveries_per_connection": "20"}
OF_TENANT = {"pool": "pool0", "max_age": "86400000", "retry_interval": "1020000"}
MYTENANT = ["--tenant", "mytenant"]
explained("any.example")
explained("one.example", "ip-1", site=SITE, options=OF_ONE, rules=BUSY, shaping=SHAPING, mx=MX)
explained(
    "Solo.Example",
    "ip-1",
    queue="mytenant@solo.example",
    site="solo.example=" + SITE,
    rules=BUSY,
    options=OF_SOLO,
    words=MYTENANT,
    shaping=SHAPING,
    mx=MX,
)
explained("one.example", queue="mytenant@one.example", settings=OF_TENANT, words=MYTENANT, sources=SOURCES, queues=QUEUES)
explained(
    "one.example",
    "ip-1",
    queue="sale:mytenant@one.example",
    site=SITE,
    rules=BUSY,
    settings=OF_TENANT,
    options=OF_ONE,
    words=[*MYTENANT, "--campaign", "sale"],
    sources=SOURCES,
    queues=QUEUES,
    shaping=SHAPING,
    mx=MX,
)

# --- Files that are refused or cannot be read: the first of sources, queues, shaping and MX table counts

GOOD = {"sources": SOURCES, "queues": QUEUES, "shaping": SHAPING, "mx": MX}
BAD = {"sources": "[pool.'p'.'s']\n", "queues": "x", "shaping": "default = 5\n", "mx": QUEUES}
PLACES = {
    "sources": "sources pool.p.s -: UnknownSource",
    "queues": "queues - -: NotToml",
    "shaping": "shaping - default: BadType",
    "mx": "mx line 1 -: NoHost",
}
EXPLAIN = ["explain", "--domain", "one.example"]
for number, name in enumerate(NAMES):
    refusal = f"error: policy {PLACES[name]}\n"
    before = {other: GOOD[other] for other in NAMES[:number]}
    later = {other: BAD[other] for other in NAMES[number + 1 :]}
    refused(PLACES[name], **before, **{name: BAD[name]}, **later)
    if later:  # they are not there and not read
        case(["check", *named(reversed(NAMES))], refusal, 3, **before, **{name: BAD[name]})
    case(["check", *named(NAMES)], READ_FAULT, 5, **before, **later)
    case(["check", *named([name])], READ_FAULT, 5)
    case([*EXPLAIN, *named(NAMES)], refusal, 3, **before, **{name: BAD[name]}, **later)
    case([*EXPLAIN, *named([name])], READ_FAULT, 5)
case("check --sources .", READ_FAULT, 5)
case("check --sources both --queues both", ["error: policy sources - -: NotToml"], 3, both="x")
refused("queues queue.a.example -: Twice", sources=SOURCES, queues="[queue.'A.example']\n[queue.'a.example']\nmax_age = 'x'\n")
refused("queues tenant.t retry_interval: Zero", sources=SOURCES, queues="[tenant.t]\nretry_interval = 0\n")

# A file of more bytes than are read.
case("check --sources sources --queues queues", ["error: limit text"], 10, sources=b"#" * 268_435_457, queues="x")

# A pattern that is one, and too large for the search engine.
LARGE = "default.automation = [{regex='\\w{1000}{1000}',action='Suspend',duration=1}]\n"
case("check --shaping shaping --mx mx", ["error: search fault"], 16, shaping=LARGE, mx="x")
case("explain --domain d --shaping shaping", ["error: search fault"], 16, shaping=LARGE)

# --- Pools that are not there

POOLS = "[source.ip-1]\n[pool.p.ip-1]\n"


def layers(*tables, pool="gone"):
    """A queues file in which each of these tables names the pool."""
    return "".join(f"[{table}]\negress_pool = '{pool}'\n" for table in tables)


EVERY = ["queue.default", "tenant.t", "queue.a", "queue.a.x", "queue.a.x.c", "queue.a-b"]
for pool in ["p", "unspecified"]:
    checked(sources=POOLS, queues=layers(*EVERY, pool=pool))
checked(queues=layers(*EVERY, pool="unspecified"))
for table in EVERY:
    refused(f"queues {table} egress_pool: UnknownPool", sources=POOLS, queues=layers(table))
refused("queues queue.default egress_pool: UnknownPool", sources=POOLS, queues=layers("queue.default", pool="P"))
refused("queues queue.default egress_pool: UnknownPool", sources="[source.p]\n", queues=layers("queue.default", pool="p"))
refused("queues tenant.mytenant egress_pool: UnknownPool", queues=QUEUES)
refused("queues queue.default egress_pool: UnknownPool", sources="", queues="[queue.default]\negress_pool = 'nope'\n")

# The first table in byte order, with domains in lower case.
for tables, first in [
    (["queue.a.x", "queue.a-b"], "queue.a-b"),
    (["queue.default", "queue.a.x", "queue.a-b"], "queue.a-b"),
    (["queue.default", "tenant.t", "queue.a.x"], "queue.a.x"),
    (["tenant.t", "queue.a.x.c"], "queue.a.x.c"),
    (["tenant.t", "queue.z"], "queue.z"),
    (["queue.default", "queue.e"], "queue.default"),
    (["queue.B"], "queue.b"),
    (["queue.B", "queue.a"], "queue.a"),
    (["queue.Default"], "queue.default"),
    (["tenant.B", "tenant.a"], "tenant.B"),
]:
    refused(f"queues {first} egress_pool: UnknownPool", sources=POOLS, queues=layers(*tables))

# Pools are looked for once all files are good.
refused("shaping - default: BadType", queues=layers("queue.default"), shaping="default = 5\n")
refused("mx line 1 -: NoHost", queues=layers("queue.default"), mx="a\n")
case([*EXPLAIN, *named(["queues"])], ["error: policy queues tenant.mytenant egress_pool: UnknownPool"], 3, queues=QUEUES)

# --- The files of examples/policy

FOLDER = pathlib.Path(__file__).resolve().parent.parent / "examples" / "policy"
EXAMPLE = {name: (FOLDER / f"{name}.{'txt' if name == 'mx' else 'toml'}").read_text() for name in NAMES}
case(["check", *named(EXAMPLE)], (FOLDER / "check.stdout").read_text(), 0, **EXAMPLE)

# What `explain` says of them.
FOR_ALL = {"pool": "bulk", "max_age": "432000000", "retry_interval": "600000", "max_retry_interval": "14400000"}
ON_ALL = {
    "connection_limit": "10",
    "max_message_rate": "100/1000 burst 100",
    "max_connection_rate": "60/60000 burst 60",
    "max_deliveries_per_connection": "200",
    "idle_timeout": "30000",
}
COMPLAINTS = [
    r'Suspend Threshold 10/3600000 for 900000 on ["too many (connections|messages)","4\\.7\\.\\d+ .*try again later"]',
    r'SuspendTenant Threshold 100/86400000 for 43200000 on ["^5\\d\\d .*5\\.7\\.1 .*(spam|reputation)"]',
]
OF_BIGBOX = [
    r'SetConfig max_message_rate=60/3600000 burst 60 Immediate for 3600000 on ["421 4\\.7\\.28"]',
    r'SetConfig connection_limit=2 Immediate for 3600000 on ["421 4\\.7\\.28"]',
]


def example(queue, source, settings, site=None, options=None, rules=()):
    """Lists a case of `explain` for a queue by its name: the settings and options that differ from those of all."""
    names, domain = queue.rpartition("@")[::2]
    campaign, tenant = names.rpartition(":")[::2]
    words = [word for name, value in [("--tenant", tenant), ("--campaign", campaign)] if value for word in (name, value)]
    explained(
        domain,
        source,
        queue=queue.replace(domain, domain.lower()),
        site=site or domain,
        rules=[*COMPLAINTS, *rules],
        settings={**FOR_ALL, **settings},
        options={**ON_ALL, **(options or {})},
        words=words,
        **EXAMPLE,
    )


example("any.example", "unspecified", {})
example("shop@any.example", "bulk-1", {})
example("bank@any.example", "notices-1", {"pool": "notices", "max_age": "172800000"})

BIGBOX = "mx1.mx.bigbox.example|mx2.mx.bigbox.example"
AT_BIGBOX = {"connection_limit": "25", "max_message_rate": "600/60000 burst 50"}
example("bigbox.example", "bulk-1", {"retry_interval": "900000"}, BIGBOX, AT_BIGBOX, OF_BIGBOX)
example("shop@bigbox.test", "bulk-1", {}, BIGBOX, AT_BIGBOX, OF_BIGBOX)
SLOWLY = {**AT_BIGBOX, "max_message_rate": "100/3600000 burst 100"}
OF_BANK = {"pool": "notices", "max_age": "172800000", "retry_interval": "60000", "max_retry_interval": "900000"}
OF_CODES = {"pool": "notices", "max_age": "600000", "retry_interval": "20000", "max_retry_interval": "90000"}
example("bank@bigbox.example", "warming-1", OF_BANK, BIGBOX, SLOWLY, OF_BIGBOX)
example("one-time-codes:bank@bigbox.example", "notices-1", OF_CODES, BIGBOX, AT_BIGBOX, OF_BIGBOX)

FAILURES = {"consecutive_connection_failures_before_delay": "500"}
example("greylist.example", "bulk-2", {"retry_interval": "360000"}, "mail.greylist.example", FAILURES)
example("shop@LetterBird.example", "bulk-1", {"max_age": "129600000"}, "in.letterbird.example")
example("autumn-sale:shop@LetterBird.example", "bulk-1", {"max_age": "43200000"}, "in.letterbird.example")

SLOW = {"max_age": "864000000", "retry_interval": "3600000", "max_retry_interval": "43200000"}
AT_SLOW = {"connection_limit": "2", "max_connection_rate": "6/60000 burst 6"}
example("slowpost.example", "bulk-3", SLOW, "backup.slowpost.example|mail.slowpost.example", AT_SLOW)
BANK_SLOW = {**SLOW, "pool": "notices", "max_age": "172800000"}
example("bank@slowpost.example", "notices-2", BANK_SLOW, "backup.slowpost.example|mail.slowpost.example", AT_SLOW)

ORCHARD = "mx1.orchard.example|mx2.orchard.example"
OF_ARCHIVE = {"pool": "house", "retry_interval": "60000", "max_retry_interval": "60000"}
AT_ARCHIVE = {"connection_limit": "4", "max_ready": "5000", "max_message_rate": "2000/60000 burst 2000"}
example("archive.orchard.example", "house", OF_ARCHIVE, "archive.orchard.example=" + ORCHARD, AT_ARCHIVE)
example("orchard.example", "bulk-1", {}, ORCHARD)

example("bank@partner.example", "notices-1", {"pool": "notices", "max_age": "604800000"})
example("invoices:shop@partner.example", "bulk-1", {"pool": "notices"})
example("physics.uni.example", "bulk-1", {}, "mail.physics.uni.example", {"connection_limit": "2"})
