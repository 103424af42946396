"""Sites and paths: what `explain` tells of a domain and a source, over shaping files and MX tables.

Which tables lie over which, which domains are of one site, and the lines that are printed. What a shaping file may hold is
shown in `shaping.py`, and files of several kinds in `policies.py`.
"""

from cases import explained

# A shaping file with a provider and three domains that have the same hosts, of which one is a site of its own.
SAMPLE = """["default"]
connection_limit = 10
max_message_rate = "100/min"
enable_tls = "Opportunistic"
[["default".automation]]
regex = 'too busy'
action = "Suspend"
trigger = {Threshold="3/hr"}
duration = "30 mins"
[provider."Big"]
match = [{MXSuffix=".big.example"}]
max_deliveries_per_connection = 20
["one.example"]
connection_limit = 5
["one.example".sources."ip-1"]
max_message_rate = "10/s,max_burst=20"
["two.example"]
connection_limit = 4
["solo.example"]
mx_rollup = false
"""
MX = "".join(f"{domain}.example mx2.big.example mx1.big.example\n" for domain in ("one", "two", "solo"))
BIG = "mx1.big.example|mx2.big.example"
BUSY = ['Suspend Threshold 3/3600000 for 1800000 on ["too busy"]']


def sample(domain, source, site, limit, rate, deliveries, **more):
    options = {"connection_limit": limit, "max_message_rate": rate, "max_deliveries_per_connection": deliveries}
    explained(domain, source, site=site, rules=BUSY, options=options, shaping=SAMPLE, mx=MX, **more)


SLOW, QUICK = "100/60000 burst 100", "10/1000 burst 20"
sample("two.example", "ip-1", BIG, 4, QUICK, 20)
sample("one.example", "ip-2", BIG, 4, SLOW, 20)
sample("one.example", "IP-1", BIG, 4, SLOW, 20)
sample("one.example", "unspecified", BIG, 4, SLOW, 20)
sample("solo.example", "ip-2", "solo.example=" + BIG, 10, SLOW, 20)
sample("b.example", "ip-1", "b.example", 10, SLOW, 1024)
sample("mx1.big.example", "ip-1", "mx1.big.example", 10, SLOW, 20)
explained("one.example", "ip-1", site=BIG, mx=MX)

# Each option set for all or for a domain, and some once more for one source.
explained(
    "b.example",
    "ip-1",
    options=dict(
        connection_limit=3,
        max_message_rate="1/1000 burst 1",
        max_connection_rate="9/1000 burst 9",
        max_deliveries_per_connection=2,
        max_ready=3,
        consecutive_connection_failures_before_delay=2,
    ),
    shaping="""[default]
connection_limit = 1
max_connection_rate = '1/s'
max_ready = 1
['b.example']
max_message_rate = '1/s'
max_deliveries_per_connection = 2
consecutive_connection_failures_before_delay = 2
['b.example'.sources.ip-1]
connection_limit = 3
max_connection_rate = '9/s'
max_ready = 3
""",
)


def limit(number, domain, shaping, site=None, source="s", mx=""):
    """The connection limit that is in force on a path."""
    explained(domain, source, site=site, options={"connection_limit": number}, shaping=shaping, mx=mx)


def tables(*pairs):
    """A shaping file of tables of which each sets the connection limit, and where it is a provider's has these matches."""
    return "".join(f"[{table}]\nconnection_limit = {number}\n{more}" for table, number, more in pairs)


# Of an option the last layer that sets it counts: all, providers, domains, and then the same for the source.
LAYERS = [
    ("default", 1, ""),
    ("provider.p", 2, "match = {DomainSuffix='d'}\n"),
    ("d", 3, ""),
    ("default.sources.s", 4, ""),
    ("provider.p.sources.s", 5, ""),
    ("d.sources.s", 6, ""),
]
for number in range(1, 7):
    limit(number, "d", tables(*LAYERS[:number]))
limit(3, "d", tables(*LAYERS), source="t")
limit(4, "e", tables(*LAYERS))

# The rules of all layers stand one after another in the same order, the source's at the end.
RULES = "".join(
    f"[[{table}.automation]]\nregex = '{table}'\naction = 'Suspend'\nduration = {number}\n" for table, number, _ in reversed(LAYERS)
)
explained(
    "d",
    "s",
    rules=[f'Suspend Immediate for {number}000 on ["{table}"]' for table, number, _ in LAYERS],
    shaping=RULES + "[provider.p]\nmatch = {DomainSuffix='d'}\n",
)

# Providers stand in byte order of their names, capitals before small letters, and domains in byte order of theirs.
SUFFIX = "match = {DomainSuffix='d'}\n"
limit(3, "d", tables(("provider.a", 2, SUFFIX), ("provider.b", 3, SUFFIX), ("provider.Z", 4, SUFFIX)))
SHARED = "one.example h1 h2\ntwo.example h2 h1\nOther.example h2\n"
BOTH = tables(("'two.example'", 4, ""), ("'one.example'", 5, ""))
for domain in ("one.example", "two.example"):
    limit(4, domain, BOTH, "h1|h2", mx=SHARED)
limit(32, "other.example", BOTH, "h2", mx=SHARED)
limit(5, "two.example", tables(("'ONE.example'", 5, "")), "h1|h2", mx=SHARED)

# A provider knows a site by its hosts, and by each of its domains; a domain without rollup is none of them.
for match, number in (
    ("{MXSuffix='.big.example'}", 7),
    ("{MXSuffix='.one.example'}", 32),
    ("{DomainSuffix='one.example'}", 7),
    ("{DomainSuffix='two.example'}", 7),
    ("{DomainSuffix='solo.example'}", 32),
    ("{DomainSuffix='x.one.example'}", 32),
):
    shaping = tables(("provider.p", 7, f"match = {match}\n")) + "['solo.example']\nmx_rollup = false\n"
    limit(number, "one.example", shaping, BIG, mx=MX)
limit(7, "solo.example", tables(("provider.p", 7, "match = {DomainSuffix='solo.example'}\n")), BIG, mx=MX)

# The domains of a site are those of MX rows, those of tables, and a host without a row that is its own site.
limit(7, "one.example", tables(("h", 7, "")), "h", mx="one.example h\n")
limit(7, "h", tables(("'one.example'", 7, "")), "h", mx="one.example h\n")
limit(7, "one.example", tables(("provider.p", 7, "match = {DomainSuffix='h'}\n")), "h", mx="one.example h\n")
limit(32, "one.example", tables(("h", 7, "")), "h", mx="one.example h\nh k\n")
limit(7, "h", tables(("h", 7, "")), "k", mx="one.example h\nh k\n")
limit(32, "one.example", tables(("h1", 7, "")), "h1|h2", mx=SHARED)
limit(32, "sub.d", tables(("d", 7, "")))

# A domain without rollup is a site of its own, and its table is for it alone.
ALONE = tables(("'one.example'", 7, "mx_rollup = false\n"), ("'two.example'", 8, ""))
limit(7, "one.example", ALONE, "one.example=h1|h2", mx=SHARED)
limit(8, "two.example", ALONE, "h1|h2", mx=SHARED)
limit(7, "one.example", ALONE, "one.example=one.example")
limit(7, "one.example", tables(("'one.example'", 7, "mx_rollup = true\n")), "h1|h2", mx=SHARED)

# Rules of every kind, as they are told.
KINDS = """[default]
connection_limit = 4
max_message_rate = '10/s,max_burst=20'
max_deliveries_per_connection = 20
[[default.automation]]
regex = 'too busy'
action = 'Suspend'
trigger = {Threshold='3/hr'}
duration = '30 mins'
[[default.automation]]
regex = ['a\"b', 'c']
action = 'SuspendTenant'
duration = 1
[[default.automation]]
regex = 'slow'
action = {SetConfig={name='max_message_rate', value='1/min'}}
duration = 2
[[default.automation]]
regex = 'few'
action = {SetConfig={name='connection_limit', value=1}}
duration = 3
[[default.automation]]
regex = 'none'
action = {SetConfig={name='enable_tls', value='Required'}}
duration = 4
[[default.automation]]
regex = 'last'
action = 'SuspendCampaign'
trigger = {Threshold='1/s'}
duration = 6
[[default.automation]]
regex = 'more\\.'
trigger = 'Immediate'
action = [
    {SetConfig={name='max_connection_rate', value='2/s'}},
    {SetConfig={name='max_deliveries_per_connection', value=3}},
    {SetConfig={name='max_ready', value=4}},
    {SetConfig={name='consecutive_connection_failures_before_delay', value=5}},
]
duration = 7
"""
explained(
    "one.example",
    "ip-1",
    site=BIG,
    options={"connection_limit": 4, "max_message_rate": QUICK, "max_deliveries_per_connection": 20},
    rules=[
        'Suspend Threshold 3/3600000 for 1800000 on ["too busy"]',
        'SuspendTenant Immediate for 1000 on ["a\\"b","c"]',
        'SetConfig max_message_rate=1/60000 burst 1 Immediate for 2000 on ["slow"]',
        'SetConfig connection_limit=1 Immediate for 3000 on ["few"]',
        'SetConfig none Immediate for 4000 on ["none"]',
        'SuspendCampaign Threshold 1/1000 for 6000 on ["last"]',
        'SetConfig max_connection_rate=2/1000 burst 2 Immediate for 7000 on ["more\\\\."]',
        'SetConfig max_deliveries_per_connection=3 Immediate for 7000 on ["more\\\\."]',
        'SetConfig max_ready=4 Immediate for 7000 on ["more\\\\."]',
        'SetConfig consecutive_connection_failures_before_delay=5 Immediate for 7000 on ["more\\\\."]',
    ],
    shaping=KINDS,
    mx=MX,
)
