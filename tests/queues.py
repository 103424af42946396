"""Queues files: the settings that `explain` tells of a queue, the keys without effect, the names, and each refusal.

Pools that are not there are shown in `policies.py`, and durations in `values.py`.
"""

from cases import checked, explained, refused

SOURCES = "".join(f"[pool.{pool}]\n" for pool in ("bulk", "notices", "p0", "p1", "p2", "p3", "p4"))


def settings(queues, queue, pool="unspecified", age=None, retry=None, bound=None):
    """What `explain` tells of a queue, spelled as its name: the pool, and the durations in milliseconds."""
    names, domain = queue.rpartition("@")[::2]
    campaign, tenant = names.rpartition(":")[::2]
    words = [word for name, value in (("--tenant", tenant), ("--campaign", campaign)) if value for word in (name, value)]
    numbers = {"max_age": age, "retry_interval": retry, "max_retry_interval": bound}
    found = {"pool": pool, **{name: str(number) for name, number in numbers.items() if number is not None}}
    explained(domain, queue=queue, settings=found, words=words, sources=SOURCES, queues=queues)


SECOND = 1_000
MINUTE = 60 * SECOND
HOUR = 60 * MINUTE
DAY = 24 * HOUR

# The example of docs/OPERATING.md.
EXAMPLE = """[queue.default]
egress_pool = 'bulk'
max_age = '5 days'
[tenant.'bank']
egress_pool = 'notices'
max_age = '2 days'
[queue.'slowpost.example']
max_age = 864000
retry_interval = '1 hour'
[queue.'slowpost.example'.'bank']
max_age = '2 days'
[queue.'slowpost.example'.'bank'.'one-time-codes']
max_age = '10 mins'
retry_interval = '1m 30s'
"""
settings(EXAMPLE, "any.example", "bulk", 5 * DAY)
settings(EXAMPLE, "bank@any.example", "notices", 2 * DAY)
settings(EXAMPLE, "slowpost.example", "bulk", 10 * DAY, HOUR)
settings(EXAMPLE, "bank@slowpost.example", "notices", 2 * DAY, HOUR)
settings(EXAMPLE, "one-time-codes:bank@slowpost.example", "notices", 10 * MINUTE, 90 * SECOND)
settings(EXAMPLE, "one-time-codes:bank@any.example", "notices", 2 * DAY)
settings(EXAMPLE, "sub.slowpost.example", "bulk", 5 * DAY)
settings(EXAMPLE, "Bank@slowpost.example", "bulk", 10 * DAY, HOUR)
checked(sources=SOURCES, queues=EXAMPLE)

# No layer, and layers of all five kinds over one another.
settings("", "a:b@c")
LAYERS = """[queue.default]
max_age = 1
retry_interval = 1
max_retry_interval = 1
egress_pool = 'p0'
[tenant.t]
retry_interval = 2
max_retry_interval = 2
egress_pool = 'p1'
[queue.d]
max_retry_interval = 3
egress_pool = 'p2'
[queue.d.t]
max_retry_interval = 4
egress_pool = 'p3'
[queue.d.t.c]
egress_pool = 'p4'
"""
settings(LAYERS, "e", "p0", 1_000, 1_000, 1_000)
settings(LAYERS, "t@e", "p1", 1_000, 2_000, 2_000)
settings(LAYERS, "c:t@e", "p1", 1_000, 2_000, 2_000)
for queue in ("d", "u@d", "c:@d", "T@d"):
    settings(LAYERS, queue, "p2", 1_000, 1_000, 3_000)
settings(LAYERS, "t@d", "p3", 1_000, 2_000, 4_000)
settings(LAYERS, "C:t@d", "p3", 1_000, 2_000, 4_000)
settings(LAYERS, "c:t@d", "p4", 1_000, 2_000, 4_000)

# Domains are taken in lower case, tenants and campaigns are not; only `default` in small letters is for all.
DOMAINS = """[queue.'b.example']
max_retry_interval = 90
[queue.'B.a'.'t.1'.'c.2']
retry_interval = 2
[queue.Default]
max_age = 0
[queue.default]
max_age = '2 h'
[queue.'a.z']
"""
settings(DOMAINS, "b.example", age=2 * HOUR, bound=90 * SECOND)
settings(DOMAINS, "c.2:t.1@b.a", age=2 * HOUR, retry=2 * SECOND)
settings(DOMAINS, "c.2:T.1@b.a", age=2 * HOUR)
settings(DOMAINS, "C.2:t.1@b.a", age=2 * HOUR)
settings(DOMAINS, "default", age=0)
settings(DOMAINS, "a.z", age=2 * HOUR)
settings("[queue.slowpost.example]\nmax_age = 1\n", "slowpost.example")
settings("[queue.slowpost.example]\nmax_age = 1\n", "example@slowpost", age=SECOND)

# Keys without effect at every level, and tables that stand for names.
IGNORED = """top = 1
[other]
[tenant.t]
x = 1
[tenant.t.inner]
max_age = 'wrong'
[queue.default]
y = 2
[queue.default.deep]
[queue.'D.example']
z = 3
[queue.'D.example'.t]
w = 4
[queue.'D.example'.t.c]
v = 5
[queue.'D.example'.t.c.u]
"""
checked(
    "queues - other",
    "queues - top",
    "queues queue.D.example z",
    "queues queue.D.example.t w",
    "queues queue.D.example.t.c u",
    "queues queue.D.example.t.c v",
    "queues queue.default deep",
    "queues queue.default y",
    "queues tenant.t inner",
    "queues tenant.t x",
    queues=IGNORED,
)
checked("queues queue.d.protocol.smtp mx_list", queues="[queue.d]\nprotocol = { smtp = { mx_list = [] } }\n")
checked("queues queue.d a b", queues="[queue.d]\n'a b' = 1\n")
checked("queues queue.d t", "queues tenant.t x", queues="[[queue.d.t]]\n[[tenant.t.x]]\n")
checked(queues="[queue]\n[tenant]\n")

# Names at their limits, each judged alone: a table whose name is too long with all its parts is for no queue.
DOMAIN, TENANT, CAMPAIGN = "d" * 1_024, "t" * 1_022, "c" * 1_021
settings(f"[queue.{DOMAIN}]\nmax_age = 1\n", DOMAIN, age=SECOND)
settings(f"[queue.d.{TENANT}]\nmax_age = 1\n", TENANT + "@d", age=SECOND)
checked(queues=f"[tenant.{TENANT}]\n[queue.{DOMAIN}.{TENANT}.{CAMPAIGN}]\n")
for table in (f"queue.{DOMAIN}d", f"tenant.{TENANT}t", f"queue.d.{TENANT}t", f"queue.d.t.{CAMPAIGN}c"):
    refused(f"queues {table} -: BadName", queues=f"[{table}]\n")
checked(queues="[tenant.'T 1']\n[queue.'a>|=\u00e9 b'.'C'.' ']\n")

# Names that none of them may have, as the file spells them and as they are told.
for spelled, name in (
    ("''", ""),
    ("'c:'", "c:"),
    ("'t@d'", "t@d"),
    ("'a!'", "a!"),
    ('"a\\tb"', "a\tb"),
    ('"a\\u007f"', "a\x7f"),
    ('"\\u001f"', "\x1f"),
):
    for table in ("queue.", "tenant.", "queue.d.", "queue.d.t."):
        refused(f"queues {table}{name} -: BadName", queues=f"[{table}{spelled}]\n")

# Each refusal.
for text in (
    "a = ", b"a = '\xff'", "[queue.default]\nmax_age = 5 days", "[queue.a]\n[queue.a]",
    "[queue.a]\nmax_age = 1\nmax_age = 1",
):
    refused("queues - -: NotToml", queues=text)
for text, place in (
    ("queue = 5", "- queue: BadType"),
    ("tenant = 'x'", "- tenant: BadType"),
    ("[[queue]]", "- queue: BadType"),
    ("queue.'a.b' = 5", "queue a.b: BadType"),
    ("queue.default = 5", "queue default: BadType"),
    ("tenant.t = 5", "tenant t: BadType"),
    ("[tenant]\nbank = 'notices'", "tenant bank: BadType"),
    ("[queue.'a.b'.max_age]", "queue.a.b max_age: BadType"),
    ("[queue.a.t.egress_pool]", "queue.a.t egress_pool: BadType"),
    ("[queue.default]\nmax_age = true", "queue.default max_age: BadType"),
    ("[queue.'slowpost.example']\nmax_age = 1.5", "queue.slowpost.example max_age: BadType"),
    ("[tenant.t]\negress_pool = 5", "tenant.t egress_pool: BadType"),
    ("[queue.d.t.c]\nretry_interval = []", "queue.d.t.c retry_interval: BadType"),
    ("[queue.'A:b']", "queue.A:b -: BadName"),
    ("[queue.'slowpost.example'.'bank:codes']\nmax_age = '10 mins'", "queue.slowpost.example.bank:codes -: BadName"),
    ("[queue.default]\nmax_age = '300'", "queue.default max_age: BadDuration"),
    ("[queue.a.t.c]\nretry_interval = -1", "queue.a.t.c retry_interval: BadDuration"),
    ("[tenant.t]\nmax_retry_interval = 3153600001", "tenant.t max_retry_interval: BadDuration"),
    ("[queue.a.t]\nretry_interval = 0", "queue.a.t retry_interval: Zero"),
    ("[queue.a]\nmax_retry_interval = '0s'", "queue.a max_retry_interval: Zero"),
    ("[tenant.'bank']\nretry_interval = '0s'", "tenant.bank retry_interval: Zero"),
    ("[queue.default]\nmax_retry_interval = '0d 0 ms'", "queue.default max_retry_interval: Zero"),
    ("[queue.a]\n[queue.A]", "queue.a -: Twice"),
    ("[queue.'slowpost.example']\n[queue.'SlowPost.example']", "queue.slowpost.example -: Twice"),
    ("[queue.DEFAULT]\n[queue.Default]\n[queue.default]", "queue.Default -: Twice"),
    ("[queue.AB]\n[queue.Ab]\n[queue.aB]", "queue.Ab -: Twice"),
):
    refused("queues " + place, queues=text)

# Of several faults the first: by the table, then the key, then the word.
for text, place in (
    ("[queue.'A!']\n[queue.'a!']\nmax_age = true", "queue.A! -: BadName"),
    ("[queue.a.x]\nmax_age = true\n[queue.'a-b']\nmax_age = -1", "queue.a-b max_age: BadDuration"),
    ("[queue.'a!']\nmax_age = true\n[queue.a]\nmax_age = -1", "queue.a max_age: BadDuration"),
    ("[queue.a.'t!']\n[queue.a]\nmax_age = -1", "queue.a max_age: BadDuration"),
    ("[queue.'b.example']\nretry_interval = 0\nmax_age = -1", "queue.b.example max_age: BadDuration"),
    ("[tenant.'a@b']\n[queue.a]\nretry_interval = 0", "queue.a retry_interval: Zero"),
    ("queue = 5\n[tenant.'a@b']", "- queue: BadType"),
    ("[queue.'a!']\n[tenant]\nx = 5", "queue.a! -: BadName"),
    ("[queue.a]\nmax_age = true\n[queue.A]\nmax_age = true", "queue.A max_age: BadType"),
    ("[queue.a]\nmax_age = true\n[queue.A]", "queue.a -: Twice"),
    ("[queue.'a!']\n'-' = {max_age = true}\n[queue.'A!']", "queue.A! -: BadName"),
):
    refused("queues " + place, queues=text)
