"""Sources files: what `check` refuses and where, the keys that it lists, the names that sources and pools may have, and the
source and the pool that `explain` shows.

The argument of EHLO, the weights and the turns of a pool are printed by no command: here they are seen only as what is
accepted.
"""

from cases import checked, explained, refused

# Files that are right, and their keys without effect.
for text, ignored in [
    ("", []),
    ("x = 1\n[other.table]\n[[list]]\n", ["- list", "- other", "- x"]),
    ("B = 1\nb = 1\na = 1\n", ["- B", "- a", "- b"]),
    ("[source]\n[pool]\n", []),
    ("[source.a]\nttl = 5\nproxy = ''\n[pool.p.a]\nzone = []\n", ["pool.p.a zone", "source.a proxy", "source.a ttl"]),
    ("[source.a]\nproxy = [{ server = 'b' }]\n[[source.a.more]]\n", ["source.a more", "source.a proxy"]),
    ("[pool.p.a]\n[source.a]\n", []),
    ("[source.'a.b c']\nx = 1\n[pool.'p.q'.'a.b c']\nweight = 1000\n", ["source.a.b c x"]),
    ("[source.\"\u00e9\"]\n[pool.\"\u00fc<\".\"\u00e9\"]\n", []),
    ("[source.a]\n\"k\\n1\" = 1\n", ["source.a k\n1"]),
    # a table that takes the place of the built-in one, and the built-in source in a pool
    ("[source.unspecified]\nehlo_domain = 'h'\n[pool.unspecified]\n", []),
    ("[pool.zero.unspecified]\nweight = 0\nttl = 3\n", ["pool.zero.unspecified ttl"]),
    ("[pool.p.unspecified]\nweight = 1\n", []),
    # TOML 1.1: an inline table on several lines with a comma at its end
    ("source = {\n a = { ehlo_domain = 'h' }, # one\n}\n", []),
]:
    checked(*["sources " + line for line in ignored], sources=text)

# The file that stands first in the guide for operators, and the pool whose turns it tells.
GUIDE = """[source."bulk-1"]
source_address = "192.0.2.11"
ehlo_domain = "bulk-1.out.orchard.example"

[source."bulk-2"]

[pool."bulk"."bulk-1"]
weight = 2

[pool."bulk"."bulk-2"]
"""
checked("sources source.bulk-1 source_address", sources=GUIDE)
checked(sources="source = { a = {}, b = {}, c = {} }\npool.p = { a = { weight = 2 }, b = { weight = 1 }, c = { weight = 0 } }\n")

# The bounds of what may stand in a file.
for text in [
    f"[source.{'a' * 255}]\n",
    f"[pool.{'p' * 255}]\n",
    f"[source.a]\nehlo_domain = '{'h' * 255}'\n",
    "[source.a]\nehlo_domain = '!#~'\n",
    "[pool.p.unspecified]\nweight = 1000\n",
    "".join(f"[source.s{number}]\n[pool.p.s{number}]\nweight = 0\n" for number in range(200)),
]:
    checked(sources=text)

# Files with one fault.
for text, place in [
    ("a", "- -: NotToml"),
    (b"# \xff\n", "- -: NotToml"),
    ('[source."bulk-1"]\nehlo_domain = bulk-1.out.orchard.example\n', "- -: NotToml"),
    ("x = 1\nx = 2\n", "- -: NotToml"),
    ("[source.a]\n[source.a]\n", "- -: NotToml"),
    ('source = "bulk-1"\n', "- source: BadType"),
    ("[[source]]\n", "- source: BadType"),
    ("pool = []\n", "- pool: BadType"),
    ("[source]\na = 1\n", "source a: BadType"),
    ("[pool]\np = 1\n", "pool p: BadType"),
    ('[source."bulk-1"]\nehlo_domain = 25\n', "source.bulk-1 ehlo_domain: BadType"),
    ("[source.a.ehlo_domain]\n", "source.a ehlo_domain: BadType"),
    ('[source."bulk-1".proxy]\nserver = "198.51.100.7:5000"\n', "source.bulk-1 proxy: BadType"),
    ('[pool."bulk"]\nbulk-1 = 2\n', "pool.bulk bulk-1: BadType"),
    ("[[pool.p.unspecified]]\n", "pool.p unspecified: BadType"),
    ("[pool.p.unspecified.x]\n", "pool.p.unspecified x: BadType"),
    ("[pool.p.unspecified]\nweight = 1.0\n", "pool.p.unspecified weight: BadType"),
    ("[pool.p.unspecified]\nweight = 1.5\n", "pool.p.unspecified weight: BadType"),
    ("[pool.p.unspecified]\nweight = '2'\n", "pool.p.unspecified weight: BadType"),
    ("[source.'']\n", "source. -: BadName"),
    ("[source.'a>']\n", "source.a> -: BadName"),
    ('[source."a\\nb"]\n', "source.a\nb -: BadName"),
    ('[source."\\u007f"]\n', "source.\x7f -: BadName"),
    (f"[source.{'a' * 256}]\n", f"source.{'a' * 256} -: BadName"),
    ('[pool."bulk>1"]\n', "pool.bulk>1 -: BadName"),
    ('[pool."p\\u0001"]\n', "pool.p\x01 -: BadName"),
    (f"[pool.{'p' * 256}]\n", f"pool.{'p' * 256} -: BadName"),
    ('[source."bulk-1"]\nehlo_domain = "bulk 1"\n', "source.bulk-1 ehlo_domain: BadName"),
    ("[source.a]\nehlo_domain = ''\n", "source.a ehlo_domain: BadName"),
    ('[source.a]\nehlo_domain = "\\u007f"\n', "source.a ehlo_domain: BadName"),
    ("[source.a]\nehlo_domain = '\u00e9'\n", "source.a ehlo_domain: BadName"),
    (f"[source.a]\nehlo_domain = '{'h' * 256}'\n", "source.a ehlo_domain: BadName"),
    ('[source."bulk-1"]\n[pool."bulk"."bulk-1"]\nweight = 1001\n', "pool.bulk.bulk-1 weight: BadWeight"),
    ("[pool.p.unspecified]\nweight = -1\n", "pool.p.unspecified weight: BadWeight"),
    ("[pool.p.unspecified]\nweight = 9223372036854775807\n", "pool.p.unspecified weight: BadWeight"),
    ("".join(f"[source.s{number}]\n[pool.p.s{number}]\nweight = 0\n" for number in range(201)), "pool.p -: TooMany"),
    ('[source."bulk-1"]\n[pool."bulk"."bulk-2"]\n', "pool.bulk.bulk-2 -: UnknownSource"),
    ("[source.A]\n[pool.p.a]\n", "pool.p.a -: UnknownSource"),
]:
    refused("sources " + place, sources=text)

# Files with several faults, of which the first is named: by the table's keys joined by dots, then by the key, then by the
# order of the refusals.
for text, place in [
    ("[source.a]\nehlo_domain = 5\n[pool.p.b]\n", "pool.p.b -: UnknownSource"),
    ("[source]\na = 1\n[pool.p.a]\n", "pool.p.a -: UnknownSource"),
    ("source = 5\n[pool.p.a]\n", "- source: BadType"),
    ("source = 5\npool = 5\n", "- pool: BadType"),
    ("[pool.a]\nx = 1\n[pool.a-b]\nx = 1\n", "pool.a x: BadType"),
    ("[pool.a.x]\n[pool.a-b]\nx = 1\n", "pool.a-b x: BadType"),
    ("[source.'a>']\n'!' = {}\n", "source.a> !: BadType"),
    ("[source.'a>']\nehlo_domain = 1\n", "source.a> -: BadName"),
    ("[source.a]\nehlo_domain = 1\n[source.a.b]\n", "source.a b: BadType"),
    ("[pool.p.a]\nweight = 1001\n", "pool.p.a -: UnknownSource"),
    ("[pool.p.'>']\n", "pool.p.> -: BadName"),
    ("[pool.bulk]\n" + "".join(f"s{number} = {{}}\n" for number in range(1, 202)), "pool.bulk -: TooMany"),
    ("[pool.'p>']\n" + "".join(f"s{number} = {{}}\n" for number in range(201)), "pool.p> -: BadName"),
    ("[pool.p]\ns0 = 1\n" + "".join(f"s{number} = {{}}\n" for number in range(1, 202)), "pool.p -: TooMany"),
]:
    refused("sources " + place, sources=text)

# The pool of a queue and a source, as `explain` shows them.
BULK = '[source."bulk-1"]\n[pool."bulk"."bulk-1"]\nweight = 2\n[pool.empty]\n[pool.still.unspecified]\nweight = 0\n'
for pool, source in [
    ("bulk", "bulk-1"),
    ("bulk", "unspecified"),
    ("empty", "bulk-1"),
    ("still", "no source of the file"),
    ("unspecified", "bulk-1"),
]:
    queues = f"[queue.default]\negress_pool = '{pool}'\n"
    explained("d.example", source, settings={"pool": pool}, sources=BULK, queues=queues)
