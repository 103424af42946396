"""Shaping files: what their tables give to a path, as `explain` prints it, the keys that `check` lists, which texts are
patterns, and each refusal with its table, its key and its place in the order of faults.

How the tables of a site are laid over one another is shown in `paths.py`; how durations and throttles are spelled, in
`values.py`.
"""

from cases import checked, explained, refused

RATES = ["max_message_rate", "max_connection_rate"]
COUNTS = [
    "connection_limit",
    "max_deliveries_per_connection",
    "max_ready",
    "consecutive_connection_failures_before_delay",
]
DOMAIN = "d.example"


def automation(keys, table="default"):
    """A file with one table of automation that has these keys."""
    return f"{table}.automation = [{{{keys}}}]\n"


def one_rule(keys, *rules):
    """Lists a case of `explain` for a file with one table of automation that has these keys: the rules that it gives."""
    explained(DOMAIN, rules=rules, shaping=automation(keys))


def refusals(rows):
    """Lists a case of `check` for each text and the place at which it is refused."""
    for text, place in rows:
        refused("shaping " + place, shaping=text)


# --- What the tables give

checked(shaping="")
checked(shaping="default.automation = []\ndefault.sources = {}\nprovider = {}\n")

# Options of every kind, as numbers and as texts.
for value, shown in [("1", "1"), ("1000000", "1000000"), ("'20'", "20"), ("'local:12'", "12"), ("'1000000'", "1000000")]:
    text = "[default]\n" + "".join(f"{name} = {value}\n" for name in COUNTS)
    explained(DOMAIN, options=dict.fromkeys(COUNTS, shown), shaping=text)
for value, shown in [
    ("100/min", "100/60000 burst 100"),
    ("local:1_000/hour,max_burst=50", "1000/3600000 burst 50"),
    ("1000000000/day", "1000000000/86400000 burst 1000000000"),
]:
    text = "[default]\n" + "".join(f"{name} = '{value}'\n" for name in RATES)
    explained(DOMAIN, options=dict.fromkeys(RATES, shown), shaping=text)

for value, shown in [("'1ms'", "1"), ("'60s'", "60000"), ("'1m 30s'", "90000"), ("30", "30000"), ("3153600000", "3153600000000")]:
    explained(DOMAIN, options={"idle_timeout": shown}, shaping=f"default.idle_timeout = {value}\n")

# Triggers.
for trigger, shown in [
    ("'Immediate'", "Immediate"),
    ("{Threshold='1/s'}", "Threshold 1/1000"),
    ("{Threshold='3/hr'}", "Threshold 3/3600000"),
    ("{Threshold='1_000/min'}", "Threshold 1000/60000"),
    ("{Threshold='10000/day'}", "Threshold 10000/86400000"),
]:
    one_rule(f"regex='a',action='Suspend',duration=1,trigger={trigger}", f'Suspend {shown} for 1000 on ["a"]')

# Durations; without a trigger each match counts.
for duration, shown in [("0", 0), ("'0s'", 0), ("90", 90000), ("'1h 30m'", 5400000), ("3153600000", 3153600000000)]:
    one_rule(f"regex='a',action='Suspend',duration={duration}", f'Suspend Immediate for {shown} on ["a"]')

# Actions: one, or a list of them, each of which is a rule.
for action, *shown in [
    ("'SuspendTenant'", "SuspendTenant"),
    ("['SuspendCampaign']", "SuspendCampaign"),
    ("['Suspend','SuspendTenant','Suspend']", "Suspend", "SuspendTenant", "Suspend"),
    ("{SetConfig={name='connection_limit',value=2}}", "SetConfig connection_limit=2"),
    ("{SetConfig={value='1/s',name='max_message_rate'}}", "SetConfig max_message_rate=1/1000 burst 1"),
    ("{SetConfig={name='max_connection_rate',value='2/hour,max_burst=9'}}", "SetConfig max_connection_rate=2/3600000 burst 9"),
    ("{SetConfig={name='max_deliveries_per_connection',value='4'}}", "SetConfig max_deliveries_per_connection=4"),
    ("[{SetConfig={name='max_ready',value='local:7'}},'Suspend']", "SetConfig max_ready=7", "Suspend"),
    (
        "{SetConfig={value=3,name='consecutive_connection_failures_before_delay'}}",
        "SetConfig consecutive_connection_failures_before_delay=3",
    ),
    ("{SetConfig={name='idle_timeout',value='1m'}}", "SetConfig idle_timeout=60000"),
]:
    one_rule(f"regex='a',duration=1,action={action}", *[f'{line} Immediate for 1000 on ["a"]' for line in shown])

# Patterns stand in the order of the file, as a JSON list.
for regex, shown in [
    ("''", '[""]'),
    ("['b','a','b']", '["b","a","b"]'),
    (r"""['4\.7\.\d+ "x"']""", r'["4\\.7\\.\\d+ \"x\""]'),
    ('"\\t\u00e9"', '["\\t\u00e9"]'),
]:
    one_rule(f"regex={regex},action='Suspend',duration=1", f"Suspend Immediate for 1000 on {shown}")

# Rules in tables of every kind, and those of a path.
RULES = """[[default.automation]]
regex = ['b', 'a']
action = ['SuspendTenant', {SetConfig={name='max_ready', value=7}}]
duration = 90
[[default.automation]]
regex = 'c'
action = 'Suspend'
duration = 1
[[default.sources.'ip 1'.automation]]
regex = 'd'
action = 'Suspend'
duration = 0
[[provider.p.automation]]
regex = 'e'
action = 'Suspend'
duration = 2
[provider.p]
match = {DomainSuffix='.E'}
[[provider.p.sources.s.automation]]
regex = 'f'
action = 'Suspend'
duration = 3
[[d.automation]]
regex = 'g'
action = 'Suspend'
duration = 4
[[d.sources.s.automation]]
regex = 'h'
action = ['Suspend', 'SuspendCampaign']
duration = 5
"""
OF_ALL = [
    'SuspendTenant Immediate for 90000 on ["b","a"]',
    'SetConfig max_ready=7 Immediate for 90000 on ["b","a"]',
    'Suspend Immediate for 1000 on ["c"]',
]
for domain, source, rules in [
    ("d", "other", ['Suspend Immediate for 4000 on ["g"]']),
    ("d", "ip 1", ['Suspend Immediate for 4000 on ["g"]', 'Suspend Immediate for 0 on ["d"]']),
    (
        "d",
        "s",
        [
            'Suspend Immediate for 4000 on ["g"]',
            'Suspend Immediate for 5000 on ["h"]',
            'SuspendCampaign Immediate for 5000 on ["h"]',
        ],
    ),
    ("x.e", "ip 1", ['Suspend Immediate for 2000 on ["e"]', 'Suspend Immediate for 0 on ["d"]']),
    ("x.e", "s", ['Suspend Immediate for 2000 on ["e"]', 'Suspend Immediate for 3000 on ["f"]']),
]:
    explained(domain, source, rules=OF_ALL + rules, shaping=RULES)

# Which sites the matches of a provider know. The domains are of one site.
MX = "one.example mx1.big.example mx2.big.example\ntwo.test mx1.big.example mx2.big.example\n"
for match, known in [
    ("{MXSuffix='.big.example'}", True),
    ("{MXSuffix='.Big.EXAMPLE'}", True),
    ("{MXSuffix='big.example'}", True),
    ("{MXSuffix='1.big.example'}", False),
    ("[{MXSuffix='mx1.big.example'},{MXSuffix='mx2.big.example'}]", False),
    ("{MXSuffix='.example.'}", False),
    ("{MXSuffix=''}", True),
    ("{DomainSuffix='.example'}", True),
    ("{DomainSuffix='one.example'}", True),
    ("{DomainSuffix='.one.example'}", False),
    ("{DomainSuffix='.TEST'}", True),
    ("{DomainSuffix='.big.example'}", False),
    ("{DomainSuffix=''}", True),
    ("[{MXSuffix='.x'},{DomainSuffix='.x'},{DomainSuffix='.test'}]", True),
]:
    options = {"connection_limit": "7"} if known else {}
    text = f"[provider.p]\nmatch = {match}\nconnection_limit = 7\n"
    explained("one.example", site="mx1.big.example|mx2.big.example", options=options, shaping=text, mx=MX)

# Of two providers the later in byte order counts, whatever their order in the file.
TWO = "[provider.b]\nmatch = {MXSuffix=''}\nmax_ready = 2\n[provider.'A b']\nmatch = {MXSuffix=''}\nmax_ready = 3\n"
explained(DOMAIN, options={"max_ready": "2"}, shaping=TWO)

# Names of domains: in lower case, each for itself, and only `default` and `provider` in small letters are other tables.
NAMES = """[Default]
max_ready = 3
[Provider]
max_ready = 4
['b.Example']
max_ready = 5
mx_rollup = true
[C]
mx_rollup = false
"""
for domain, ready, site in [
    ("default", "3", "default"),
    ("provider", "4", "provider"),
    ("b.example", "5", "b.example"),
    ("a.b.example", "1024", "a.b.example"),
    ("c", "1024", "c=c"),
]:
    explained(domain, site=site, options={"max_ready": ready}, shaping=NAMES)
for text in [
    f"[{'d' * 255}]\n",
    "['#\"~/.x']\n",
    f"[default.sources.{'s' * 255}]\n",
    "provider.'p|' = {match={MXSuffix='a'}}\n",
]:
    checked(shaping=text)

# The file that stands first in the guide for operators.
GUIDE = """["default"]
connection_limit = 10
max_message_rate = "100/s"

[["default".automation]]
regex = ['too many (connections|messages)', 'try again later']
action = "Suspend"
trigger = {Threshold="10/hr"}
duration = "15 mins"

[provider."bigbox"]
match = [{MXSuffix=".mx.bigbox.example"}]
max_message_rate = "600/min,max_burst=50"

["slowpost.example"]
mx_rollup = false
connection_limit = 2

["slowpost.example".sources."warming-1"]
max_message_rate = "30/hour"
"""
GUIDE_RULE = 'Suspend Threshold 10/3600000 for 900000 on ["too many (connections|messages)","try again later"]'
checked(shaping=GUIDE)
for domain, site, source, limit, rate in [
    ("any.example", "any.example", "bulk-1", "10", "100/1000 burst 100"),
    ("m.mx.bigbox.example", "m.mx.bigbox.example", "bulk-1", "10", "600/60000 burst 50"),
    ("slowpost.example", "slowpost.example=slowpost.example", "bulk-1", "2", "100/1000 burst 100"),
    ("slowpost.example", "slowpost.example=slowpost.example", "warming-1", "2", "30/3600000 burst 30"),
]:
    options = {"connection_limit": limit, "max_message_rate": rate}
    explained(domain, source, site=site, options=options, rules=[GUIDE_RULE], shaping=GUIDE)

# A file of two thousand lines.
LONG = "".join(
    f"['d{number}.example']\nconnection_limit = 1{number}\nmax_message_rate = '1{number}/s,max_burst=1'\n"
    f"['d{number}.example'.sources.ip]\nmax_ready = 7\n[['d{number}.example'.automation]]\n"
    "regex = 'busy'\naction = 'Suspend'\ntrigger = 'Immediate'\nduration = '1h'\n"
    for number in range(200)
)
for number in [0, 199]:
    options = {"connection_limit": f"1{number}", "max_message_rate": f"1{number}/1000 burst 1", "max_ready": "7"}
    explained(f"d{number}.example", "ip", options=options, rules=['Suspend Immediate for 3600000 on ["busy"]'], shaping=LONG)
checked(shaping=LONG)

# --- Keys without effect

# At every level, of which some have one elsewhere.
KEYS = """[default]
enable_tls = {any = 'value'}
mx_rollup = 'yes'
match = 5
replace_base = true
[[default.automation]]
regex = 'a'
action = 'Suspend'
duration = 1
x = 1
sources = {}
[provider.p]
match = {MXSuffix='.x'}
mx_rollup = true
y = 1
['d.example']
match = 5
replace_base = true
z = []
['d.example'.sources.ip]
mx_rollup = false
match = 5
sources = 5
w = 1
[provider.'A b'.sources.'z.1']
v = 1
[provider.'A b']
match = {MXSuffix='.x'}
"""
LISTED = """d.example match
d.example replace_base
d.example z
d.example.sources.ip match
d.example.sources.ip mx_rollup
d.example.sources.ip sources
d.example.sources.ip w
default enable_tls
default match
default mx_rollup
default replace_base
default.automation.1 sources
default.automation.1 x
provider.A b.sources.z.1 v
provider.p mx_rollup
provider.p y
"""
checked(*["shaping " + line for line in LISTED.splitlines()], shaping=KEYS)

# The domain as the file spells it.
checked("shaping Any.example x", shaping="['Any.example']\nx = 1\n")

# Actions that set an option which has no effect here: each is a rule that does nothing, and its table is listed once.
ACTIONS = """[[default.automation]]
regex = 'a'
action = [{SetConfig={name='enable_tls', value='Required'}}, 'Suspend', {SetConfig={name='x', value={}}}]
duration = 1
[[default.automation]]
regex = 'b'
action = {SetConfig={name='max_ready', value=1}}
duration = 1
[[a.sources.s.automation]]
regex = 'c'
action = {SetConfig={name='', value=1}}
duration = 1
zone = 1
"""
checked(
    "shaping a.sources.s.automation.1 action",
    "shaping a.sources.s.automation.1 zone",
    "shaping default.automation.1 action",
    shaping=ACTIONS,
)
OF_ACTIONS = [
    ("SetConfig none", "a"),
    ("Suspend", "a"),
    ("SetConfig none", "a"),
    ("SetConfig max_ready=1", "b"),
    ("SetConfig none", "c"),
]
explained("a", "s", rules=[f'{action} Immediate for 1000 on ["{regex}"]' for action, regex in OF_ACTIONS], shaping=ACTIONS)

# --- Patterns

for pattern in [
    "a{2,3}?",
    "(?i)x",
    r"^5\d\d .*5\.7\.1 .*(spam|reputation)$",
    "(?P<name>a)(?<other>b)",
    "[a-z&&[^b]]",
    r"\bword\b|\p{Greek}",
    "(?x) a # c",
    "a" * 1024,
    "\u00e9" * 512,
    "(" * 250 + ")" * 250,
]:
    checked(shaping=automation(f"regex='{pattern}',action='Suspend',duration=1"))
for pattern in [
    "too (many",
    "a)",
    "[a",
    "*",
    "a{2,1}",
    "[z-a]",
    "a\\",
    r"(a)\1",
    r"\p{Nothing}",
    "(?P<n>a)(?P<n>b)",
    "(?=a)",
    "(?!a)",
    "(?<=a)",
    "(?<!a)",
    "a" * 1025,
    "\u00e9" * 513,
    "(" * 251 + ")" * 251,
]:
    text = automation(f"regex='{pattern}',action='Suspend',duration=1")
    refused("shaping default.automation.1 regex: BadPattern", shaping=text)


def many(count, table):
    """A table of automation with so many patterns."""
    return automation("regex=[" + "'a'," * count + "],action='Suspend',duration=1", table)


# At most 256 of them in a file; the one too many is the last in the order of faults.
checked(shaping=many(256, "m"))
checked(shaping=many(128, "m") + many(128, "default"))
refusals([
    (many(257, "m"), "m.automation.1 regex: BadPattern"),
    (many(256, "m") + many(1, "a"), "m.automation.1 regex: BadPattern"),
    (many(256, "m") + many(1, "z"), "z.automation.1 regex: BadPattern"),
    (many(256, "m") + many(1, "m.sources.s"), "m.sources.s.automation.1 regex: BadPattern"),
    (many(257, "m") + "z.max_ready = 0\n", "m.automation.1 regex: BadPattern"),
    (many(257, "m") + "a.max_ready = 0\n", "a max_ready: BadOption"),
])

# --- Refusals

# Files with one fault.
refusals([
    ("a = ", "- -: NotToml"),
    (b"\xff", "- -: NotToml"),
    ("[default]\n[default]\n", "- -: NotToml"),
    ("default = 5\n", "- default: BadType"),
    ("'a.example' = []\n", "- a.example: BadType"),
    ("provider = 5\n", "- provider: BadType"),
    ("provider.x = 'y'\n", "provider x: BadType"),
    ("default.sources = 5\n", "default sources: BadType"),
    ("provider.x = {match={MXSuffix='a'},sources=[]}\n", "provider.x sources: BadType"),
    ("a.sources.ip = 5\n", "a.sources ip: BadType"),
    ("default.automation = 5\n", "default automation: BadType"),
    ("default.automation = {}\n", "default automation: BadType"),
    ("default.automation = [5]\n", "default automation: BadType"),
    ("a.sources.s.automation = ['x']\n", "a.sources.s automation: BadType"),
    ("a.mx_rollup = 1\n", "a mx_rollup: BadType"),
    ("a.mx_rollup = 'false'\n", "a mx_rollup: BadType"),
    ("provider.x.match = 5\n", "provider.x match: BadType"),
    ("'' = {}\n", "- -: BadName"),
    (f"[{'d' * 256}]\n", f"{'d' * 256} -: BadName"),
    ('["a.example|b.example"]\n', "a.example|b.example -: BadName"),
    ('["a\\u007f"]\n', "a\x7f -: BadName"),
    ("[\"\u00e9\"]\n", "\u00e9 -: BadName"),
    ("provider.'a>b'.match = {MXSuffix='x'}\n", "provider.a>b -: BadName"),
    ("provider.''.match = {MXSuffix='x'}\n", "provider. -: BadName"),
    ("default.sources.'a>b' = {}\n", "default.sources.a>b -: BadName"),
    ("a.sources.'' = {}\n", "a.sources. -: BadName"),
    (f"[default.sources.{'s' * 256}]\n", f"default.sources.{'s' * 256} -: BadName"),
    ('["SlowPost.example"]\n["slowpost.example"]\n', "slowpost.example -: Twice"),
    ("[DEFAULT]\n[Default]\n", "Default -: Twice"),
    ("provider.x = {}\n", "provider.x match: BadMatch"),
    ('[provider."bigbox"]\nconnection_limit = 20\n', "provider.bigbox match: BadMatch"),
    ("provider.x.match = []\n", "provider.x match: BadMatch"),
    ("provider.x.match = {}\n", "provider.x match: BadMatch"),
    ("provider.x.match = {Foo='x'}\n", "provider.x match: BadMatch"),
    ("provider.x.match = {mxsuffix='x'}\n", "provider.x match: BadMatch"),
    ("provider.x.match = {MXSuffix=5}\n", "provider.x match: BadMatch"),
    ("provider.x.match = {MXSuffix='a',DomainSuffix='b'}\n", "provider.x match: BadMatch"),
    ("provider.x.match = [{MXSuffix='a'},5]\n", "provider.x match: BadMatch"),
    ("provider.x.match = [{DomainSuffix='a',x=1}]\n", "provider.x match: BadMatch"),
    ("provider.x = {match={MXSuffix='a'},max_ready=0}\n", "provider.x max_ready: BadOption"),
    ("provider.x = {match={MXSuffix='a'},sources={s={max_ready=0}}}\n", "provider.x.sources.s max_ready: BadOption"),
    ("default.sources.s.max_connection_rate = 'x'\n", "default.sources.s max_connection_rate: BadThrottle"),
    ("['D.example'.sources.s]\nconnection_limit = true\n", "D.example.sources.s connection_limit: BadType"),
])
refusals([(f"['A{sign}b']\n", f"A{sign}b -: BadName") for sign in " =:@!>"])

# Values that an option may not have, in a table and as what a rule sets it to.
VALUES = [
    ("connection_limit", "true", "BadType"),
    ("max_ready", "1.5", "BadType"),
    ("max_deliveries_per_connection", "[]", "BadType"),
    ("consecutive_connection_failures_before_delay", "{}", "BadType"),
    ("max_message_rate", "100", "BadType"),
    ("max_connection_rate", "{}", "BadType"),
    ("connection_limit", "0", "BadOption"),
    ("max_ready", "1000001", "BadOption"),
    ("max_deliveries_per_connection", "-1", "BadOption"),
    ("connection_limit", "'5_0'", "BadOption"),
    ("connection_limit", "'local:0'", "BadOption"),
    ("connection_limit", "'local:'", "BadOption"),
    ("connection_limit", "'Local:5'", "BadOption"),
    ("connection_limit", "' 5'", "BadOption"),
    ("connection_limit", "''", "BadOption"),
    ("max_ready", "'1000001'", "BadOption"),
    ("consecutive_connection_failures_before_delay", "'x'", "BadOption"),
    ("max_message_rate", "'100'", "BadThrottle"),
    ("max_connection_rate", "'0/s'", "BadThrottle"),
    ("idle_timeout", "true", "BadType"),
    ("idle_timeout", "0", "BadOption"),
    ("idle_timeout", "'0s'", "BadOption"),
    ("idle_timeout", "'soon'", "BadOption"),
    ("idle_timeout", "-1", "BadOption"),
    ("idle_timeout", "'36501d'", "BadOption"),
]
for name, value, word in VALUES:
    refused(f"shaping default {name}: {word}", shaping=f"default.{name} = {value}\n")
    action = f"{{SetConfig={{name='{name}',value={value}}}}}"
    text = automation(f"regex='a',duration=1,action=['Suspend',{action}]", "a.sources.s")
    refused(f"shaping a.sources.s.automation.1 action: {word}", shaping=text)

# The keys of a rule of which one is at fault.
for keys, place in [
    ("action='Suspend',duration=1", "regex: BadPattern"),
    ("action='Suspend',duration=1,regex=5", "regex: BadType"),
    ("action='Suspend',duration=1,regex={}", "regex: BadType"),
    ("action='Suspend',duration=1,regex=[]", "regex: BadType"),
    ("action='Suspend',duration=1,regex=[5]", "regex: BadPattern"),
    ("action='Suspend',duration=1,regex=['a','*']", "regex: BadPattern"),
    ("regex='a',duration=1", "action: BadAction"),
    ("regex='a',duration=1,action=5", "action: BadType"),
    ("regex='a',duration=1,action=[]", "action: BadType"),
    ('regex="x",action="Pause",duration="1m"', "action: BadAction"),
    ("regex='a',duration=1,action='suspend'", "action: BadAction"),
    ("regex='a',duration=1,action={Foo=1}", "action: BadAction"),
    ("regex='a',duration=1,action={}", "action: BadAction"),
    ("regex='a',duration=1,action={SetConfig=5}", "action: BadAction"),
    ("regex='a',duration=1,action={SetConfig={name='connection_limit'}}", "action: BadAction"),
    ("regex='a',duration=1,action={SetConfig={value=5}}", "action: BadAction"),
    ("regex='a',duration=1,action={SetConfig={name=5,value=5}}", "action: BadAction"),
    ("regex='a',duration=1,action={SetConfig={name='x',value=1,more=2}}", "action: BadAction"),
    ("regex='a',duration=1,action={SetConfig={name='x',value=1},x=1}", "action: BadAction"),
    ("regex='a',duration=1,action=[5]", "action: BadAction"),
    ("regex='a',duration=1,action=[['Suspend']]", "action: BadAction"),
    ('regex="x",duration="1m",action={SetConfig={name="max_message_rate",value="100"}}', "action: BadThrottle"),
    ("regex='a',action='Suspend',duration=1,trigger=5", "trigger: BadType"),
    ("regex='a',action='Suspend',duration=1,trigger=[]", "trigger: BadType"),
    ("regex='a',action='Suspend',duration=1,trigger='Later'", "trigger: BadTrigger"),
    ("regex='a',action='Suspend',duration=1,trigger={}", "trigger: BadTrigger"),
    ("regex='a',action='Suspend',duration=1,trigger={Threshold=5}", "trigger: BadTrigger"),
    ("regex='a',action='Suspend',duration=1,trigger={Threshold='3'}", "trigger: BadTrigger"),
    ("regex='a',action='Suspend',duration=1,trigger={Threshold='3/ms'}", "trigger: BadTrigger"),
    ("regex='a',action='Suspend',duration=1,trigger={Threshold='0/s'}", "trigger: BadTrigger"),
    ("regex='a',action='Suspend',duration=1,trigger={Threshold='10001/s'}", "trigger: BadTrigger"),
    ("regex='a',action='Suspend',duration=1,trigger={Threshold='local:3/s'}", "trigger: BadTrigger"),
    ("regex='a',action='Suspend',duration=1,trigger={Threshold='3/s,max_burst=2'}", "trigger: BadTrigger"),
    ("regex='a',action='Suspend',duration=1,trigger={Threshold='3/s',x=1}", "trigger: BadTrigger"),
    ("regex='a',action='Suspend'", "duration: BadDuration"),
    ("regex='a',action='Suspend',duration='x'", "duration: BadDuration"),
    ("regex='a',action='Suspend',duration=-1", "duration: BadDuration"),
    ("regex='a',action='Suspend',duration=3153600001", "duration: BadDuration"),
    ("regex='a',action='Suspend',duration=true", "duration: BadType"),
    ("regex='a',action='Suspend',duration=['1s']", "duration: BadType"),
]:
    refused("shaping default.automation.1 " + place, shaping=automation(keys))

# --- Files with several faults, of which the first is named

GOOD = "{regex='a',action='Suspend',duration=1}"
refusals([
    # NotToml before all, and the top level before tables
    ("a.max_ready = 0\nb = \n", "- -: NotToml"),
    ("a.max_ready = 0\nz = 5\n", "- z: BadType"),
    ("'' = {}\nz = 5\n", "- -: BadName"),
    # the keys of one table
    ("default.max_ready = true\ndefault.connection_limit = 0\n", "default connection_limit: BadOption"),
    # tables, of which the keys are compared with the dots between them
    ("a.sources.x.max_ready = true\na-b.max_ready = 0\n", "a-b max_ready: BadOption"),
    ("a.sources.x.max_ready = true\na.max_ready = 0\n", "a max_ready: BadOption"),
    ("default.max_ready = true\nb.max_ready = 0\nprovider.x = {}\n", "b max_ready: BadOption"),
    ("provider.b.match = 5\nprovider.a.match = []\n", "provider.a match: BadMatch"),
    ("provider.b = 5\nprovider.a.match = []\n", "provider b: BadType"),
    # the name of a table, and what stands in it
    ("'a|'.connection_limit = 0\n", "a| -: BadName"),
    ("'a|'.',' = 1\n'a|'.automation = 5\n", "a| -: BadName"),
    # domains that are equal in lower case
    ("[AB]\n[Ab]\n[aB]\n", "Ab -: Twice"),
    ("[a]\nmax_ready = 0\n[A]\nmax_ready = true\n", "A max_ready: BadType"),
    ("[a]\nmax_ready = 0\n[A]\n", "a -: Twice"),
    ("['A|']\n['a|']\n", "A| -: BadName"),
    ("['a|']\n[provider.'>']\n", "a| -: BadName"),
    # tables of automation by their lists, then by their numbers, then by key
    (
        f"[[b.automation]]\n[a]\nautomation = [{GOOD}, {{}}]\n",
        "a.automation.2 action: BadAction",
    ),
    (automation("regex='(',duration=true,action='Suspend',trigger='x'", "a"), "a.automation.1 duration: BadType"),
    (automation("regex='('", "a.sources.s") + automation("regex='a',duration=1", "a"), "a.automation.1 action: BadAction"),
    ("a.automation = [{},5]\na.max_ready = 0\n", "a automation: BadType"),
    ("[a]\nx.y = 1\nautomation = [{}]\nmax_ready = 0\n", "a max_ready: BadOption"),
    (f"default.automation = [{GOOD},{{regex='(',action='Suspend',duration=1}}]\n", "default.automation.2 regex: BadPattern"),
    (
        automation("regex='a',action='Suspend'", "'one.example'.sources.ip-1"),
        "one.example.sources.ip-1.automation.1 duration: BadDuration",
    ),
    (
        "provider.Big = {match=[{MXSuffix='a'}],automation=[{regex='a',action='Foo',duration=1}]}\n",
        "provider.Big.automation.1 action: BadAction",
    ),
    # a pattern that the engine refuses stands at its place among the others
    ("z.max_ready = 0\n" + automation("regex='(',action='Suspend',duration=1", "a"), "a.automation.1 regex: BadPattern"),
    ("a.max_ready = 0\n" + automation("regex='(',action='Suspend',duration=1", "z"), "a max_ready: BadOption"),
    # numbers of tables and places in lists are compared as numbers
    (
        f"default.automation = [{GOOD},{{regex='a',action='Suspend',duration=true}},{(GOOD + ',') * 7}"
        "{regex='a',action='Foo',duration=1}]\n",
        "default.automation.2 duration: BadType",
    ),
    (
        automation(
            "regex='a',duration=1,action=['Suspend','Foo'," + "'Suspend'," * 7 + "{SetConfig={name='max_ready',value=0}}]"
        ),
        "default.automation.1 action: BadAction",
    ),
    # in a list the first place, whatever the words
    (
        automation(
            "regex='a',duration=1,action=[{SetConfig={name='max_message_rate',value='x'}},"
            "{SetConfig={name='max_ready',value=true}}]"
        ),
        "default.automation.1 action: BadThrottle",
    ),
])
