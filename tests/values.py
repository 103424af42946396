"""Values of policy files: durations, throttles and numbers, as `explain` tells them, and the texts that are none.

They are shown at one key each, as `max_age` and `max_message_rate`; that other keys take them too is shown in the modules of
their files.
"""

from cases import explained, refused

SECOND = 1_000
MINUTE = 60 * SECOND
HOUR = 60 * MINUTE
DAY = 24 * HOUR
LONGEST = 36_500 * DAY


def age(value, milliseconds):
    """`max_age` with a value, as the file spells it, and what it is."""
    explained("d", settings={"max_age": milliseconds}, queues=f"[queue.default]\nmax_age = {value}\n")


def no_age(value, word="BadDuration"):
    refused(f"queues queue.default max_age: {word}", queues=f"[queue.default]\nmax_age = {value}\n")


# Units, each in all its spellings.
for units, milliseconds in (
    ("ms msec millisecond milliseconds", 1),
    ("s sec secs second seconds", SECOND),
    ("m min mins minute minutes", MINUTE),
    ("h hr hrs hour hours", HOUR),
    ("d day days", DAY),
    ("w week weeks", 7 * DAY),
):
    for unit in units.split():
        age(f"'3{unit}'", 3 * milliseconds)

# Numbers with their units are added up, and spaces stand anywhere but inside them.
for text, milliseconds in (
    ("1h 30 mins", 90 * MINUTE),
    ("1m 30s", 90 * SECOND),
    ("1w1s", 7 * DAY + SECOND),
    ("  0007   ms  ", 7),
    ("1s1s 1s", 3 * SECOND),
    ("1ms 1w", 7 * DAY + 1),
    ("0s", 0),
    ("0 weeks 0ms", 0),
    ("36500d", LONGEST),
    ("36499d 24h", LONGEST),
    ("3153600000000ms", LONGEST),
    ("000000000000000000000000000036500d", LONGEST),
):
    age(f"'{text}'", milliseconds)

# A whole number is seconds.
for number in (0, 1, 90, 864_000, 3_153_600_000):
    age(number, number * SECOND)
age("1_0", 10 * SECOND)
age("0x10", 16 * SECOND)

# Texts that are no duration: nothing there, no number, no unit, and more than 36,500 days.
for text in (
    "", "   ", "h", " h", "1h 2m h", "-1s", "+1s", "300", "300  ", "1h 300", "1S", "1 H", "1hour s", "1\u00a0s", "1.5h",
    "1_0s", "1,0s",
):
    no_age(f"'{text}'")
for text in ("1x", "1mss", "1 day and 1 hour", "1 year", "1us", "1sm", "9" * 40 + "x", "1h,1m", "\u0661s", "1\u00b5s"):
    no_age(f"'{text}'")
no_age('"1\\ts"')
no_age('"1s\\n"')
for text in ("36501d", "1h 36500d", "36500d 1ms", "3153600000001ms", "1 week 36500d", "18446744073709551616ms", "9" * 40 + "s"):
    no_age(f"'{text}'")
for number in (-1, 3_153_600_001, 9_223_372_036_854_775_807):
    no_age(number)
for value in ("true", "1.5", "1.0", "[]", "['1s']", "{}", "1979-05-27", "inf"):
    no_age(value, "BadType")

# The other two durations of a queue may not be 0.
for key in ("retry_interval", "max_retry_interval"):
    explained("d", settings={key: 1}, queues=f"[queue.default]\n{key} = '1ms'\n")
    explained("d", settings={key: LONGEST}, queues=f"[queue.default]\n{key} = '36500 days'\n")
    for value in ("0", "'0s'", "'0h 0ms'"):
        refused(f"queues queue.default {key}: Zero", queues=f"[queue.default]\n{key} = {value}\n")


def rate(text, quantity, period, burst=None):
    """`max_message_rate` with a text, and what it is."""
    told = f"{quantity}/{period} burst {burst or quantity}"
    explained("d", options={"max_message_rate": told}, shaping=f"[default]\nmax_message_rate = '{text}'\n")


def no_rate(value, word="BadThrottle"):
    refused(f"shaping default max_message_rate: {word}", shaping=f"[default]\nmax_message_rate = {value}\n")


# Throttles: the units but those of milliseconds and weeks, `local:`, `_` between digits, and bursts.
for units, milliseconds in (
    ("s sec secs second seconds", SECOND),
    ("m min mins minute minutes", MINUTE),
    ("h hr hrs hour hours", HOUR),
    ("d day days", DAY),
):
    for unit in units.split():
        rate(f"3/{unit}", 3, milliseconds)
for text, quantity, period, burst in (
    ("100/min", 100, MINUTE, None),
    ("local:1_000/hour,max_burst=50", 1_000, HOUR, 50),
    ("local:1_000/hour", 1_000, HOUR, None),
    ("3/hr,max_burst=1", 3, HOUR, 1),
    ("local:5/day,max_burst=1_0", 5, DAY, 10),
    ("007/d", 7, DAY, None),
    ("1_000_000_000/s", 1_000_000_000, SECOND, None),
    ("1_2_3/minute,max_burst=4_5", 123, MINUTE, 45),
    ("0_1/s", 1, SECOND, None),
    ("9/hours,max_burst=1000000000", 9, HOUR, 1_000_000_000),
    ("1/s,max_burst=0000000000000000000000007", 1, SECOND, 7),
):
    rate(text, quantity, period, burst)
explained("d", options={"max_connection_rate": "2/3600000 burst 7"}, shaping="[default]\nmax_connection_rate = '2/h,max_burst=7'\n")
for text in (
    "", "5", "local:", "x", "x/s", "/s", "1__0/s", "_1/s", "1_/s", " 1/s", "-1/s", "+1/s", "1 /s", "0/s", "0_0/s",
    "1.5/s",
):
    no_rate(f"'{text}'")
for text in ("1000000001/s", "99999999999999999999999999/s", "local:local:1/s", "Local:1/s", "local: 1/s", "\u0661/s"):
    no_rate(f"'{text}'")
for text in ("1/week", "1/w", "1/ms", "1/millisecond", "1/", "1/S", "1/s ", "1/ s", "1/s/s", "1/1s", "1/s,", "1/s,foo", "1/sx"):
    no_rate(f"'{text}'")
for burst in ("", "=", "=0", "=0_0", "=1_", "=1000000001", "=2,max_burst=3", "=2/s", "=-1", "=x", "= 2", "=local:2", "=2 "):
    no_rate(f"'1/s,max_burst{burst}'")
for text in ("1/s, max_burst=2", "1/s ,max_burst=2", "1/,max_burst=2", "1,max_burst=2/s", "1/s,Max_burst=2"):
    no_rate(f"'{text}'")
for value in ("100", "true", "1.5", "{}", "['1/s']"):
    no_rate(value, "BadType")


def limit(value, number):
    """`connection_limit` with a value, as the file spells it, and what it is."""
    explained("d", options={"connection_limit": number}, shaping=f"[default]\nconnection_limit = {value}\n")


# Numbers from 1 to 1,000,000, or texts of their digits.
for value, number in (
    ("1", 1),
    ("1000000", 1_000_000),
    ("1_0", 10),
    ("'1'", 1),
    ("'1000000'", 1_000_000),
    ("'local:5'", 5),
    ("'007'", 7),
    ("'local:00000000000000000000000000012'", 12),
):
    limit(value, number)
for value in (
    "0", "-1", "1000001", "9223372036854775807", "''", "'0'", "'local:0'", "'local:'", "'1000001'", "'5_0'", "' 5'",
    "'5 '", "'+5'",
):
    refused("shaping default connection_limit: BadOption", shaping=f"[default]\nconnection_limit = {value}\n")
for value in ("'x'", "'-5'", "'0x5'", "'Local:5'", "'local:local:5'", "'99999999999999999999999999'", "'5/s'", "'\u0665'"):
    refused("shaping default connection_limit: BadOption", shaping=f"[default]\nconnection_limit = {value}\n")
for value in ("true", "1.5", "1.0", "[]", "{}", "[5]"):
    refused("shaping default connection_limit: BadType", shaping=f"[default]\nconnection_limit = {value}\n")
