"""MX tables: the hosts that domains have by them, as sites show them, and the lines that are refused."""

from cases import checked, explained, refused


def site(mx, domain, hosts):
    """What the site of a domain is: its hosts joined by `|`, or the domain itself."""
    explained(domain, queue=domain.lower(), site=hosts, mx=mx)


# The example of docs/OPERATING.md.
EXAMPLE = """# domain and hosts
bigbox.example    mx1.mx.bigbox.example mx2.mx.bigbox.example
slowpost.example  mail.slowpost.example
"""
site(EXAMPLE, "bigbox.example", "mx1.mx.bigbox.example|mx2.mx.bigbox.example")
site(EXAMPLE, "slowpost.example", "mail.slowpost.example")

# Texts that give no row.
for text in ("", "\n", "# no line\n \t \n\r\n\n#", "#a h\n", "#a\n"):
    site(text, "a", "a")

# Lines: blanks and tabs between names, ends of lines, names in lower case without the one `.` at their end.
TWO = "two.example mx2.big.example mx1.big.example\none.example mx2.big.example mx1.big.example\nsolo.example mx.solo.example\n"
for domain in ("one.example", "two.example", "One.EXAMPLE"):
    site(TWO, domain, "mx1.big.example|mx2.big.example")
site(TWO, "solo.example", "mx.solo.example")
site(TWO, "none.example", "none.example")
site("\ta \t h1\t h2 \r\n b h3", "a", "h1|h2")
site("\ta \t h1\t h2 \r\n b h3", "b", "h3")
site("#a h\n #a h2\n", "#a", "h2")
site("A.Example. MX1.\n", "a.example", "mx1")
site("a.example mx1\n", "A.EXAMPLE", "mx1")
site("a.. h..\n", "a.", "h.")
site("a.. h..\n", "a", "a")
site("a.example. h\n", "a.example.", "a.example.")
site("a h", "a", "h")
site("~\"#$;/\\ h'\n", "~\"#$;/\\", "h'")
site("a a\n", "a", "a")
site("a b\nb c\n", "a", "b")

# Rows of one domain are joined, repeated hosts count once, and hosts stand in byte order.
JOINED = "a h2 h1\nb h\nA. h3 H1. h2 h2\n"
site(JOINED, "a", "h1|h2|h3")
site(JOINED, "b", "h")
site("a h2 h10 h-1 h.1 h1\n", "a", "h-1|h.1|h1|h10|h2")
SORTED = "b a1\nab a2\na a3\nA- a4\na.b a5\n"
for domain, host in (("a", "a3"), ("a-", "a4"), ("a.b", "a5"), ("ab", "a2"), ("b", "a1"), ("c", "c"), ("aa", "aa")):
    site(SORTED, domain, host)
THREE = "b.example mx2\na.example mx1\nd.example mx3\n"
for domain, host in (("a.example", "mx1"), ("b.example", "mx2"), ("d.example", "mx3")):
    site(THREE, domain, host)
for domain in ("a.exampl", "c.example", "e.example", "example"):
    site(THREE, domain, domain)

# Each word, and the line that it names.
for text in (b"a h\n\xff h\n", b"a\nb h\xff\n", b"# \xff\n", b"\xc3"):
    refused("mx line 1 -: NotText", mx=text)
for text, number in (("a\n", 1), ("\n# x\n \ta \t", 3), ("a|b\n", 1), ("a h\n\nb\nc| h\n", 3), ("a.\r\n", 1)):
    refused(f"mx line {number} -: NoHost", mx=text)
DOMAINS_REFUSED = ("a|b h", "a=b h", "a:b h", "a@b h", "a!b h", "a>b h", "a\x7f h", "a\x00 h", "a\u00e9 h", ". h", "\ufeffa h")
HOSTS_REFUSED = ("a h|", "a h=", "a h h: i", "a @", "a h!", "a >", "a .", "a h\x01", "a h\u00e9", "a h\rb", "a h\f")
for text in DOMAINS_REFUSED + HOSTS_REFUSED:
    refused("mx line 1 -: BadName", mx=text + "\n")
refused("mx line 3 -: BadName", mx="a-1 h\na h\n~ !\"\n")
refused("mx line 3 -: BadName", mx="a h\n\nc| h\nb\n")
refused("mx line 4 -: BadName", mx="\r\n#\r\n\r\na h >")

# A CR at the end of the text ends no line.
refused("mx line 1 -: BadName", mx="a h\r")
refused("mx line 2 -: NoHost", mx="a h\n\r")

# A name has at most 255 bytes, without the `.` that is dropped.
LONGEST = "a" * 255
site(LONGEST + " h\n", LONGEST, "h")
site(LONGEST + ". h\n", LONGEST, "h")
site("a " + LONGEST + ".\n", "a", LONGEST)
refused("mx line 1 -: BadName", mx=LONGEST + "a h\n")
refused("mx line 1 -: BadName", mx="a h " + LONGEST + "a\n")

# Many lines, the greatest domain or host first.
DOMAINS = "".join(f"d{number} mx2.d{number} mx1.d{number} mx.all\n" for number in reversed(range(10_000)))
site(DOMAINS, "d7077", "mx.all|mx1.d7077|mx2.d7077")
HOSTS = "".join(f"a h{number} all H{number}.\n" for number in reversed(range(10_000)))
site(HOSTS, "a", "|".join(sorted({"all"} | {f"h{number}" for number in range(10_000)})))
checked(mx=DOMAINS)
