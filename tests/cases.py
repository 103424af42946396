"""Cases of the built program: what it is given, what it prints, and how it ends.

A module of this folder lists its cases by the calls below as it is imported; `tests/run` then runs them all. A case is a
command line with the files that it names, the lines that are wanted on standard output, and the exit status. Nothing is
proved here: the contracts say what each text means, and a case shows it on an example.
"""

import dataclasses


@dataclasses.dataclass(frozen=True)
class Case:
    """One run of the program.

    words: the words of the command line after the program's name.
    files: the files of the folder that it runs in, by their names, as bytes.
    wanted: what it prints to standard output.
    status: its exit status.
    """

    words: tuple
    files: dict
    wanted: str
    status: int


ALL = []

# The settings of a queue, as `explain` prints them where no file says otherwise.
SETTINGS = {
    "pool": "unspecified",
    "max_age": "604800000",
    "retry_interval": "1200000",
    "max_retry_interval": "none",
}

# The options of a path, as `explain` prints them where no file says otherwise.
OPTIONS = {
    "connection_limit": "32",
    "max_message_rate": "none",
    "max_connection_rate": "none",
    "max_deliveries_per_connection": "1024",
    "max_ready": "1024",
    "consecutive_connection_failures_before_delay": "100",
    "idle_timeout": "none",
}


def case(words, wanted, status, **files):
    """Lists a case: `words` as a list, or as a text that is split at blanks. The lines wanted are a list or a text.

    A file is a text, or bytes where it is no UTF-8; it stands in the folder of the run under its name."""
    if isinstance(words, str):
        words = words.split()
    if not isinstance(wanted, str):
        wanted = "".join(line + "\n" for line in wanted)
    contents = {name: text.encode() if isinstance(text, str) else text for name, text in files.items()}
    ALL.append(Case(tuple(words), contents, wanted, status))


def named(files):
    """The options of the command line for policy files: each under the name of its option."""
    return [word for name in files for word in ("--" + name, name)]


def checked(*ignored, **files):
    """Lists a case of `check` over policy files that are right: `ignored` are its lines, each without `ignored `, and then `ok`."""
    case(["check", *named(files)], ["ignored " + line for line in ignored] + ["ok"], 0, **files)


def refused(place, **files):
    """Lists a case of `check` over policy files that it refuses: `place` as in `sources source.bulk-1 ehlo_domain: BadType`."""
    case(["check", *named(files)], ["error: policy " + place], 3, **files)


def explained(domain, source="unspecified", queue=None, site=None, rules=(), settings=None, options=None, words=(), **files):
    """Lists a case of `explain` for a domain and a source: the settings and options that differ from those of no file.

    The queue is the domain where it is not given, and so is the site, as it is without a table of exchangers. `words` are
    more words of the command line, such as a tenant. `rules` are the lines after `rule 1 `, `rule 2 ` and so on."""
    given = ["explain", "--domain", domain, "--source", source, *words, *named(files)]
    found = {**SETTINGS, **(settings or {})}
    lines = ["queue " + (queue or domain)]
    lines += [f"{name} {value}" for name, value in found.items()]
    lines += ["site " + (site or domain), "source " + source]
    lines += [f"{name} {value}" for name, value in {**OPTIONS, **(options or {})}.items()]
    lines += [f"rule {number} {rule}" for number, rule in enumerate(rules, 1)]
    case(given, lines, 0, **files)
