"""The functions, laws and clauses that documents cite are in the crates that they cite; the tests that proved.md names are there."""

import os
import re

from .sources import contracts_of, has, has_type, is_function, is_named, source_of
from .texts import NAME, TOP, exists, matching, prose, rows_of, text_of, told

PROVED = "docs/proved.md"
# A name, followed by names in parentheses: a function with its clauses.
CITED = re.compile(r"`([\w:]+)`(?: \(((?:`\w+`(?:, |; | and )?)+)\))?")
LISTED = re.compile(r"\(((?:`\w+`(?:, |; | and )?)+)\)")
# The same for a function by its path, such as `fe_desk::Desk::step`.
PATHED = re.compile(r"`(fe_\w+)::([\w:]+)`(?:,? \(?((?:(?:clause )?`\w+`(?:, | and )?)+))?")


def of_row(crate, first, calls, row):
    """What is wrong in a row of a crate's table: each call must be a function with one of the clauses, each clause one of a call."""
    named = [it for it in NAME.findall(row[1]) if not exists("crates", it)]
    laws = NAME.findall(row[2]) if first == "laws" else []
    lost = [f"{crate} has no function {it}" for it in (*calls, *laws) if not is_function(crate, it)]
    known = calls or [it for it, _ in contracts_of(crate)]
    lost += [f"{crate}: no clause {it} of {' '.join(calls)}" for it in named if not any(has(crate, call, it) for call in known)]
    if named:
        lost += [f"{crate}: {call} has none of these clauses" for call in calls if not any(has(crate, call, it) for it in named)]
    return len(calls) + len(named) + len(laws), lost


def of_prose(crate, line):
    """The same for a line: names in parentheses must be clauses of the functions that their sentence names, or of any function."""
    count, lost = 0, []
    for sentence in re.split(r"[.;:] ", line):
        outside = NAME.findall(LISTED.sub("", sentence))
        names = [it for it in outside if re.fullmatch(r"[\w:]+", it)]
        lost += [f"{crate} has no {it}" for it in names if not is_named(crate, it)]
        calls = [it for it in names if is_function(crate, it)] or [it for it, _ in contracts_of(crate)]
        named = [name for found in LISTED.findall(sentence) for name in NAME.findall(found)]
        known = [it for it in named if has(crate, it, "") or any(has(crate, call, it) for call in calls)]
        lost += [f"{crate}: no clause or law {it}" for it in named if it not in known]
        count += len(names) + len(named)
    return count, lost


def clauses(_place):
    """each function, law and clause that docs/proved.md names is in its crate"""
    missing, count, crate, calls = [], 0, None, []
    for _, where, line in prose((PROVED,)):
        if line.startswith("## "):
            crate = None
        if begin := re.match(r"\*\*`(\w+)`\*\*", line):
            crate = begin[1]
        if crate is None or line.startswith(("Tested", "|---", "| call")):
            continue
        if line.startswith("|"):
            row = [cell.strip() for cell in line.strip("|").split("|")]
            named = NAME.findall(row[0])
            stem = named[0].rpartition("_")[0] if named else ""
            calls = [stem + it if it.startswith("_") else it for it in named] or (calls if not row[0] else [])
            found, lost = of_row(crate, row[0], calls, row)
        else:
            found, lost = of_prose(crate, line)
        count += found
        missing += [f"{where}: {it}" for it in lost]
    return told(missing, count, 250, "functions and clauses")


def cited(_place):
    """each function with its clauses that the promise's table, the layers, the README, headline.md and CONTRIBUTING.md name is in its crate"""
    missing, count = [], 0
    tables = [(PROVED, "## The promise", 1), ("ARCHITECTURE.md", "## Layers", 2)]
    for page, heading, column in tables:
        for number, row in rows_of(text_of(page), heading):
            crates = [it for it in NAME.findall(row[0]) if exists("crates", it)]
            for name, listed in CITED.findall(row[column]):
                if name.startswith("fe_"):
                    crates = [name.split("::")[0]]
                found = NAME.findall(listed) or [""]
                count += len(found)
                if not crates:
                    crates = ["fe_desk"]
                for clause in found:
                    if not any(has(it, name, clause) or not clause and is_named(it, name) for it in crates):
                        missing.append(f"{page}:{number}: {' or '.join(crates)}: no {name} {clause}")
    for _, where, line in prose(("README.md", "docs/headline.md", "CONTRIBUTING.md")):
        for crate, path, listed in PATHED.findall(line):
            names = NAME.findall(listed)
            count += 1 + len(names)
            missing += [f"{where}: {crate} has no {path} {it}" for it in names if not has(crate, path, it)]
            # (a path may also name a type, which has no clauses)
            known = names or is_function(crate, path) or has_type(crate, f"{path}::it")
            missing += [] if known else [f"{where}: {crate} has no {path}"]
    return told(missing, count, 50, "functions and clauses")


# The crates that the headline's table of clauses is about.
PROMISING = ("fe_desk", "fe_server", "fe_keeper", "fe_hall")
# The pages whose tables name what the crates declare, and words there that are something else: a folder, a word of schedules, an array of
# the Python client.
DECLARING = ("docs/headline.md", "docs/store.md", "docs/model.md", "ARCHITECTURE.md", "CONTRIBUTING.md")
SPARED = {"src", "nowait", "NAME_t"}
# A line that declares something: a function, a type, a definition, a law, a clause, or a field. It has the name.
DECLARATION = re.compile(
    r"^\s*(?:(?:abbrev|unfoldable|pub|pub\(crate\)|record|data|enum|struct|trait|fn|ghost|const|ensures\*?) )+(\w+)"
    r"|^\s+(?:pub )?(\w+) ?(?: :|,|\(| \{|=)", re.M)


def declared():
    """The names that the crates' sources declare."""
    crates = [name for name in os.listdir(os.path.join(TOP, "crates")) if name.startswith("fe_")]
    return {it for crate in crates for folder in ("src", "specs") for found in DECLARATION.findall(source_of(crate, folder)) for it in found}


def promised(_place):
    """each clause in the headline's first table is one of its function, and each name in the tables about definitions, rules and words is declared"""
    there, missing, count = declared() | SPARED, [], 0
    for page, where, line in prose(DECLARING):
        cells = line.strip("|").split("|") if line.startswith("|") else []
        for name in [it for cell in cells for word in NAME.findall(cell) for it in re.findall(r"[A-Za-z]\w+", word)]:
            if re.fullmatch(rf".*`{name}`.*|.*`{name}: .*|.*::{name}`.*", line):
                count += 1
                missing += [] if name in there or exists("crates", name) else [f"{where}: no {name}"]
        for function, listed in CITED.findall(line) if len(cells) == 3 and page == "docs/headline.md" else ():
            known = [it for it in PROMISING if is_function(it, function)] if listed else []
            lost = [it for it in NAME.findall(listed) if known and not exists("crates", it) and not any(has(crate, function, it) for crate in known)]
            missing += [f"{where}: {function} has no clause {it}" for it in lost]
            missing += [f"{where}: no function {function}"] if listed and "::" in function and not known else []
    return told(missing, count, 220, "names")


def parts(_place):
    """the parts, scripts and cases that docs/proved.md's table of faults names are there"""
    cases_of, missing, count = re.findall(r"^case (.*)$", text_of("crates/test_laboratory/stdin"), re.M), [], 0
    for number, (_, where, _) in rows_of(text_of(PROVED), "## Faults that are tried"):
        for name in NAME.findall(where):
            count += 1
            name = name.split()[0]
            known = any(it.endswith(name) for it in cases_of) or exists("crates", name) or exists("scripts", "check", f"{name}.py")
            missing += [] if known or exists(name) else [f"{PROVED}:{number}: no {name}"]
    return told(missing, count, 25, "names")


def sockets(_place):
    """each test of the server's sockets that docs/proved.md names is there, and so is each function that it is about"""
    checks = "".join(map(text_of, matching("scripts/check/*.py")))
    crates = "".join(source_of(it, "src") for it in ("fe_server", "fe_hall", "fe_streams", "test_sockets"))
    functions, words = set(re.findall(r"\b(?:def|fn) (\w+)\(", checks + crates)), set(re.findall(r"\w+", crates))
    missing, count = [], 0
    for number, (what, tests) in rows_of(text_of(PROVED), "## What no clause says of the server's sockets"):
        for kind, names, known in (("test", tests, functions), ("function", what, words)):
            for name in NAME.findall(names):
                count += 1
                missing += [] if known.issuperset(name.split("::")) else [f"{PROVED}:{number}: no {kind} {name}"]
    return told(missing, count, 35, "tests and functions")
