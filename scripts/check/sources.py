"""The sources that documents name: the functions, clauses and definitions of a crate."""

import functools
import re

from .texts import exists, matching, text_of


@functools.cache
def source_of(crate, folder):
    """The files of a crate's `src` or `specs`, as one text."""
    return "\n".join(map(text_of, matching(*(f"crates/{crate}/{folder}/**/*.{kind}" for kind in ("rt", "antt")))))


@functools.cache
def contracts_of(crate):
    """Pairs of a crate's functions and the names of their `ensures` clauses. Several functions may have the same name. Ghost items
    of types come with an empty function name."""
    found = []
    for line in source_of(crate, "src").split("\n"):
        if begin := re.match(r"\s*(?:pub(?:\([a-z]+\))? )?(?:const )?(?:unsafe )?fn (\w+)", line):
            found.append((begin[1], set()))
        elif (clause := re.match(r"\s*ensures(?: (\w+))? \{", line)) and found:
            found[-1][1].add(clause[1] or "")
        elif ghost := re.match(r"\s*ghost (\w+)(?:: | = )\{", line):
            found.append(("", {ghost[1]}))
    return found


def has_type(crate, name):
    """Whether the type or module in a name such as `Type::function`, if there is one, is in the crate. A crate's own name may stand first."""
    owners = [it for it in name.split("::")[:-1] if not exists("crates", it)]
    return all(re.search(rf"\b(?:struct|enum|trait|mod|impl\b.*) ?{it}\b", source_of(crate, "src")) for it in owners)


def has(crate, function, clause):
    """Whether a function of that name in the crate has a clause of that name. The function may be `Type::function`."""
    return has_type(crate, function) and any(name == function.split("::")[-1] and clause in clauses for name, clauses in contracts_of(crate))


def has_item(path, name):
    """Whether a source file has a function or a definition of that name."""
    kinds = "(?:(?:abbrev|unfoldable|pub|pub\\([a-z]+\\)|record|data|enum|struct|const|trait|fn|ghost) )"
    return re.search(rf"^\s*{kinds}+{name}\b", text_of(path), re.M) is not None


def is_named(crate, name):
    """Whether the crate's sources contain the name, for anything, or a crate has it."""
    last = name.split("::")[-1]
    return exists("crates", name) or re.search(rf"\b{last}\b", source_of(crate, "src")) is not None


def is_function(crate, name):
    return has_type(crate, name) and any(it == name.split("::")[-1] for it, _ in contracts_of(crate))


def below(crate):
    """The crates below a crate, by crates.txt."""
    found = re.search(rf"^{crate}(?: [^:]*)?:(.*)$", text_of("crates.txt"), re.M)
    return [it for it in found[1].split() if it.startswith("fe_")] if found else []


def all_below(crate):
    """The crates on which a crate stands, each after those on which it stands itself: crates.txt has them in this order."""
    order = re.findall(r"^(\w+)", text_of("crates.txt"), re.M)
    found = {crate}
    for name in reversed(order):
        found.update(below(name) if name in found else ())
    return [it for it in order if it in found and it != crate]
