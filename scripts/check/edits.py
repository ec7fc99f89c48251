"""The must-fail edits fit: each text that one replaces stands once in its file, and each names a clause of the function that it changes.

`rt ci` passes an edit that it can't apply, so nothing else would notice one that rots."""

import collections
import os
import re

from .harness import same
from .sources import below
from .texts import matching, text_of, told

# The wrong bodies that a reader would fear most. Each must be tried under this name, in whatever crate.
FEARED = (
    "accepts_trailing_byte", "accepts_unused_bytes", "always_device", "always_mismatch", "answers_from_opening",
    "append_without_last_sync", "attaches_unasked", "bad_frame_too_early", "books_call_never_made", "books_call_twice",
    "calls_unheard", "closes_closed_gate", "closes_over_strange_receipts", "damaged_for_odd_gate", "drains_halls_beginning",
    "drops_batch_and_posts", "drops_each_tenth_call", "drops_last_frames", "drops_one_of_a_session", "drops_receipts",
    "echoes_input", "ends_before_last_read", "every_access_waits", "finishes_a_number_twice", "first_on_another_word",
    "forgets_catch_up", "forgets_other_words", "formats_what_is_damaged", "gate_with_payload", "gives_an_id_again",
    "half_a_cascade", "ignores_open_groups", "invented_answer", "keeps_three_lists", "leaves_node_on_word_list",
    "leaves_replica_changed", "made_up_answer_at_accept", "made_up_answer_first", "mail_before_second_sync",
    "mails_unsynced_resend", "makes_no_mail", "notes_before_append", "opens_gate_without_catch_up", "other_operand",
    "posts_before_append", "posts_other_answers", "purge_keeps_value", "readfe_leaves_full", "reads_half_of_turns",
    "removes_array_behind_list", "runs_kept_number_again", "serves_another_path", "serves_with_other_seats", "side_ends_at_once",
    "stops_after_one_wake", "stops_by_itself", "takes_cancel_for_bye", "takes_groups_back", "tells_another_connection",
)
# How many each crate has. One that is added or removed is counted here too.
EACH = {
    "fe_desk": 8, "fe_disk": 9, "fe_front": 6, "fe_hall": 16, "fe_journal": 15, "fe_keeper": 8, "fe_look": 4, "fe_mail": 6, "fe_memory": 1, "fe_pool": 5,
    "fe_server": 13, "fe_service": 1, "fe_shared": 11, "fe_state": 7, "fe_streams": 3, "fe_waits": 6, "fe_wire": 6, "fe_words": 6,
}
FUNCTION = re.compile(r"\s*(?:pub(?:\([a-z]+\))? )?(?:const )?(?:unsafe )?fn (\w+)")
CLAUSE = re.compile(r"\s*(ensures|requires)(?: (\w+))? \{(.*)")
# `FUNCTION NAME`, `FUNCTION (TEXT)` for a clause without a name, or `invariant of TYPE (FIELD)`.
NAMED = re.compile(r"(?:\w+::)*(\w+) (?:(\w+)|\((.*)\))")
INVARIANT = re.compile(r"invariant of (\w+) \((\w+)[^)]*\)")


class Edit:
    """One file of must-fail/."""

    def __init__(self, path):
        self.path = path
        self.crate = path.split("/")[1]
        self.name = os.path.basename(path).removesuffix(".edit")
        lines = text_of(path).splitlines()
        field = lambda kind: [it.removeprefix(f"{kind}: ") for it in lines if it.startswith(f"{kind}: ")]
        self.clauses, self.files, self.old, self.new = field("# clause"), field("file"), field("old"), field("new")
        self.unread = [it for it in lines if it and not it.startswith(("#", "file: ", "old: ", "new: "))]

    def faults(self):
        """What is wrong with it."""
        if self.unread or not len(self.clauses) == len(self.files) == 1 or not len(self.old) == len(self.new) >= 1:
            yield "it has one `# clause:`, one `file:`, and pairs of `old:` and `new:`, and nothing else"
            return
        text = text_of(f"crates/{self.crate}/{self.files[0]}")
        changed = set()
        for old, new in zip(self.old, self.new):
            if text.count(old) != 1 or old == new:
                yield f"{old}: stands {text.count(old)} times in {self.files[0]}"
                return
            changed.add(function_at(text, text.index(old)))
            text = text.replace(old, new)
        if not self.has_clause(changed):
            yield f"{self.clauses[0]}: no such clause of {' '.join(map(str, changed))}, nor of what it calls"

    def has_clause(self, changed):
        """Whether the clause exists, of a function that is changed or that a changed one calls, of a type's invariant, or of a law about
        a constant that is changed."""
        if found := INVARIANT.fullmatch(self.clauses[0]):
            return any(has_invariant(text, *found.groups()) for text in self.sources())
        named = NAMED.fullmatch(self.clauses[0])
        if not named:
            return False
        function, name, part = named.groups()
        calls = lambda text, caller: re.search(rf"\b{function}\b", body_of(text, caller)) is not None
        text = text_of(f"crates/{self.crate}/{self.files[0]}")
        constants = [it[1] for old in self.old if (it := re.match(r"(?:pub )?const (\w+):", old))]
        if changed == {None}:
            laws = [it for it in self.sources() if has_clause(it, function, name, part)]
            return any(re.search(rf"ensures {name} \{{[^}}]*\b{it}\b", law) for it in constants for law in laws)
        reached = function in changed or any(calls(text, it) for it in changed)
        return reached and any(has_clause(text, function, name, part) for text in self.sources())

    def sources(self):
        """The texts of its crate, and then of those below."""
        for crate in (self.crate, *below(self.crate)):
            yield from map(text_of, matching(f"crates/{crate}/src/**/*.rt"))


def function_at(text, at):
    """The function that a place of a source is in."""
    found = [it[1] for line in text[:at].split("\n") + [text[at:].split("\n")[0]] if (it := FUNCTION.match(line))]
    return found[-1] if found else None


def body_of(text, function):
    """The lines of a function, with its contract."""
    lines = text.split("\n")
    begins = [at for at, line in enumerate(lines) if FUNCTION.match(line)] + [len(lines)]
    return "\n".join("\n".join(lines[at:end]) for at, end in zip(begins, begins[1:]) if FUNCTION.match(lines[at])[1] == function)


def has_clause(text, function, name, part):
    """Whether a source has a function with that clause: by its name, by `requires`, or by parts of its text between `..`."""
    current = None
    for line in text.split("\n"):
        if begin := FUNCTION.match(line):
            current = begin[1]
        clause = CLAUSE.match(line)
        if not clause or current != function:
            continue
        if part is None and name in (clause[2], clause[1] if clause[1] == "requires" else None):
            return True
        if part is not None and all(it.strip(" ()") in clause[3] for it in part.split("..")):
            return True
    return False


def has_invariant(text, kind, field):
    """Whether a source has a type with that ghost field."""
    found = re.finditer(rf"^(?:pub(?:\([a-z]+\))? )?struct {kind}\b.*?^}}|^impl[^\n]*\bModel for {kind}\b.*?^}}", text, re.M | re.S)
    return any(re.search(rf"ghost \w+(?: =|:) .*\b{field}\b", it[0]) for it in found)


def edits():
    return [Edit(it) for it in matching("crates/*/must-fail/*")]


def fit(_place):
    """each must-fail edit replaces texts that stand once, and names a clause of what it changes"""
    found = edits()
    strangers = [f"{it.path}: not an edit" for it in found if not it.path.endswith(".edit")]
    return told(strangers + [f"{it.path}: {why}" for it in found for why in it.faults()], len(found), 100, "edits")


def feared(_place):
    """each wrong body that a reader would fear is among them, by its name"""
    there = {it.name for it in edits()}
    same(sorted(set(FEARED) - there), [], "wrong bodies without an edit")
    return f"{len(FEARED)} wrong bodies"


def counted(_place):
    """each crate has as many must-fail edits as are counted here, so none goes unseen"""
    same(dict(collections.Counter(it.crate for it in edits())), EACH)
    return f"{sum(EACH.values())} edits of {len(EACH)} crates"
