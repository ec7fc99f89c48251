"""False sentences that a check has to notice, in pages for operators and for authors of clients. Each is put into its page as the checks
read it, and then a row of owned.py, or one of the checks below, has to fail."""

from . import facts, fields, headers, places, sentences, sessions, tables
from .harness import Wrong, checks_in, same
from .owned import C_PAGE, CLI, FORMATS, OPERATING, PATTERNS, PY_PAGE, SESSION, TOOL, WORK
from .texts import text_of

CHECKS_OF_PAGES = (
    fields.codes, fields.frames, fields.bounds, fields.told_again, facts.exchange, facts.definitions, facts.unit, sessions.tables,
    *checks_in(headers), places.packages,
)
# A page, what it says, and what it says then.
SENTENCES = (
    ("README.md", "#operations) are eight.", "#operations) are seven."),
    ("docs/commands.md", "A line of more than 94 bytes", "A line of more than 99 bytes"),
    ("docs/settings.md", "is reported, with status 2", "is reported, with status 3"),
    ("docs/settings.md", "or after a second at most", "or after ten seconds at most"),
    (OPERATING, "above 103 the file may exist", "above 99 the file may exist"),
    (OPERATING, "with 4 if it is gone or has no free", "with 3 if it is gone or has no free"),
    (OPERATING, "(18446744073709551608 to", "(18446744073709551600 to"),
    (OPERATING, "less than a second, 3 if longer, 1 if not stored within five", "less than a second, 1 if longer, 3 if not stored within five"),
    (OPERATING, "3 if longer, 1 if not stored within five.", "3 if longer, 1 if not stored within ten."),
    (OPERATING, "| `femem_written_seconds` | 3 minutes old", "| `femem_written_seconds` | 30 minutes old"),
    (OPERATING, "| `femem_journal_used_bytes` | above 1,000,000", "| `femem_journal_used_bytes` | above 100,000"),
    (OPERATING, "into `/var/backups/femem` (mount", "into `/var/lib/femem-backups` (mount"),
    (OPERATING, "groups (requests stored together), twelve at most", "groups (requests stored together), two at most"),
    (OPERATING, "The unit's `MemoryMax` is 256 MB", "The unit's `MemoryMax` is 512 MB"),
    (FORMATS, "A tag is 0 for empty, 1 for full", "A tag is 1 for empty, 0 for full"),
    (FORMATS, "Once 64 to 96 replies wait", "Once 32 to 64 replies wait"),
    (FORMATS, "and the 129th reply ends", "and the 128th reply ends"),
    (FORMATS, "Then it settles F + 32", "Then it settles F + 31"),
    (FORMATS, "of the session begins with floor 1.", "of the session begins with floor 33."),
    (FORMATS, "31 in version 1 and 47 in version 2", "47 in version 1 and 31 in version 2"),
    (SESSION, "a key longer than 1,024 bytes", "a key longer than 65,535 bytes"),
    (SESSION, "whole blocks from byte 20 on", "whole blocks from byte 32 on"),
    (SESSION, "with its highest bit set", "with its highest bit clear"),
    (SESSION, "(`flock`, exclusive, at once)", "(`flock`, exclusive, which waits)"),
    (PATTERNS, "at most 63 locks with a name each", "at most 64 locks with a name each"),
    (PATTERNS, "GATE 1: passes. 2 or no array", "GATE 2: passes. 1 or no array"),
    (PATTERNS, "2 words, 0 OWNER, 1 COUNT", "2 words, 0 COUNT, 1 OWNER"),
    (WORK, "(1 to 65,532)", "(1 to 65,536)"),
    (WORK, "4 LAYOUT: 3.", "4 LAYOUT: 2."),
    (WORK, "0 done, 1 void, 2 dropped", "0 done, 1 dropped, 2 void"),
    (CLI, "is waited for, for 30 seconds", "is waited for, for 60 seconds"),
    (CLI, "an array of 4,096 locks", "an array of 1,024 locks"),
    (TOOL, "`--limit` (5) and `--slow` (1)", "`--limit` (1) and `--slow` (5)"),
    ("packaging/README.md", "makes six Debian packages", "makes seven Debian packages"),
    (C_PAGE, "attaches again after 3 s", "attaches again after 30 s"),
    (C_PAGE, "From 64 kB on, it is rewritten", "From 16 kB on, it is rewritten"),
    (C_PAGE, "`FEMEM_REFUSED_...` (101 to 110)", "`FEMEM_REFUSED_...` (101 to 111)"),
    (PY_PAGE, "once more than eight requests wait", "once more than sixteen requests wait"),
    (PY_PAGE, "probe_interval=5.0", "probe_interval=50.0"),
    (PY_PAGE, "WorkQueue(client, name, capacity, attempts=3,", "WorkQueue(client, name, capacity, attempts=5,"),
)


def is_noticed(page, right, wrong):
    """Whether a row or a check fails once a page is wrong."""
    text = text_of(page)
    same(text.count(right), 1, f"{page}: how often it has {right}")
    try:
        tables.PLANTED[page] = text.replace(right, wrong)
        tables.text.cache_clear()
        if list(sentences.wrong_of(page)):
            return True
        for check in CHECKS_OF_PAGES:
            check(None)
        return False
    except (Wrong, tables.Lacks):
        return True
    finally:
        tables.PLANTED.clear()
        tables.text.cache_clear()


def noticed(_place):
    """each of the false sentences is noticed by a check that compares pages with code"""
    same([it for it in SENTENCES if not is_noticed(*it)], [], "false sentences that no check notices")
    return f"{len(SENTENCES)} sentences"
