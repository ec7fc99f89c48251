"""Fuzzing of the clients' readers. Those of the C client by clang's libFuzzer with its sanitizers, guided by coverage: what was found
interesting is kept in out/fuzz, so a later run goes on from there. Those of the Python client by changes at random of what is right.
`--turns` is how many seconds each takes, 60 otherwise, and `--seed` repeats a run."""

import os
import random
import re
import shutil
import sys
import time
import zlib

from . import sessions
from .clients import CLIENTS, INHERITS, environment, output_of
from .coverage import leave
from .crowds import TALK
from .harness import HERE, Server, Skipped, holds, same, within
from .texts import TOP

from femem import _errors as errors, _frames as frames, _sessionstate as blocks  # noqa: E402  (the path is set by sessions)

FLAGS = ("-g", "-O1", "-std=c11", "-fsanitize=fuzzer,address,undefined", "-fno-sanitize-recover=all")
LEAST = 10_000  # runs


def fuzzed(place, name, seeds):
    """Builds a fuzzer, and runs it over these seeds and what was kept. Returns what it says of its runs and edges."""
    if shutil.which("clang") is None:
        raise Skipped("there is no clang")
    folder, kept = os.path.join(CLIENTS, "c"), os.path.join(TOP, "out", "fuzz", name)
    with open(os.path.join(folder, "Makefile"), encoding="utf-8") as file:
        parts = re.search(r"^PARTS := ((?:.*\\\n)*.*)$", file.read(), re.M)[1].replace("\\\n", " ").split()
    sources = [os.path.join(folder, f"{it}.c") for it in (*parts, "session_file")]
    made = place.path("fuzz")
    output_of(place, ["clang", *FLAGS, "-I", folder, "-o", made, os.path.join(HERE, f"fuzz_{name}.c"), *sources], 120)
    os.makedirs(kept, exist_ok=True)
    os.mkdir(place.path("seeds"))
    for number, seed in enumerate(seeds):
        place.write(f"seeds/{number}", seed)
    seconds = place.options.turns or 60
    words = [made, f"-max_total_time={seconds}", f"-seed={place.options.seed % 2**31 or 1}", "-max_len=4096", "-print_final_stats=1", kept, place.path("seeds")]
    said = output_of(place, words, 2 * seconds + 60)
    runs, edges = int(re.search(r"number_of_executed_units: (\d+)", said)[1]), int(re.findall(r"cov: (\d+)", said)[-1])
    holds(runs >= LEAST, f"only {runs} runs: {said[-1000:]}")
    leave(f"fuzz-{name}", [(f"`scripts/check/fuzz_{name}.c`", f"{seconds}", f"{runs:,}", f"{edges:,}", "none")])
    return f"{runs} runs, {edges} edges, seed {place.options.seed}"


@within(600)
def session(place):
    """the C client reads whatever a session file has without a fault"""
    server = Server(place).start()
    file = place.path("kept.session")
    # (it ends with an error once the server is gone, and leaves its file)
    script = INHERITS.replace('print("ready", flush=True)\nsys.stdin.readline()\n', "client.once('a key', __import__('femem').requests.int_fetch_add(array, 0, 1))\nos._exit(0)\n")
    output_of(place, ["env", *(f"{key}={it}" for key, it in environment(place).items()), sys.executable, "-c", script, os.path.join(CLIENTS, "python"), server.socket, file], 60)
    return fuzzed(place, "session", [place.read("kept.session")])


@within(600)
def replies(place):
    """the C client takes whatever a server sends without a fault"""
    talk = b"".join(reply for _, reply in TALK)
    return fuzzed(place, "replies", [bytes((phase, step)) + talk for phase in range(3) for step in (3, 63)])


def changed(content, chance):
    """Bytes with some changes: other values, a part cut out, doubled, or put elsewhere, often at the end, before the sum of a file's block."""
    made = bytearray(content)
    for _ in range(chance.randint(1, 4)):
        at, size = chance.choice((chance.randint(0, len(made)), max(len(made) - 4, 0))), chance.choice((1, 1, 4, 8, 33, 60))
        values = bytes(chance.choice((*range(8), 33, 34, 40, 255, chance.randrange(256))) for _ in range(size))
        made[at : at + chance.choice((0, size))] = chance.choice((values, made[at : at + size], b""))
    return bytes(made)[:4096]


def mended(content, chance):
    """A session file with the lengths and sums that its bytes should have."""
    made, at = bytearray(content), 20
    made[:8], made[16:at] = blocks.MAGIC, zlib.crc32(blocks.MAGIC + made[8:16]).to_bytes(4, "big")
    while len(made) - at >= 32:
        room, length = len(made) - at - 32, int.from_bytes(made[at : at + 4], "big")
        length = length if length <= room and chance.random() < 0.5 else room
        made[at : at + 4], end = length.to_bytes(4, "big"), at + 28 + length
        made[end : end + 4] = zlib.crc32(made[at:end], zlib.crc32(made[8:16])).to_bytes(4, "big")
        at = end + 4
    return bytes(made)


def read_file(content, chance):
    """What the client makes of a session file: what it writes of it into a new file, it reads again as the same."""
    state, end = blocks.read(mended(content, chance) if len(content) >= 20 and chance.random() < 0.9 else content)
    again, size = blocks.read(blocks.snapshot(state))
    own = lambda it: (it.session, it.floor, it.asked_floor, it.next, it.unanswered, it.keyed, it.is_ending)
    same((own(again), size, end <= len(content)), (own(state), len(blocks.snapshot(state)), True), content.hex())
    return f"{len(state.unanswered)} {len(state.keyed)} {state.is_ending}"


def read_frames(content, chance):
    """What the client makes of a stream of replies: the same in one piece and in several."""
    reader, found, at = frames.ReplyDecoder(), [], 0
    while at < len(content):
        size = chance.choice((1, 3, 26, 64, len(content)))
        found, at = found + reader.feed(content[at : at + size]), at + size
    same(found, frames.ReplyDecoder().feed(content), content.hex())
    return " ".join(type(it).__name__ for it in found[:2])


@within(600)
def readers(place):
    """the Python client takes any session file and any replies, or refuses them by an error of its own, and keeps what it takes"""
    seconds, example, said = place.options.turns or 60, b"".join(sessions.example()), []
    files = [example, blocks.snapshot(blocks.read(example)[0]), example + blocks.block(blocks.read(example)[0], blocks.record(blocks.LEAVING_KIND))]
    talk = [b"".join(reply for _, reply in TALK)]
    for read, known, own in ((read_file, files, blocks.Contradiction), (read_frames, talk, errors.ProtocolError)):
        chance, outcomes, runs, end = random.Random(place.options.seed), set(), 0, time.monotonic() + seconds / 2
        while time.monotonic() < end:
            content = known[runs] if runs < len(known) else changed(chance.choice(known), chance)
            try:
                outcome = read(content, chance)
            except own as error:
                outcome = re.sub(r"\d+|b(['\"]).*\1", "", str(error))
            known += [content] if outcome not in outcomes else []
            outcomes.add(outcome)
            runs += 1
        said.append((f"{runs:,}", f"{len(outcomes)} outcomes"))
        holds(runs >= LEAST // 10, said)
    leave("fuzz-readers", [("`scripts/check/fuzz.py`", f"{seconds}", *(" and ".join(it) for it in zip(*said)), "none")])
    return "; ".join(" runs, ".join(it) for it in said)
