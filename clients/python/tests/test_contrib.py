"""`femem.contrib`: over the real package where an interpreter here has it, and over a stand-in of its documented calls anyway."""

import json
import os
import pathlib
import subprocess
import sys
import unittest

import paths
from serving import WithFolder

TESTS = pathlib.Path(paths.__file__).resolve().parent
# Debian's packages are those of Debian's interpreter.
INTERPRETERS = (sys.executable, "/usr/bin/python3")

# Fifty-one answers, with a stop of the server between them. (One may be sent again: the client may not know yet that it is away.)
ASKS = """
import json, sys, time
from femem import Client
from femem.contrib.{module} import Metrics
from femem.testing import ModelServer

def ask(metrics):
    with ModelServer(sys.argv[1]) as server, Client(sys.argv[1], 7, on_event=metrics) as client:
        word = client.create("word", 1, full=True)
        for _ in range(25):
            client.readff(word, 0)
        server.restart()
        for _ in range(25):
            client.readff(word, 0)
"""
PROMETHEUS = ASKS.format(module="prometheus") + """
import prometheus_client
registry = prometheus_client.CollectorRegistry()
ask(Metrics(registry))
found = lambda name, **labels: registry.get_sample_value("femem_client_" + name, labels)
try:
    Metrics(registry)
    again = "none"
except ValueError as error:
    again = str(error)
print(json.dumps([
    {kind: [found("events_total", kind=kind), found("seconds_count", kind=kind)] for kind in ("answered", "attached", "lost", "failed", "moved")},
    found("seconds_bucket", kind="answered", le="30.0"), 0 < found("seconds_sum", kind="answered") < 60, again[:10],
]))
"""
OPENTELEMETRY = ASKS.format(module="opentelemetry") + """
from opentelemetry import metrics
provider = metrics.MeterProvider()
ask(Metrics(provider))
counts, times = provider.made["Counter", "femem.client.events", "{event}"], provider.made["Histogram", "femem.client.duration", "s"]
kinds = [attributes["kind"] for _, attributes in counts]
ask(Metrics())
print(json.dumps([
    {kind: kinds.count(kind) for kind in sorted({*kinds} - {"sent_again"})}, {amount for amount, _ in counts} == {1},
    [attributes for _, attributes in counts] == [attributes for _, attributes in times], 0 < sum(amount for amount, _ in times) < 60,
    len(metrics._PROVIDER.made),
]))
"""


def has(python, package):
    return os.path.exists(python) and not subprocess.run([python, "-c", f"import {package}"], capture_output=True).returncode


class Contrib(WithFolder):
    def run_it(self, python, program, *folders):
        env = {**os.environ, "PYTHONPATH": os.pathsep.join(map(str, (TESTS.parent, *folders))), "PYTHONDONTWRITEBYTECODE": "1"}
        done = subprocess.run([python, "-c", program, self.path], env=env, capture_output=True, text=True, timeout=120)
        self.assertEqual((done.returncode, done.stderr), (0, ""))
        return json.loads(done.stdout)

    def test_prometheus(self):
        counts = {"answered": [51.0, 51.0], "attached": [2.0, 2.0], "lost": [1.0, 1.0], "failed": [0.0, 0.0], "moved": [0.0, 0.0]}
        wanted = [counts, 51.0, True, "Duplicated"]
        self.assertEqual(self.run_it(sys.executable, PROMETHEUS, TESTS / "stand_ins"), wanted)
        real = next((each for each in INTERPRETERS if has(each, "prometheus_client")), None)
        if real is not None:
            self.assertEqual(self.run_it(real, PROMETHEUS), wanted)
        print("femem.contrib.prometheus: over a stand-in" + (f", and over prometheus_client of {real}" if real else " alone"), file=sys.stderr)

    def test_opentelemetry(self):
        wanted = [{"answered": 51, "attached": 2, "lost": 1}, True, True, True, 2]
        self.assertEqual(self.run_it(sys.executable, OPENTELEMETRY, TESTS / "stand_ins"), wanted)
        print("femem.contrib.opentelemetry: over a stand-in alone", file=sys.stderr)

    def test_the_package_needs_none_of_them(self):
        program = "import sys, femem, femem.aio, femem.contrib, femem.patterns; print(json.dumps(sorted(n for n in sys.modules if 'prom' in n or 'telem' in n)))"
        self.assertEqual(self.run_it(sys.executable, "import json\n" + program), [])


if __name__ == "__main__":
    unittest.main()
