"""Stands in for opentelemetry.metrics: those of its documented calls that `femem.contrib.opentelemetry` makes, by their names and
the names of their arguments. `MeterProvider.made` has what was asked."""


class MeterProvider:
    def __init__(self):
        self.made = {}

    def get_meter(self, name, version=None, schema_url=None, attributes=None):
        return Meter(self, name, version)


class Meter:
    def __init__(self, provider, name, version):
        assert isinstance(name, str) and isinstance(version, str)
        self._provider, self._name = provider, name

    def create_counter(self, name, unit="", description=""):
        return Counter(self._provider.made, name, unit, description)

    def create_histogram(self, name, unit="", description=""):
        return Histogram(self._provider.made, name, unit, description)


class _Instrument:
    def __init__(self, made, name, unit, description):
        assert description
        self._seen = made.setdefault((type(self).__name__, name, unit), [])

    def _note(self, amount, attributes):
        assert amount >= 0 and all(isinstance(each, str) for pair in attributes.items() for each in pair)
        self._seen.append((amount, dict(attributes)))


class Counter(_Instrument):
    def add(self, amount, attributes=None, context=None):
        self._note(amount, attributes or {})


class Histogram(_Instrument):
    def record(self, amount, attributes=None, context=None):
        self._note(amount, attributes or {})


_PROVIDER = MeterProvider()


def get_meter(name, version="", meter_provider=None, schema_url=None, attributes=None):
    return (_PROVIDER if meter_provider is None else meter_provider).get_meter(name, version, schema_url, attributes)
