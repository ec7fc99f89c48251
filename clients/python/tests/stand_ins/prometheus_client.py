"""Stands in for prometheus_client: those of its documented calls that `femem.contrib.prometheus` makes, and `get_sample_value`."""

__version__ = "stand-in"


class CollectorRegistry:
    def __init__(self):
        self._metrics = {}

    def register(self, name, metric):
        if name in self._metrics:
            raise ValueError(f"Duplicated timeseries in CollectorRegistry: {name}")
        self._metrics[name] = metric

    def get_sample_value(self, name, labels):
        for metric in self._metrics.values():
            for sample, of, value in metric.samples():
                if (sample, of) == (name, labels):
                    return value
        return None


REGISTRY = CollectorRegistry()


class _Labelled:
    def __init__(self, name, documentation, labelnames=(), *, registry=REGISTRY, **more):
        assert name and documentation and isinstance(labelnames, (list, tuple))
        self._name, self._labelnames, self._more, self._children = name, labelnames, more, {}
        registry.register(name, self)

    def labels(self, *values):
        assert len(values) == len(self._labelnames) and all(isinstance(each, str) for each in values)
        return self._children.setdefault(values, self.CHILD(**self._more))

    def samples(self):
        for values, child in self._children.items():
            for suffix, more, value in child.samples():
                yield self._name + suffix, {**dict(zip(self._labelnames, values)), **more}, value


class _Count:
    value = 0.0

    def inc(self, amount=1):
        self.value += amount

    def samples(self):
        yield "_total", {}, self.value


class _Times:
    def __init__(self, buckets):
        assert list(buckets) == sorted(buckets)
        self.buckets, self.seen = buckets, []

    def observe(self, amount):
        self.seen.append(amount)

    def samples(self):
        yield "_count", {}, float(len(self.seen))
        yield "_sum", {}, sum(self.seen)
        for bound in (*self.buckets, float("inf")):
            yield "_bucket", {"le": "+Inf" if bound == float("inf") else str(bound)}, float(sum(each <= bound for each in self.seen))


class Counter(_Labelled):
    CHILD = _Count


class Histogram(_Labelled):
    CHILD = _Times
