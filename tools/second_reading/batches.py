"""Random batches: most are in form, and many fit the call that they name."""
import json

from columns import INTEGERS

EDGES = [0, 1, -1, 18, 19, 59, 60, 2**63 - 1, -(2**63), 2**63 - 2, 9223372036854775, -922337203685477581]
NAMES = ["vortex.timestamp"] * 20 + ["vortex.time", 'x"\\\u0001é']
UNITS = ["s", "ms", "us", "ns"] * 5 + ["D", "m", None]
ZONES = [None, "UTC", 'a"\\\u0007/\u00e9\U0001f600', ""]
PIECES = [b" ", b'"', b",", b"0", b"-", b".", b"e1", b"[", b"]", b"{}", b"null", b"\xff", b"\\", b"\x01", b"true", "é".encode()]


class Batches:
    def __init__(self, random):
        self.random = random

    def likely(self, chance):
        return self.random.random() < chance

    def number(self, name, small):
        least, most = INTEGERS[name]
        if self.likely(0.02):
            return self.random.choice([least - 1, most + 1])
        if name == "u8" and self.likely(0.8):
            return self.random.randrange(self.random.choice([4, 19, 20]))
        if small or self.likely(0.3):
            return self.random.randrange(max(least, -2000), min(most, 2000) + 1)
        if self.likely(0.5):
            return min(max(self.random.choice(EDGES), least), most)
        return self.random.randint(least, most)

    def value(self, name, small):
        if self.likely(0.003):
            return self.random.choice([None, True, 1.0, "1", [], 0])
        return self.likely(0.5) if name == "bool" else self.number(name, small)

    def validity(self, length):
        if self.likely(0.15):
            return "none"
        valid = self.random.choice([0, 0.1, 0.5, 0.9, 1])
        return [self.likely(valid) for _ in range(length + self.likely(0.02))]

    def stored(self, length, name, small, may_be_null):
        nullable = may_be_null and self.likely(0.6)
        with_validity = (nullable and self.likely(0.5)) or self.likely(0.01)
        null = self.random.choice([0, 0.1, 0.5, 0.95, 1]) if nullable and not with_validity else self.random.choice([0] * 20 + [0.1])
        values = [None if self.likely(null) else self.value(name, small) for _ in range(length)]
        column = {"layout": "bool" if name == "bool" else "primitive", "type": name + "?" * nullable, "values": values}
        return {**column, "valid": self.validity(length)} if with_validity else column

    def constant(self, length, name, small, is_timestamp):
        nullable = self.likely(0.4)
        value = None if nullable and self.likely(0.3) else self.value(name, small)
        type = name + "?" * nullable
        if is_timestamp:
            type = {"ext": self.random.choice(NAMES), "unit": self.random.choice(UNITS), "zone": self.random.choice(ZONES), "storage": type}
        elif self.likely(0.04):
            type, value = "null", None
        return {"layout": "constant", "type": type, "value": value, "len": length}

    def column(self, length, name, small, depth=0):
        """`name` is that of an integer type, `bool`, or `timestamp`."""
        if self.likely(0.02):
            name = self.random.choice([*INTEGERS, "bool", "timestamp"])
        if self.likely(0.02):
            length = max(0, length + self.random.choice([-1, 1]))
        plain = "i64" if name == "timestamp" else name
        if self.likely(0.2) and depth < 5:
            masked = {"layout": "masked", "child": self.column(length, name, small, depth + 1)}
            return {**masked, "valid": self.validity(length)} if self.likely(0.8) else masked
        if self.likely(0.25):
            return self.constant(length, plain, small, name == "timestamp")
        if name == "timestamp" or self.likely(0.03):
            names = {"name": self.random.choice(NAMES), "unit": self.random.choice(UNITS), "zone": self.random.choice(ZONES)}
            return {"layout": "extension", **names, "storage": self.column(length, plain, small, depth + 1)}
        return self.stored(length, name, small, depth == 0 or self.likely(0.15))

    def batch(self):
        calls = {"wrapping_add": ["i64", "i64"], "checked_add": ["i64", "i64"], "rescale": ["i64", "u8"], "truncate": ["timestamp"]}
        call, names = self.random.choice(list(calls.items()))
        names = names + ["i64"] * self.likely(0.03) if self.likely(0.97) else names[1:]
        rows, small = self.random.choice([0, 1, 2, 3, 5, 9, 33]), self.likely(0.5)
        options = {}
        if call == "truncate":
            options = {"ticks": self.random.choice([1, 3, 7, 60, 1000, 10**9, 2**63 - 1, 0, -1, -(2**63)] + [1.5] * self.likely(0.1))}
        if self.likely(0.01):
            options = {**options, "other": 1}
        batch = {
            "call": call if self.likely(0.98) else "checked",
            "options": options,
            "rows": rows,
            "columns": [self.column(rows, name, small) for name in names],
        }
        return dict(self.random.sample(list(batch.items()), 4))

    def data(self):
        """The bytes of a batch; of one in four a few bytes are taken out, put in or changed."""
        separators = self.random.choice([(",", ":"), (", ", ": ")])
        data = bytearray(json.dumps(self.batch(), ensure_ascii=self.likely(0.5), separators=separators).encode())
        if self.likely(0.75):
            return bytes(data)
        for _ in range(self.random.randint(1, 3)):
            at = self.random.randrange(len(data))
            if self.likely(0.3):
                del data[at]
            elif self.likely(0.5):
                data[at:at] = self.random.choice(PIECES)
            else:
                data[at] = self.random.choice(b'0123456789-.eE"[]{},: \\ntx?')
        return bytes(data)
