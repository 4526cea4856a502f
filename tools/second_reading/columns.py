"""The columns of a batch, as docs/DEFINITIONS.md reads them. What states no column raises NoBatch."""
from dataclasses import dataclass, replace

MOST_ROWS = 1048576
INTEGERS = {f"i{bits}": (-(2 ** (bits - 1)), 2 ** (bits - 1) - 1) for bits in (8, 16, 32, 64)}
INTEGERS.update({f"u{bits}": (0, 2**bits - 1) for bits in (8, 16, 32, 64)})
UNITS = (None, "ns", "us", "ms", "s", "D")


class NoBatch(Exception):
    pass


def need(holds):
    if not holds:
        raise NoBatch


def keys(value, wanted, optional=()):
    need(isinstance(value, dict))
    need(set(wanted) <= set(value) <= set(wanted) | set(optional))


def whole(value, least, most):
    need(isinstance(value, int) and not isinstance(value, bool) and least <= value <= most)
    return value


@dataclass(frozen=True)
class Plain:
    """`null`, `bool` or an integer type."""

    name: str
    nullable: bool

    def made_nullable(self):
        return replace(self, nullable=True)

    def text(self):
        return self.name + "?" * (self.nullable and self.name != "null")

    def scalar(self, value):
        if value is None:
            need(self.nullable)
            return None
        need(self.name != "null")
        if self.name == "bool":
            need(isinstance(value, bool))
            return value
        return whole(value, *INTEGERS[self.name])


@dataclass(frozen=True)
class Extension:
    name: str
    unit: str | None
    zone: str | None
    storage: object

    @property
    def nullable(self):
        return self.storage.nullable

    def made_nullable(self):
        return replace(self, storage=self.storage.made_nullable())

    def text(self):
        zone = "none" if self.zone is None else quoted(self.zone)
        return f"ext({quoted(self.name)},{self.unit or 'none'},{zone},{self.storage.text()})"

    def scalar(self, value):
        return self.storage.scalar(value)

    def is_timestamp(self):
        return (
            self.name == "vortex.timestamp"
            and self.unit not in (None, "D")
            and isinstance(self.storage, Plain)
            and self.storage.name == "i64"
        )


def quoted(text):
    def of(character):
        if character in '"\\':
            return "\\" + character
        return f"\\u{ord(character):04x}" if character < " " else character

    return '"' + "".join(map(of, text)) + '"'


def extension(name, unit, zone, storage):
    need(isinstance(name, str) and (unit is None or isinstance(unit, str)) and unit in UNITS)
    need(zone is None or isinstance(zone, str))
    return Extension(name, unit, zone, storage)


def type_of(value):
    if isinstance(value, str):
        if value == "null":
            return Plain("null", True)
        name = value.removesuffix("?")
        need(name == "bool" or name in INTEGERS)
        return Plain(name, value != name)
    keys(value, ("ext", "unit", "zone", "storage"))
    return extension(value["ext"], value["unit"], value["zone"], type_of(value["storage"]))


@dataclass
class Column:
    type: object
    rows: list
    all_null: bool = False
    """Whether the validity tells that each row is null."""


def masked_by(valid, type, rows):
    if valid == "none":
        return Column(type, [None] * len(rows), all_null=True)
    need(isinstance(valid, list) and len(valid) == len(rows) and all(isinstance(bit, bool) for bit in valid))
    return Column(type, [row if bit else None for row, bit in zip(rows, valid)])


def stored_column(value):
    keys(value, ("layout", "type", "values"), ("valid",))
    need(isinstance(value["type"], str) and isinstance(value["values"], list))
    type = type_of(value["type"])
    need(type.name in INTEGERS if value["layout"] == "primitive" else type.name == "bool")
    rows = [type.scalar(item) for item in value["values"]]
    if "valid" not in value:
        return Column(type, rows)
    need(type.nullable and None not in rows)
    return masked_by(value["valid"], type, rows)


def constant_column(value):
    keys(value, ("layout", "type", "value", "len"))
    type = type_of(value["type"])
    scalar = type.scalar(value["value"])
    return Column(type, [scalar] * whole(value["len"], 0, MOST_ROWS), all_null=scalar is None)


def masked_column(value):
    keys(value, ("layout", "child"), ("valid",))
    child = column(value["child"])
    need(None not in child.rows)
    type = child.type.made_nullable()
    return masked_by(value["valid"], type, child.rows) if "valid" in value else Column(type, child.rows)


def extension_column(value):
    keys(value, ("layout", "name", "unit", "zone", "storage"))
    storage = column(value["storage"])
    type = extension(value["name"], value["unit"], value["zone"], storage.type)
    return Column(type, storage.rows, storage.all_null)


def column(value):
    need(isinstance(value, dict) and isinstance(value.get("layout"), str))
    layouts = {
        "primitive": stored_column,
        "bool": stored_column,
        "constant": constant_column,
        "masked": masked_column,
        "extension": extension_column,
    }
    need(value["layout"] in layouts)
    return layouts[value["layout"]](value)
