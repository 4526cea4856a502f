"""What the program may answer by docs/DEFINITIONS.md: pairs of a status and the bytes that are written."""
from dataclasses import dataclass
from typing import Callable

from columns import MOST_ROWS, Extension, NoBatch, Plain, column, keys, need, whole
from json_tree import NoJson, tree

LEAST, MOST = -(2**63), 2**63 - 1


@dataclass
class Call:
    """`exact` is the number of a full row, before it is taken modulo 2^64."""

    fits: list
    exact: Callable
    may_fail: bool = True
    reads: Callable = lambda cells: [True] * len(cells)
    valid_only: bool = False


def is_plain(name):
    return lambda type: isinstance(type, Plain) and type.name == name


def is_timestamp(type):
    return isinstance(type, Extension) and type.is_timestamp()


def call_of(name, options):
    need(isinstance(name, str) and isinstance(options, dict))
    if name == "truncate":
        keys(options, ("ticks",))
        ticks = whole(options["ticks"], LEAST, MOST)
        return Call([is_timestamp], lambda x: x - x % ticks), ticks >= 1
    need(options == {})
    sums = [is_plain("i64"), is_plain("i64")]
    calls = {
        "wrapping_add": Call(sums, lambda x, y: x + y, may_fail=False),
        "checked_add": Call(sums, lambda x, y: x + y),
        "rescale": Call(
            [is_plain("i64"), is_plain("u8")],
            lambda x, scale: x * 10**scale,
            reads=lambda cells: [True, cells[1] is None or cells[1] <= 18],
            valid_only=True,
        ),
    }
    need(name in calls)
    return calls[name], True


def fault(text):
    return {(3, f"fault {text}\n".encode())}


def refused(call, accepted, rows, columns):
    """The first fault that comes before the execution, or none."""
    if len(columns) != len(call.fits):
        return f"Arity {len(call.fits)} {len(columns)}"
    for index, each in enumerate(columns):
        if len(each.rows) != rows:
            return f"InputLength {index} {len(each.rows)} {rows}"
    if not accepted:
        return "Refused"
    for index, (fits, each) in enumerate(zip(call.fits, columns)):
        if not fits(each.type):
            return f"Dtype {index}"
    return None


def stated_type(columns):
    first = columns[0].type
    type = first if isinstance(first, Extension) else Plain("i64", False)
    return type.made_nullable() if any(each.type.nullable for each in columns) else type


def executed(call, rows, columns):
    full = [all(each.rows[row] is not None for each in columns) for row in range(rows)]
    settled = any(each.all_null for each in columns) or (call.valid_only and rows > 0 and not any(full))
    printed, unread, fails, must_fail = [], set(), False, False
    for row in range(rows):
        cells = [each.rows[row] for each in columns]
        reads = call.reads(cells)
        if not settled:
            unread |= {index for index, read in enumerate(reads) if not read}
        if not full[row] or not all(reads):
            must_fail |= full[row] and not settled
            printed.append("null")
            continue
        exact = call.exact(*cells)
        fails |= call.may_fail and not LEAST <= exact <= MOST
        printed.append(str((exact - LEAST) % 2**64 + LEAST))
    answers = set().union(*(fault(f"Decode {index}") for index in unread))
    if fails:
        answers |= fault("Row 1")
    if not fails and not must_fail:
        text = "\n".join([stated_type(columns).text(), *printed]) + "\n"
        answers.add((0, text.encode()))
    return answers


def answers(data):
    """To the word `run` and some bytes."""
    try:
        batch = tree(data)
        keys(batch, ("call", "options", "rows", "columns"))
        call, accepted = call_of(batch["call"], batch["options"])
        rows = whole(batch["rows"], 0, MOST_ROWS)
        need(isinstance(batch["columns"], list))
        columns = [column(value) for value in batch["columns"]]
    except NoJson:
        return {(2, b"form\n")}
    except NoBatch:
        return {(8, b"unbuilt\n")}
    told = refused(call, accepted, rows, columns)
    return fault(told) if told else executed(call, rows, columns)


def summary(rows):
    """To the words `gen` and a number of rows."""
    sums = [37 * row % 1000 + row % 97 for row in range(rows) if row % 5 != 3 and row % 7 != 2]
    return {(0, f"rows {rows}\nnulls {rows - len(sums)}\nsum {sum(sums)}\n".encode())}
