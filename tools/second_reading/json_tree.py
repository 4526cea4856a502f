"""The JSON tree of some bytes, as docs/DEFINITIONS.md reads it. What is no JSON raises NoJson."""
import json
import math

LEVELS = 127


class NoJson(Exception):
    pass


class Other:
    """A number that is no whole number."""


def whole_number(text):
    number = int(text)
    return number if text != "-0" and -(2**63) <= number < 2**64 else other_number(text)


def other_number(text):
    if math.isinf(float(text)):
        raise NoJson
    return Other()


def refuse(_word):
    raise NoJson


def levels(text):
    """How deep arrays and objects nest."""
    deepest = depth = 0
    in_text = escaped = False
    for character in text:
        if in_text:
            in_text = escaped or character != '"'
            escaped = not escaped and character == "\\"
        elif character == '"':
            in_text = True
        elif character in "[{":
            depth += 1
            deepest = max(deepest, depth)
        elif character in "]}":
            depth -= 1
    return deepest


def refuse_surrogates(value):
    if isinstance(value, str) and any(0xD800 <= ord(character) <= 0xDFFF for character in value):
        raise NoJson
    if isinstance(value, list):
        for item in value:
            refuse_surrogates(item)


def members(pairs):
    for key, value in pairs:
        refuse_surrogates(key)
        refuse_surrogates(value)
    return dict(pairs)


def tree(data):
    try:
        text = data.decode("utf-8")
        if levels(text) > LEVELS:
            raise NoJson
        value = json.loads(
            text,
            parse_int=whole_number,
            parse_float=other_number,
            parse_constant=refuse,
            object_pairs_hook=members,
        )
    except ValueError:
        raise NoJson from None
    refuse_surrogates(value)
    return value
