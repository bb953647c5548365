"""JSON texts, and what of them isn't read."""

import json
import re

STRING = re.compile(r'"(?:\\.|[^"\\])*"', re.DOTALL)
DEEPEST = 127


def no_number(text):
    raise ValueError(text)


def number_of(text):
    value = float(text)
    if value in (float("inf"), float("-inf")):
        raise ValueError(text)
    return value


def whole_of(text):
    # (-0 isn't a number in plain digits)
    number_of(text)
    return -0.0 if text == "-0" else int(text)


def depth_of(text):
    """How deep the values of a text nest, those that a later member of the same name replaces too."""
    depth = deepest = 0
    for mark in re.findall(r"[\[\]{}]", STRING.sub("", text)):
        depth += 1 if mark in "[{" else -1
        deepest = max(deepest, depth)
    return deepest


def value_of_json(body):
    """The value that a text is; a ValueError where it is none, nests too deep, has a number that is too large, or half of a
    pair of surrogates."""
    text = body.decode("utf-8")
    if depth_of(text) > DEEPEST:
        raise ValueError("too deep")
    value = json.loads(text, parse_int=whole_of, parse_float=number_of, parse_constant=no_number)
    for found in STRING.findall(text):
        json.loads(found).encode()
    return value
