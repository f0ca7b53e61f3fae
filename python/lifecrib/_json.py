"""JSON whose numbers keep their spelling, for the library's results and what this package stores: never for replies."""
from __future__ import annotations

import decimal
import json
from typing import Any, Union

MOST_DIGITS = 4000  # of an int; Python refuses longer texts


def _number(text: str) -> Union[decimal.Decimal, float]:
    try:
        return decimal.Decimal(text)
    except decimal.InvalidOperation:  # an exponent beyond all that a Decimal has
        return float(text)


def _whole(text: str) -> Union[int, decimal.Decimal, float]:
    return int(text) if len(text) <= MOST_DIGITS else _number(text)


def _no_number(text: str) -> None:
    raise ValueError('%s is no number of JSON' % text)


_encode = json.JSONEncoder(separators=(',', ':'), allow_nan=False).encode
_decoder = json.JSONDecoder(parse_float=_number, parse_int=_whole, parse_constant=_no_number)


def value_of(text: str) -> Any:
    """The value of a JSON text. ValueError if it is none."""
    return _decoder.decode(text)


def text_of(value: Any) -> str:
    """The JSON text of a value, in ASCII."""
    try:
        return _encode(value)
    except TypeError:
        return _text_of(value)


def _text_of(value: Any) -> str:
    """The same with numbers that json does not write."""
    if isinstance(value, decimal.Decimal):
        if not value.is_finite():
            raise ValueError('%s is no number of JSON' % value)
        return str(value)
    if isinstance(value, dict):
        return '{%s}' % ','.join('%s:%s' % (json.dumps(str(name)), _text_of(it)) for name, it in value.items())
    if isinstance(value, (list, tuple)):
        return '[%s]' % ','.join(map(_text_of, value))
    return _encode(value)
