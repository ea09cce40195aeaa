"""Which registered names are like this one? The proved lookup, from Python.

    >>> from rushgirdle import Index
    >>> pools = Index.build({10: 'LANE', 11: 'LANES', 12: 'PLANE'})
    >>> [row.id for row in pools.search('LANE', 'dice', '8/13', allowance=15)]
    [10, 11, 12]
    >>> pools.search('LANE', 'dice', '8/13', allowance=14)
    Traceback (most recent call last):
    rushgirdle.AllowanceSpent: the search needs more touches than the allowance (number 7)

A list is complete, or there is none: a search gives every name whose similarity reaches the threshold, or raises the Refusal of its number. The rule is
docs/RULE.md; the numbers are those of include/rushgirdle.h, whose functions this calls.

The shared object is looked for at the first call: where the environment variable RUSHGIRDLE_LIBRARY says, a file, and otherwise where pkg-config knows
`rushgirdle`. `bash tools/library` makes it. The standard library is all that is needed besides. A build takes 840,000 bytes of stack: where threads are
given less, threading.stack_size says more. Threads may search one index at once, but none while another adds to it or withdraws from it.
"""
from __future__ import annotations

import ctypes
import enum
import functools
import itertools
import os
import subprocess
from array import array
from collections.abc import Iterable, Iterator, Mapping
from ctypes import POINTER, c_bool, c_char_p, c_size_t, c_uint8, c_uint16, c_uint32
from fractions import Fraction
from typing import NamedTuple, Union

__all__ = [
    'Index', 'Measure', 'Row', 'Rows', 'LibraryNotFound', 'MOST_NAMES', 'MOST_WORDS', 'NO_LIMIT', 'Refusal', 'EmptyName', 'LongName', 'ZeroByte',
    'BadMeasure', 'BadThreshold', 'NotGood', 'AllowanceSpent', 'NoRoom', 'WrongOrder', 'Full', 'Malformed', 'ControlCharacter', 'NotLive',
]

MOST_NAMES = 256       # of an index
MOST_WORDS = 258_819   # so many are enough for every index
NO_LIMIT = 2**32 - 1   # an allowance that no search exceeds

Text = Union[str, bytes, bytearray]                       # a str is taken as UTF-8; what Python read as surrogate escapes goes back to its bytes
Threshold = Union[Fraction, str, int, 'tuple[int, int]']  # exact; a float is not taken


class Measure(enum.IntEnum):
    """How alike two names are, by the features that they share."""
    DICE = 1
    JACCARD = 2
    COSINE = 3
    OVERLAP = 4


# ---- refusals

class Refusal(Exception):
    """A numbered refusal: nothing was listed, and no name was added or withdrawn."""
    number = 0
    meaning = 'refused'

    def __init__(self, line: int = 0, touches: int = 0):
        self.line = line        # Index.build: which of the names, counted from 1; 0 where it is the whole
        self.touches = touches  # a search: how many were made
        at = f'name {line}: ' if line else ''
        super().__init__(f'{at}{self.meaning} (number {self.number})')


class EmptyName(Refusal):
    number, meaning = 1, 'the name or query is empty'


class LongName(Refusal):
    number, meaning = 2, 'the name or query is longer than 200 bytes'


class ZeroByte(Refusal):
    number, meaning = 3, 'the name or query holds a 0 byte'


class BadMeasure(Refusal):
    number, meaning = 4, 'the measure is not 1 to 4'


class BadThreshold(Refusal):
    number, meaning = 5, 'the threshold is not p/q with 1 <= p <= q <= 1000'


class NotGood(Refusal):
    number, meaning = 6, 'the words are no good index'


class AllowanceSpent(Refusal):
    number, meaning = 7, 'the search needs more touches than the allowance'


class NoRoom(Refusal):
    number, meaning = 8, 'there is more than there is room for'


class WrongOrder(Refusal):
    number, meaning = 9, 'the id is not above the one before, or is live already'


class Full(Refusal):
    number, meaning = 10, 'there are 256 names already'


class Malformed(Refusal):
    number, meaning = 11, 'a line is not exactly its frame'


class ControlCharacter(Refusal):
    number, meaning = 12, 'the name or query holds a control character'


class NotLive(Refusal):
    number, meaning = 13, 'no name has the id'


_REFUSALS = {kind.number: kind for kind in Refusal.__subclasses__()}


# ---- what a search gives

class Row(NamedTuple):
    """A name that is like the query."""
    id: int
    shared: int  # how many features it shares with the query
    size: int    # how many it has itself
    least: int   # with how many a name of its size passes; where `shared` is no more, it only just does


class Rows(tuple):
    """The rows of a search, by ascending id: all there are. `touches` is the work that was done, `threshold` what it was, in lowest terms."""
    touches: int
    threshold: Fraction

    def __new__(cls, rows: Iterable[Row], touches: int, threshold: Fraction) -> Rows:
        made = super().__new__(cls, rows)
        made.touches, made.threshold = touches, threshold
        return made


# ---- the library

class LibraryNotFound(OSError):
    """The shared object is not where it was looked for, is not one for this processor, or lacks a function that is called here."""


class _BuildAnswer(ctypes.Structure):
    _fields_ = [('number', c_uint8), ('line', c_uint32)]


class _SearchAnswer(ctypes.Structure):
    _fields_ = [('number', c_uint8), ('rows', c_uint32), ('touches', c_uint32), ('p', c_uint16), ('q', c_uint16)]


class _ManyAnswer(ctypes.Structure):
    _fields_ = [('number', c_uint8), ('queries', c_uint32), ('rows', c_uint32)]


class _Row(ctypes.Structure):
    _fields_ = [('id', c_uint32), ('shared', c_uint32), ('size', c_uint32), ('least', c_uint32)]


def _where() -> str:
    """The shared object's path, by what the machine says."""
    said = os.environ.get('RUSHGIRDLE_LIBRARY')
    if said:
        return said
    try:
        asked = subprocess.run(['pkg-config', '--variable=libdir', 'rushgirdle'], capture_output=True, text=True, check=False)
        folder = asked.stdout.strip() if asked.returncode == 0 else ''
    except FileNotFoundError:
        folder = ''
    if not folder:
        raise LibraryNotFound(
            'librushgirdle.so is not found: RUSHGIRDLE_LIBRARY is not set, and pkg-config knows no rushgirdle. `bash tools/library` makes it in '
            'target/library; then set RUSHGIRDLE_LIBRARY to target/library/librushgirdle.so, or PKG_CONFIG_PATH to target/library')
    return os.path.join(folder, 'librushgirdle.so')


@functools.lru_cache(maxsize=1)
def _library() -> ctypes.CDLL:
    path = _where()
    try:
        library = ctypes.CDLL(path)
    except OSError as error:
        raise LibraryNotFound(f'{path} cannot be loaded: {error}') from None
    text, words, asked = [c_char_p, c_size_t], [POINTER(c_uint32), c_size_t], [c_uint8, c_uint16, c_uint16, c_uint32]
    for name, result, taken in (
            ('build', _BuildAnswer, text + words),
            ('add', c_uint8, words + [c_uint16] + text),
            ('withdraw', c_uint8, words + [c_uint16]),
            ('good', c_bool, words),
            ('search_rows', _SearchAnswer, text + asked + words + [POINTER(_Row), c_size_t]),
            ('search_many', _ManyAnswer, text + words + asked + 8 * words)):
        try:
            function = getattr(library, 'rushgirdle_' + name)
        except AttributeError:
            raise LibraryNotFound(f'{path} has no rushgirdle_{name}: it is of another edition than this module') from None
        function.restype, function.argtypes = result, taken
    return library


# ---- what is taken

def _bytes(text: Text) -> bytes:
    if isinstance(text, str):
        return text.encode('utf-8', 'surrogateescape')
    if isinstance(text, (bytes, bytearray)):
        return bytes(text)
    raise TypeError(f'a name or query is a str or bytes, and not {type(text).__name__}')


def _id(number: int) -> int:
    if not 0 <= number <= 65_535:
        raise ValueError(f'an id is 0 to 65535, and not {number}')
    return number


# What fits no parameter of the library is passed as 0, or 0/0, which it refuses with the same number, in its order among the others.

def _measure(measure: Union[Measure, int, str]) -> int:
    if isinstance(measure, str):
        return Measure.__members__.get(measure.upper(), 0)
    return measure if 0 <= measure <= 255 else 0


def _threshold(threshold: Threshold) -> tuple[int, int]:
    if isinstance(threshold, float):
        raise TypeError("a threshold is exact: a Fraction, a text such as '7/10' or '0.7', or a pair (7, 10), and no float")
    if isinstance(threshold, tuple):
        p, q = threshold
    else:
        try:
            p, q = Fraction(threshold).as_integer_ratio()
        except (ValueError, ArithmeticError):
            return 0, 0
    return (p, q) if 0 <= p <= 65_535 and 0 <= q <= 65_535 else (0, 0)


def _allowance(allowance: int) -> int:
    if allowance < 0:
        raise ValueError(f'an allowance is 0 or more, and not {allowance}')
    return min(allowance, NO_LIMIT)


# ---- the index

# of many queries so many are asked at once, with room for so many rows: at least one goes through, as MOST_NAMES are enough for each
_AT_ONCE, _ROWS = 256, 4096


class Index:
    """Registered names, to be searched. `len`, `in` and iteration go by their ids."""

    def __init__(self, words: Iterable[int] = (0, 0, 0), room: int = MOST_WORDS):
        """An index of words that were kept (`words`): NotGood where they are none. `room` is how many words it may grow to."""
        kept = array('I', words)
        room = max(room, len(kept))
        self._words = (c_uint32 * room)(*kept, *((2**32 - 1,) * (room - len(kept))))
        self._room = room
        if not _library().rushgirdle_good(self._words, room):
            raise NotGood

    @classmethod
    def build(cls, names: Union[Mapping[int, Text], Iterable[tuple[int, Text]]], room: int = MOST_WORDS) -> Index:
        """The index of names under ids: a mapping, or pairs by ascending id. A refusal has the place of the first bad name in `line`."""
        pairs = sorted(names.items()) if isinstance(names, Mapping) else names
        lines = []
        for number, name in pairs:
            # a frame has room for 255 bytes, and a name of more than 200 is refused as too long, however it goes on
            typed = _bytes(name)[:255]
            lines.append(b'4E%04X%02X%s\n' % (_id(number), len(typed), typed.hex().upper().encode()))
        register = b''.join(lines)
        made = cls.__new__(cls)
        made._words, made._room = (c_uint32 * room)(), room
        answer = _library().rushgirdle_build(register, len(register), made._words, room)
        if answer.number:
            raise _REFUSALS[answer.number](line=answer.line)
        return made

    def search(self, query: Text, measure: Union[Measure, int, str], threshold: Threshold, allowance: int = NO_LIMIT) -> Rows:
        """Every name whose similarity to the query reaches the threshold, by ascending id; or the Refusal of its number is raised."""
        typed, (p, q) = _bytes(query), _threshold(threshold)
        rows = (_Row * MOST_NAMES)()
        answer = _library().rushgirdle_search_rows(
            typed, len(typed), _measure(measure), p, q, _allowance(allowance), self._words, self._room, rows, MOST_NAMES)
        if answer.number:
            raise _REFUSALS[answer.number](touches=answer.touches)
        return Rows((Row(row.id, row.shared, row.size, row.least) for row in rows[:answer.rows]), answer.touches, Fraction(answer.p, answer.q))

    def search_many(
            self, queries: Iterable[Text], measure: Union[Measure, int, str], threshold: Threshold, allowance: int = NO_LIMIT,
    ) -> list[Union[Rows, Refusal]]:
        """For each query what `search` has for it: its Rows, or its Refusal, which is not raised. Quicker than one by one, as the index is checked once
        for all that are asked at once."""
        # one of more than 200 bytes is refused as too long, however it goes on
        typed, (p, q) = [_bytes(query)[:255] for query in queries], _threshold(threshold)
        settings = _measure(measure), p, q, _allowance(allowance)
        outcomes, rows = [(c_uint32 * _AT_ONCE)() for _ in range(3)], [(c_uint32 * _ROWS)() for _ in Row._fields]
        lent = [taken for column in outcomes + rows for taken in (column, len(column))]
        found: list[Union[Rows, Refusal]] = []
        while len(found) < len(typed):
            part = typed[len(found):len(found) + _AT_ONCE]
            ends, text = (c_uint32 * len(part))(*itertools.accumulate(map(len, part))), b''.join(part)
            came = _library().rushgirdle_search_many(text, len(text), ends, len(part), *settings, self._words, self._room, *lent)
            start = 0
            for number, until, touches in zip(*(column[:came.queries] for column in outcomes)):
                if number:
                    found.append(_REFUSALS[number](touches=touches))
                else:
                    found.append(Rows(map(Row, *(column[start:until] for column in rows)), touches, Fraction(p, q)))
                start = until
        return found

    def add(self, number: int, name: Text) -> None:
        """Registers a name under an id that none has."""
        typed = _bytes(name)
        refused = _library().rushgirdle_add(self._words, self._room, _id(number), typed, len(typed))
        if refused:
            raise _REFUSALS[refused]

    def withdraw(self, number: int) -> None:
        """Takes the name of an id out."""
        refused = _library().rushgirdle_withdraw(self._words, self._room, _id(number))
        if refused:
            raise _REFUSALS[refused]

    @property
    def words(self) -> array:
        """The words of the index, to be kept: Index(words) is this index again."""
        names, rows, postings = self._words[:3]
        return array('I', self._words[:3 + names + 4 * rows + postings])

    def __len__(self) -> int:
        return self._words[0]

    def __iter__(self) -> Iterator[int]:
        return (word >> 8 for word in self._words[3:3 + len(self)])

    def __contains__(self, number: object) -> bool:
        return any(number == live for live in self)

    def __repr__(self) -> str:
        return f'<Index of {len(self)} names>'
