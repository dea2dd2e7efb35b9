"""Answers of the library as they lie in its memory, for programs that judge many tiles or hand rows on: no object is made that
isn't asked for.

Rows come as bytes, one after the other, as mvt.h has them; `NOTE_ROW`, `FINDING_ROW` and `CHANGE_ROW` (struct.Struct) take them
apart, and `note_of`, `finding_of` and `change_of` make objects of one. What kinds are called is in `libmvt.NOTES`,
`libmvt.FINDINGS`, `libmvt.CHANGES` and `libmvt.LOOKALIKES`, by number.

    >>> from libmvt.raw import FINDING_ROW, finding_of, lint_rows
    >>> rows = lint_rows(open("town.mvt", "rb").read())
    >>> len(rows) // FINDING_ROW.size
    0
    >>> [str(finding_of(row)) for row in FINDING_ROW.iter_unpack(rows)]
    []
"""

from ._mending import CHANGE_ROW, change_of
from ._mvt import json_lent, lint_rows, lookalike, looked_at, measured, mend_rows, survey_rows, svg_lent
from ._remarks import FINDING_ROW, NOTE_ROW, finding_of, note_of

__all__ = [
    "CHANGE_ROW",
    "FINDING_ROW",
    "NOTE_ROW",
    "change_of",
    "finding_of",
    "json_lent",
    "lint_rows",
    "lookalike",
    "looked_at",
    "measured",
    "mend_rows",
    "note_of",
    "survey_rows",
    "svg_lent",
]
