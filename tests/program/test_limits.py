"""Inputs of 64 MiB, and what the program answers for each."""

import pytest
from few_bytes import DRAWN, PICTURE, UNMENDED, encoded, octets

LIMIT = 1 << 26
TOO_LARGE = "layer - feature - at 67108864: 25 TooLarge\n"
CUT = "layer - feature - at 0: 25 TooLarge\n"
# An unknown field that ends at the limit, one that ends a byte behind it, and one of 2^63 bytes.
WHOLE, LONGER, ENDLESS = "0AFBFFFF1F", "0AFCFFFF1F", "0A 808080808080808080 01"
# A layer that ends at the limit, and begins its name. Its extent isn't there: the canonical form is longer.
NAMED = "1AFBFFFF1F 7802 0AF4FFFF1F"
NAME = "a" * 67_108_852
# The same with a name of two and of three bytes less: the canonical bytes are one more than the limit, and as many.
ONE_OVER, FULL = "1AF9FFFF1F 7802 0AF2FFFF1F", "1AF8FFFF1F 7802 0AF1FFFF1F"
FILLED = octets("1AFBFFFF1F 7802 0AF1FFFF1F") + b"a" * 67_108_849 + octets("288020")
TITLE = DRAWN[len(PICTURE) :].partition("a</title>")[0]


def runs():
    """Words, the front of an input, the byte that fills it, how far beyond the limit, and what is answered."""
    yield ["fields"], WHOLE, 0, 0, (0, "0 1 len 67108859\n", "")
    yield ["fields"], WHOLE, 0, 1, (1, "0 1 len 67108859\n", TOO_LARGE)
    yield ["fields"], LONGER, 0, 1, (1, "", CUT)
    yield ["fields"], ENDLESS, 0, 9, (1, "", CUT)
    for command, written in [
        ("check", "ok layers 0 features 0 canonical no\nnote NoLayers\n"),
        ("show", '{"layers":[]}\n'),
        ("draw", PICTURE + "</svg>\n"),
        ("rewrite", ""),
        ("mend", ""),
    ]:
        yield [command], WHOLE, 0, 0, (0, written, "")
        why = UNMENDED if command == "mend" else ""
        yield [command], WHOLE, 0, 1, (1, "", TOO_LARGE + why)
        yield [command], LONGER, 0, 1, (1, "", CUT + why)
        yield [command], ENDLESS, 0, 1, (1, "", CUT + why)
    report = "ok layers 1 features 0 canonical no\nnote NoFeatures layer 0\n"
    yield ["check"], NAMED, ord("a"), 0, (0, report, "")
    yield ["rewrite"], NAMED, ord("a"), 0, (1, "", "mvt: result larger than 67108864 bytes\n")
    yield ["check"], ONE_OVER, ord("a"), -2, (0, report, "")
    yield ["rewrite"], ONE_OVER, ord("a"), -2, (1, "", "mvt: result larger than 67108864 bytes\n")
    yield ["check"], FULL, ord("a"), -3, (0, report, "")
    yield ["rewrite"], FULL, ord("a"), -3, (0, FILLED, "")
    shown = '{"layers":[{"extent":4096,"features":[],"name":"%s"}]}\n' % NAME
    yield ["show"], NAMED, ord("a"), 0, (0, shown, "")
    drawn = PICTURE + TITLE + NAME + "</title>\n</svg>\n</svg>\n"
    yield ["draw"], NAMED, ord("a"), 0, (0, drawn, "")


RUNS = [pytest.param(*run, id=f"{run[0][0]}-{run[1][:8].replace(' ', '')}-{run[3]}-{run[4][0]}") for run in runs()]


@pytest.mark.parametrize("words, front, filler, beyond, wanted", RUNS)
def test_limit(run, words, front, filler, beyond, wanted):
    status, output, told = wanted
    found = run(*words, tile=octets(front).ljust(LIMIT + beyond, bytes([filler])))
    is_same = found.output == encoded(output)  # so that no failure prints 64 MiB
    assert (found.status, found.output[:100], found.errors, is_same) == (status, encoded(output)[:100], told, True)
