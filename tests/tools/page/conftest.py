"""What the page's tests in Python share."""

import sys

import pytest

from room import TOP
from serving import Serving

sys.path[:0] = [str(TOP / "tests" / "program"), str(TOP / "fixtures" / "tiles")]


@pytest.fixture(scope="module")
def serving():
    """A server for the tests of a file. Whatever they send, it says nothing on standard error."""
    with Serving() as running:
        yield running
        status, _, error = running.end()
        assert (status, error) == (0, "")
