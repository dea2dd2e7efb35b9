"""Each example tile, whole or broken, is in Python as the program says (fixtures/tiles/cases.py), and so are others that
are made for the run."""

import json
from types import SimpleNamespace

import cases
import libmvt
import pytest
from places import holders_line
from room import others
from shown import shown

CALLS = (
    libmvt.judge,
    libmvt.lint,
    libmvt.read,
    libmvt.rows,
    libmvt.report,
    libmvt.rewrite,
    libmvt.survey,
    libmvt.to_json,
    libmvt.to_svg,
)
EXAMPLES = cases.examples()


def decoded(tile, size):
    decoder = libmvt.Decoder()
    for at in range(0, len(tile), size):
        decoder.feed(tile[at : at + size])
    return decoder.finish()


def accepted(case):
    said, tile = case.said, case.tile
    canonical, read, survey = case.bytes_of("canonical"), libmvt.read(tile), libmvt.survey(tile)
    first = f"ok layers {survey.layers} features {survey.features} canonical {'yes' if survey.canonical else 'no'}\n"
    assert libmvt.judge(tile) is None
    assert (libmvt.report(tile), libmvt.report(tile).survey) == (said["check"], survey)
    assert first + "".join(f"note {note}\n" for note in survey.notes) == said["check"]
    assert "".join(f"lint {finding}\n" for finding in libmvt.lint(tile)) == said.get("lint", "")
    assert libmvt.to_json(tile) + "\n" == said["show"]
    assert libmvt.to_svg(tile) + "\n" == said["draw"]
    assert shown(read) == json.loads(said["show"])
    assert libmvt.rewrite(tile) == canonical
    assert (libmvt.write(read), libmvt.write(libmvt.rows(tile)), decoded(tile, 7)) == (canonical, canonical, read)
    assert libmvt.mend(tile) == (canonical, [])
    for name, extracted in case.layers.items():
        assert libmvt.extract(tile, [name]) == extracted
        assert libmvt.read(extracted).layers == [libmvt.read_layer(tile, name)]


def refused_by(call, tile):
    with pytest.raises(libmvt.Refused) as caught:
        call(tile)
    return caught.value


def refused(case):
    said, tile = case.said, case.tile
    faults = [refused_by(call, tile) for call in CALLS]
    fault = faults[0]
    assert {each.args for each in faults} == {fault.args}
    assert fault.line + "\n" == said["fault"]
    assert fault.can_be_mended == ("mended" in said)
    assert str(fault) == f"{fault.line}: {fault.explanation}" + (": mvt mend mends this" if "mended" in said else "")
    assert fault.explanation.endswith(fault.sentence)
    if fault.layer is not None:
        place = SimpleNamespace(
            name=None if fault.layer_name is None else fault.layer_name.encode(), id=fault.feature_id
        )
        assert said["explain"].startswith(holders_line(fault, place) + "\n")
    assert (f"{fault.start} {fault.end}\n", f"{fault.sentence}\n") == (said["place"], said["sentence"])
    assert refused_by(lambda whole: decoded(whole, 1 if len(whole) < 1000 else 1 << 16), tile).line == fault.line
    assert refused_by(lambda whole: decoded(whole, len(whole)), tile).sentence == fault.sentence
    if "mended" in said:
        mended = libmvt.mend(tile)
        assert (mended.bytes, "".join(f"{change}\n" for change in mended.changes)) == (
            case.bytes_of("mended"),
            said["change"],
        )
    else:
        assert refused_by(libmvt.mend, tile).args == fault.args


def right(case):
    (refused if "fault" in case.said else accepted)(case)


@pytest.mark.parametrize("case", EXAMPLES, ids=[case.name for case in EXAMPLES])
def test_example(case):
    right(case)


@pytest.mark.parametrize("name", cases.OTHERS)
def test_others(name):
    wrong = {}
    for case in cases.read(others() / name):
        try:
            right(case)
        except (AssertionError, libmvt.MvtError) as error:
            wrong[case.name] = str(error)
    assert not wrong
