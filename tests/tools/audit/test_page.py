"""The page of an audit, in Chromium (page.test.mjs)."""

import os
from pathlib import Path

import make_page
from room import needs, run


@needs("node", "chromium")
def test_page(tmp_path):
    make_page.make(tmp_path / "audited")
    environment = {**os.environ, "AUDIT_REPORT": str(tmp_path / "audited/audit/report.html")}
    run("node", "--test", Path(__file__).with_name("page.test.mjs"), env=environment)
