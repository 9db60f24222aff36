#!/usr/bin/env python3
"""Compares the names of metrics that docs/HOST.md and the dashboard of examples/ have with those that the test of iso_metrics writes,
and reads both documents of examples/. Prints what differs, and a line of counts."""
import json
import re
import sys
from pathlib import Path

HOME = Path(__file__).resolve().parent.parent
TESTS = (HOME / "crates/iso_script_tests/src/metrics/text.rt").read_text()
PAGE = (HOME / "docs/HOST.md").read_text()
DASHBOARD = json.loads((HOME / "examples/dashboard.json").read_text())
SCRAPING = (HOME / "examples/prometheus.yml").read_text()

written = set(re.findall(r"# TYPE rumpadol_([a-z_]+) ", TESTS))
rows = re.findall(r"^\| (`[^|]+)\|[^|]*\|[^|]*\|$", PAGE.split("\n## Metrics\n")[1], re.M)
listed = {name for row in rows for name in re.findall(r"`([a-z_]+)`", row)}
asked = {
    re.sub(r"_(bucket|sum|count)$", "", name)
    for panel in DASHBOARD["panels"]
    for target in panel["targets"]
    for name in re.findall(r"rumpadol_([a-z_]+)", target["expr"])
}
checks = {
    "docs/HOST.md lists each metric that is written, and no other": bool(written) and listed == written,
    "examples/dashboard.json asks for metrics that are written": bool(asked) and asked <= written,
    "examples/prometheus.yml asks at /metrics": "metrics_path: /metrics" in SCRAPING,
}
for name, is_so in checks.items():
    if not is_so:
        print(f"FAILED {name}", sorted(listed ^ written), sorted(asked - written))
passed = sum(checks.values())
print(f"metrics: {passed} passed, {len(checks) - passed} failed")
sys.exit(passed < len(checks))
