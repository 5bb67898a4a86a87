"""Wrong servers, each of which a test has to find, or a run. Those that preload.c breaks are tried anew, by hand."""
import os
import re
import subprocess

import pytest
import servers

with open(f"{servers.TOP}/tests/rows/broken.txt", encoding="utf-8") as file:
    FAULTS = [line.rstrip("\n").split(" | ") for line in file if not line.startswith("#")]
BROKEN = [it for it in FAULTS if it[1].startswith("BREAK_")]


@pytest.mark.parametrize("test", sorted({test.partition("[")[0] for *_, test in FAULTS if "::" in test}))
def test_the_test_is_there(test):
    path, _, name = test.partition("::")
    assert f"\ndef {name}(" in servers.text_at(f"tests/server/{path}")


@pytest.mark.by_hand
@pytest.mark.parametrize("name, broken, test", BROKEN)
def test_broken(name, broken, test):
    script, *words = ["gate/pytest", f"tests/server/{test}"] if "::" in test else test.split()
    run = {"env": {**os.environ, **dict([broken.split("=")])}, "capture_output": True, "text": True, "check": False}
    ended = subprocess.run([f"{servers.TOP}/tests/{script}", *words], **run)
    is_found = ended.returncode == 1 and re.search(r"\d failed|WRONG|[1-9]\d* differ", ended.stdout)
    assert is_found, f"{name} is not found: {ended.stdout}"
