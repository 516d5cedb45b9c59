"""What scripts find in the sources and the pages: each prints a line for each fault."""
import subprocess

import pytest

from support import programs

LINTS = ["tools/trusted", "docs/speed_chart --check"]


@pytest.mark.parametrize("lint", LINTS)
def test_lint(lint):
    ran = subprocess.run(["python3", "-B", *lint.split()], cwd=programs.ROOT, stdout=subprocess.PIPE, stderr=subprocess.STDOUT, text=True)
    if ran.returncode:
        pytest.fail(ran.stdout, pytrace=False)
