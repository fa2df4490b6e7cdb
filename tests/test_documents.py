"""What documents promise: their commands, their sizes, the canonical texts of examples, and the picture of
mistakes."""
import os
import re
import shutil
import subprocess
import time
from pathlib import Path

import pytest
from servers import TOP, run

# These need a system of their own: tests/try-operate sets RUNNER to a program that runs a command in a container.
APART = ["docs/OPERATE.md", "docs/SCALE.md"]
PAGES = [str(page.relative_to(TOP)) for page in [TOP / "README.md", *sorted((TOP / "docs").glob("*.md"))]]
MANUAL = [f"man/{name}.1" for name in "zonecheck zonefaults zonelint zoneimport zonecompare zoneserve dnsmsg".split()]
NEEDED = ["named-checkzone", "named-compilezone", "nsd-checkzone"]


def blocks(name):
    """The fenced blocks of a page. A manual page has them between .nf and .fi."""
    text = (TOP / name).read_text()
    if name.startswith("man/"):
        for pattern, new in [(r"^\.R[SE]\n", ""), (r"^\.(nf|fi)$", "```"), (r"\\-", "-"), (r"\\\(aq", "'"),
                             (r"\\e$", r"\\")]:
            text = re.sub(pattern, new, text, flags=re.M)
    return re.findall(r"^```.*\n((?:(?!```).*\n)*)```", text, re.M)


@pytest.fixture
def examples(tmp_path):
    """A copy of examples/, in which the commands of some pages run."""
    folder = shutil.copytree(TOP / "examples", tmp_path / "examples")
    for name in ("old.zone", "new.zone"):
        shutil.copy(folder / "example.zone", folder / name)
    (folder / "query").write_text("12340000000100000000000003777777076578616d706c650000010001\n")
    return folder


@pytest.mark.parametrize("page", [page for page in PAGES + MANUAL if (page in APART) == ("RUNNER" in os.environ)])
def test_commands_print_what_pages_say(programs, examples, page):
    """A command begins with `$ `, and its output is the text up to the next one. If a program that a command needs is
    not installed, the rest of its block is left out. So are commands of manual pages that need a socket."""
    is_apart = page in ("docs/CODES.md", "docs/IMPORT.md") or page in MANUAL
    for block in blocks(page):
        for command, wanted in re.findall(r"^\$ (.*)\n((?:(?!\$ ).*\n)*)", block, re.M):
            if any(need in command and not shutil.which(need) for need in NEEDED):
                break
            if page not in MANUAL or not re.search("zoneserve udp|zonecompare|^dig", command):
                shell = [os.environ["RUNNER"]] if "RUNNER" in os.environ else ["bash", "-c"]
                done = run(*shell, f"exec 2>&1; {command}", cwd=examples if is_apart else TOP, stdin=subprocess.DEVNULL,
                           errors="replace")
                assert done.stdout == wanted, command


@pytest.mark.parametrize("printed", sorted((TOP / "examples").glob("*.printed")), ids=lambda printed: printed.stem)
def test_the_canonical_text_of_an_example(programs, printed):
    """The first line of the zone file, a comment, names the origin."""
    zone = printed.with_suffix(".zone")
    origin = re.search(r"origin is (.*)\.", zone.read_text().partition("\n")[0])[1]
    assert run("zonecheck", "--print", origin, zone).stdout == printed.read_text()


def test_the_picture_of_mistakes_is_that_of_its_table():
    plots = TOP / "docs" / "plots"
    assert run(plots / "mistakes").stdout == (plots / "mistakes.svg").read_text()


def test_sizes_of_documents():
    """README has at most 90 lines, and the documents 18,000 words."""
    documents = [Path(TOP, page) for page in PAGES]
    assert sum(len(document.read_text().split()) for document in documents) <= 18_000
    assert len(documents[0].read_text().splitlines()) <= 90
