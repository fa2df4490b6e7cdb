"""What all tests share. They use the built programs of this checkout, or those in the folder $PROGRAMS."""
import os
import shutil
from pathlib import Path

import pytest
import servers


def pytest_configure(config):
    config.addinivalue_line("markers", "slow: takes more than some seconds")
    config.addinivalue_line("markers", "root: needs root")
    config.addinivalue_line("markers", "peers(program, ..): needs these other programs")


def pytest_runtest_setup(item):
    if item.get_closest_marker("root") and os.getuid() != 0:
        pytest.skip("needs root")
    for program in [program for marker in item.iter_markers("peers") for program in marker.args]:
        if not shutil.which(program, path=f"{os.environ['PATH']}:/usr/sbin"):
            pytest.skip(f"needs {program}")


@pytest.fixture(scope="session")
def programs(tmp_path_factory):
    """A folder with the built programs. It and bin/ are on the path from here on."""
    folder = Path(os.environ.get("PROGRAMS") or tmp_path_factory.mktemp("programs")).resolve()
    for built in (servers.TOP / "crates").glob("*/out/*"):
        if "PROGRAMS" not in os.environ and built.name == built.parent.parent.name:
            (folder / built.name).symlink_to(built)
    if not (folder / "zonecheck").exists():
        pytest.exit("the programs are not built: make programs", 2)
    os.environ["PATH"] = f"{folder}:{servers.TOP / 'bin'}:{os.environ['PATH']}:/usr/sbin"
    return folder
