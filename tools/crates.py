"""What the scripts know of the crates of the repository, by crates.txt, which has each after those that it uses; of
files that are at two places; and of the memory of the machine."""
import os
import pathlib
import re
import shutil

TOP = pathlib.Path(__file__).resolve().parent.parent


def uses_of_crates():
    """Returns of each crate, in the order of crates.txt, all crates that it uses, those of the kit too."""
    lines = (TOP / "crates.txt").read_text(encoding="utf-8").splitlines()
    parted = (line.partition("#")[0].partition(":") for line in lines)
    return {name.strip(): words.split() for name, _, words in parted if name.strip()}


def below(crate, uses):
    """Returns a crate and those of the repository that it stands on, each after those that it stands on."""
    found = {crate}
    for name in reversed(list(uses)):
        if name in found:
            found.update(uses[name])
    return [it for it in uses if it in found]


def link_or_copy(source, target):
    """Has a file that is only read at another place too, without a copy if the file system allows it."""
    try:
        os.link(source, target)
    except OSError:
        shutil.copy2(source, target)


def memory_left():
    """Returns the gigabytes of memory that are free or can be freed, of the machine and of a container with a limit."""
    told = pathlib.Path("/proc/meminfo").read_text(encoding="ascii")
    left = int(re.search(r"^MemAvailable: +(\d+) kB", told, re.MULTILINE)[1]) * 1024
    group = pathlib.Path("/sys/fs/cgroup")
    try:
        files = int(re.search(r"^file (\d+)", (group / "memory.stat").read_text(), re.MULTILINE)[1])
        held = int((group / "memory.current").read_text()) - files
        left = min(left, int((group / "memory.max").read_text()) - held)
    except (OSError, ValueError, TypeError):
        pass  # there is no limit
    return left / 1e9
