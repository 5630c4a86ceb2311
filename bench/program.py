"""The built program `dp`, as the benchmarks measure it: not the launcher, and nothing of what it was started from."""

import fcntl
import os
import pathlib
import re
import resource
import subprocess
import time

ROOT = pathlib.Path(__file__).resolve().parent.parent
PROGRAM = ROOT / "crates" / "dp_cli" / "out" / "dp_cli"
PAGE = 4096


def build() -> None:
    """Proves and builds the program where it isn't built yet."""
    subprocess.run(
        [ROOT / "dp", "replay", "demo", "-"], stdin=subprocess.DEVNULL, stdout=subprocess.DEVNULL, check=True
    )


def user_seconds(words: list, runs: int, statuses: tuple[int, ...] = (0,)) -> float:
    """The mean user time of a run, which ends with one of these statuses."""
    before = resource.getrusage(resource.RUSAGE_CHILDREN).ru_utime
    for _ in range(runs):
        status = subprocess.run(
            [PROGRAM, *words], stdin=subprocess.DEVNULL, stdout=subprocess.DEVNULL, stderr=subprocess.DEVNULL
        ).returncode
        assert status in statuses, status
    return (resource.getrusage(resource.RUSAGE_CHILDREN).ru_utime - before) / runs


def sleeps(program: subprocess.Popen) -> bool:
    return pathlib.Path(f"/proc/{program.pid}/stat").read_text().rsplit(")", 1)[1].split()[0] == "S"


def peak_mebibytes(words: list, written: int = 0) -> float:
    """The program's own peak memory in MiB, once it has written all but the end of so many bytes.

    It writes its output and its errors to a pipe of one page that is full, which is read up to a few pages before the
    end, so that the program waits there. The memory of a process that has ended counts what it was started from, so it
    is read while the program lives.
    """
    source, sink = os.pipe()
    fcntl.fcntl(sink, fcntl.F_SETPIPE_SZ, PAGE)
    os.write(sink, bytes(PAGE))
    with subprocess.Popen([PROGRAM, *words], stdin=subprocess.DEVNULL, stdout=sink, stderr=sink) as program:
        os.close(sink)
        left = written - 4 * PAGE
        while left > 0:
            left -= len(os.read(source, min(PAGE, left)))
        while not sleeps(program):
            time.sleep(0.01)
        status = pathlib.Path(f"/proc/{program.pid}/status").read_text()
        while os.read(source, 16 * PAGE):
            pass
    os.close(source)
    return int(re.search(r"VmHWM:\s*(\d+) kB", status)[1]) / 1024
