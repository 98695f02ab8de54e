"""What the scripts share that measure the built program: the program, its runs, the machine, and the tables of docs/MEASUREMENTS.md."""
import ctypes
import os
import platform
import select
import signal
import subprocess
import sys
import time
import typing

BENCH = os.path.dirname(os.path.abspath(__file__))
ROOT = os.path.dirname(BENCH)
# The program that was built here, or else the released one.
BUILT, RELEASED = f"{ROOT}/crates/lolli/out/lolli", f"{ROOT}/release/lolli-x86_64-linux"
PROGRAM = BUILT if os.access(BUILT, os.X_OK) else RELEASED
PAGE = f"{ROOT}/docs/MEASUREMENTS.md"
PR_SET_CHILD_SUBREAPER = 36
# Begins a process and says its number: a limit of its memory in KiB, where one is given, the file of its output, and its words. It waits until
# standard input ends before it becomes the command: a shell that had its child end first could take its status.
BEGIN = """exec 3<&0; limit=$1 out=$2; shift 2; [ -z "$limit" ] || ulimit -v "$limit"
{ read -r _ <&3; exec "$@" 3<&-; } >"$out" 2>/dev/null & echo $!"""


class Run(typing.NamedTuple):
    """What a process took, seconds of processor time and by the clock and MB at the peak, and its status."""

    seconds: float
    clock: float
    megabytes: float
    status: int


def take_orphans():
    """Lets processes whose parent ends be children of this one."""
    if ctypes.CDLL(None, use_errno=True).prctl(PR_SET_CHILD_SUBREAPER, 1, 0, 0, 0) != 0:
        sys.exit("processes can't be measured here: the system lets none take another one's children")


def begun(command, output, memory=None, **how):
    """Begins a process that may have so many bytes, and returns its number and when it began.

    A shell begins it, says its number and ends: a process that this one began itself would have the memory of Python among its own most."""
    words = ["sh", "-c", BEGIN, "sh", str(memory // 1024) if memory else "", output, *command]
    reader, writer = os.pipe()
    told = subprocess.run(words, stdin=reader, stdout=subprocess.PIPE, check=True, **how)
    os.close(reader)
    before = time.monotonic()
    os.close(writer)
    return int(told.stdout), before


def measured(command, output, limit, **how):
    """Runs the command with its output in a file; returns what it took, or None where that was more than so many seconds by the clock."""
    process, before = begun(command, output, **how)
    handle = os.pidfd_open(process)
    try:
        ended, _, _ = select.select([handle], [], [], limit)
        after = time.monotonic()
    except KeyboardInterrupt:
        end(process)
        sys.exit(130)
    finally:
        os.close(handle)
    if not ended:
        end(process)
        return None
    _, status, used = os.wait4(process, 0)
    return Run(used.ru_utime + used.ru_stime, after - before, used.ru_maxrss / 1024, os.waitstatus_to_exitcode(status))


def end(process):
    os.kill(process, signal.SIGKILL)
    os.wait4(process, 0)


def workloads():
    """Of each workload of bench/LIST its bound, the last line of a run, and the number of answers."""
    with open(f"{BENCH}/LIST", encoding="utf-8") as file:
        rows = [line.rstrip("\n").split("\t") for line in file if line.strip() and not line.startswith("#")]
    return {row[0]: (row[1], f"answers {row[2]}, bound reached {row[3]}, inferences {row[4]}", row[2]) for row in rows}


def last_line(path):
    """The last line of a file, of its last 4,096 bytes."""
    with open(path, "rb") as file:
        file.seek(max(0, os.path.getsize(path) - 4096))
        lines = file.read().decode(errors="replace").splitlines()
    return lines[-1] if lines else ""


def machine():
    """The day and the machine, in words."""
    processor = platform.machine()
    with open("/proc/cpuinfo", encoding="utf-8") as file:
        for line in file:
            if line.startswith("model name"):
                processor = line.split(":", 1)[1].strip()
                break
    return f"{time.strftime('%Y-%m-%d')}, {processor}, {os.cpu_count()} processors, load {os.getloadavg()[0]:.1f}"


def block(rows, left=(0,), gap=2):
    """A block of code with these rows in columns, so far apart. Columns with these numbers stand left, as names do, and the others right."""
    widths = [max(map(len, column)) for column in zip(*rows)]
    lines = []
    for row in rows:
        cells = [cell.ljust(width) if at in left else cell.rjust(width) for at, (cell, width) in enumerate(zip(row, widths))]
        lines.append((" " * gap).join(cells).rstrip())
    return ["```", *lines, "```"]


def put(name, script, lines):
    """Puts lines into the page of figures, between the two lines of it that name them and the script."""
    begin, end_line = f"<!-- {name}, by {script} -->\n", f"<!-- end of {name} -->"
    with open(PAGE, encoding="utf-8") as file:
        before, rest = file.read().split(begin, 1)
    after = rest.split(end_line, 1)[1]
    with open(PAGE, "w", encoding="utf-8") as file:
        file.write(before + begin + "\n".join(["", *lines, "", ""]) + end_line + after)
