"""Runs a program on a file, and says what processor time and memory it took, or how many instructions."""
import contextlib
import ctypes
import math
import os
import re
import signal
import subprocess
import sys
import tempfile
import threading
from collections import namedtuple

# What it took, in processor seconds or in millions of instructions; the peak of memory in MiB, infinite where it is not known; and
# the exit status, None where the time was out.
Run = namedtuple("Run", "cost memory status")

# The peak of a process that Python starts is never below that of Python. So a shell starts it, which is small, and
# ends; the program waits for that, and is then a child of this process, which adopts what its children leave.
LAUNCH = """
exec 3<&0
(read -r go <&3; ulimit -s "$2"; given=$0; out=$1; shift 2; exec "$@" <"$given" >"$out" 2>/dev/null 3<&-) &
echo $!
"""
# Valgrind's counter, which writes what it counted to the file of its log.
COUNTER = ["valgrind", "--tool=cachegrind", "--cache-sim=no", "--cachegrind-out-file=/dev/null"]
COUNTED = re.compile(r"I +refs: +([0-9,]+)")
PR_SET_CHILD_SUBREAPER = 36


def adopt_orphans():
    """From here on the processes that a child of this one leaves are children of this one."""
    if not sys.platform.startswith("linux"):
        sys.exit("the memory of a program is measured on Linux alone")
    if ctypes.CDLL(None, use_errno=True).prctl(PR_SET_CHILD_SUBREAPER, 1, 0, 0, 0) != 0:
        sys.exit(f"what a shell starts cannot be adopted: {os.strerror(ctypes.get_errno())}")


def end_by_exit():
    """A request to end raises an exception from here on, so that what is running is ended, too."""
    signal.signal(signal.SIGTERM, lambda *_: sys.exit(128 + signal.SIGTERM))


def start(command, given, out, stack):
    """Starts the command within a native stack of that many KiB, and returns its process number."""
    words = ["sh", "-c", LAUNCH, given, out, str(stack), *command]
    with subprocess.Popen(words, stdin=subprocess.PIPE, stdout=subprocess.PIPE) as shell:
        process = int(shell.stdout.readline())
        shell.wait()
        shell.stdin.write(b"go\n")
    return process


def run_once(command, given, out, stack, most):
    """One run of the command, which is ended after that many seconds. Its output goes to the file `out`."""
    process = start(command, given, out, stack)
    is_late = threading.Event()

    def kill():
        with contextlib.suppress(ProcessLookupError):
            os.kill(process, signal.SIGKILL)

    def end():
        is_late.set()
        kill()

    timer = threading.Timer(most, end)
    timer.start()
    try:
        _, status, usage = os.wait4(process, 0)
    except BaseException:
        kill()
        raise
    finally:
        timer.cancel()
    ended = None if is_late.is_set() else os.waitstatus_to_exitcode(status)
    return Run(usage.ru_utime + usage.ru_stime, usage.ru_maxrss / 1024, ended)


def count_once(command, given, out, stack, most):
    """The same under valgrind: the command's instructions are counted. How much memory it took is not found out."""
    with tempfile.NamedTemporaryFile("r", prefix="count-") as log:
        run = run_once([*COUNTER, f"--log-file={log.name}", *command], given, out, stack, most)
        counted = COUNTED.search(log.read())
    cost = int(counted[1].replace(",", "")) / 1e6 if counted else math.inf
    return Run(cost, math.inf, run.status)
