"""Runs of davreplay, and what they take. What the tests share is found beside them."""
import fcntl
import os
import shutil
import subprocess
import sys
import termios
import time

sys.path.insert(1, os.path.join(os.path.dirname(os.path.abspath(__file__)), "..", "tests"))
from programs import memory_of


def seconds_of(child):
    """The processor seconds of a program that ends."""
    _, status, usage = os.wait4(child.pid, 0)
    child.returncode = os.waitstatus_to_exitcode(status)
    if child.returncode != 0:
        sys.exit(f"{child.args[0]}: status {child.returncode}")
    return usage.ru_utime + usage.ru_stime


def run(program, lines, output):
    with open(lines, "rb") as file:
        return seconds_of(subprocess.Popen([program, "1"], stdin=file, stdout=output)), 0


def run_piped(program, lines, output):
    """The seconds, and the peak memory in kilobytes, which is read before the program is told of the end of its input."""
    reader, writer = os.pipe()
    child = subprocess.Popen([program, "1"], stdin=reader, stdout=output)
    with open(lines, "rb") as file, open(writer, "wb") as pipe:
        shutil.copyfileobj(file, pipe)
        pipe.flush()
        while any(fcntl.ioctl(reader, termios.FIONREAD, bytes(4))):
            time.sleep(0.001)
        os.close(reader)
        peak = memory_of(child.pid)
    return seconds_of(child), peak

