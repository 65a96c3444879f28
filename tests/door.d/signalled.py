"""Starts a command, gives it a signal and sees that it ends by it: signalled.py SIGNAL PID_FILE COMMAND..

The signal comes when PID_FILE is there, which has the number of a process that must be gone then too. Standard input stays open, and empty.
"""
import os
import pathlib
import signal
import subprocess
import sys
import time

number = getattr(signal, "SIG" + sys.argv[1])
pid_file = pathlib.Path(sys.argv[2])


def wait_for(test, seconds=10):
    end = time.monotonic() + seconds
    while not test():
        if time.monotonic() > end:
            sys.exit(f"signalled: waited {seconds} seconds for nothing")
        time.sleep(0.02)


def is_gone(pid):
    try:
        os.kill(pid, 0)
    except ProcessLookupError:
        return True
    return False


# where the tests run in the background, or under nohup, the signal is ignored from the start
started = subprocess.Popen(sys.argv[3:], stdin=subprocess.PIPE, preexec_fn=lambda: signal.signal(number, signal.SIG_DFL))
wait_for(lambda: pid_file.exists() and pid_file.read_text().endswith("\n"))
time.sleep(0.3)
started.send_signal(number)
try:
    status = started.wait(timeout=5)
except subprocess.TimeoutExpired:
    started.kill()
    sys.exit("signalled: it did not end")
pid = int(pid_file.read_text())
wait_for(lambda: is_gone(pid), 2)
sys.exit(status != -number)
