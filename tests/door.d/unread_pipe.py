"""Runs a command on this standard input whose standard output is a pipe that nobody reads: unread_pipe.py COMMAND..

Ends with the command's exit status, and with 128 and more where a signal ended it.
"""
import os
import subprocess
import sys

reading, writing = os.pipe()
os.close(reading)
status = subprocess.run(sys.argv[1:], stdout=writing, timeout=30).returncode
sys.exit(status if status >= 0 else 256 + status)
