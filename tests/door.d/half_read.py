"""Runs a command with a job on standard input of which the first read gets all and the second fails: half_read.py COMMAND..

A terminal's other side reads so when the terminal is closed. Ends with the command's exit status.
"""
import os
import pty
import subprocess
import sys
import tty

reading, writing = pty.openpty()
tty.setraw(writing)
os.write(writing, b"G1 X5 Y5 F600\n")
os.close(writing)
sys.exit(subprocess.run(sys.argv[1:], stdin=reading, timeout=30).returncode)
