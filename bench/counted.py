"""Instructions of a command, by callgrind."""
import shutil
import subprocess
import tempfile

there = shutil.which("valgrind") is not None


def instructions(command, stdin=subprocess.DEVNULL):
    with tempfile.NamedTemporaryFile() as counts:
        words = ["valgrind", "--tool=callgrind", f"--callgrind-out-file={counts.name}", *command]
        said = subprocess.run(words, stdin=stdin, stdout=subprocess.DEVNULL, stderr=subprocess.PIPE, check=True).stderr.decode()
    return int(said.rsplit("Collected : ", 1)[1].split()[0])
