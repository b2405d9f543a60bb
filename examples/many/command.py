"""The program `gib` as a command, for scripts that stop where it fails. What is done to files of others, and goes on, is in `gib_work.py`."""

import os
import shlex
import subprocess
import sys
import tempfile

HERE = os.path.dirname(os.path.abspath(__file__))


def gib_words():
    """The words of GIB, or the script at the top of the repository."""
    words = shlex.split(os.environ.get("GIB", "")) or [os.path.join(HERE, "..", "..", "gib")]
    if "/" in words[0]:
        words[0] = os.path.abspath(words[0])
    return tuple(words)


def printed(*words):
    """What gib prints on these words. Where it fails, all ends with its line and status."""
    gib = gib_words()
    try:
        ended = subprocess.run([*gib, *words], capture_output=True, text=True)
    except OSError as error:
        sys.exit(f"{gib[0]} does not start: {error.strerror}")
    if ended.returncode:
        sys.stderr.write(f"{' '.join(words)}: {ended.stderr}")
        sys.exit(ended.returncode)
    return ended.stdout.strip()


def pack(source, text, path):
    """Writes a text as a packed file of the type that the source's main takes."""
    with tempfile.NamedTemporaryFile("w", prefix="gib-many-", encoding="ascii") as file:
        file.write(text + "\n")
        file.flush()
        printed("pack", source, file.name, path)
