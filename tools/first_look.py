#!/usr/bin/env python3
"""Runs eva on the given words before it is proved: `rt try` builds the code with run-time checks in the place of proofs.

Text and status are the program's. Status 70 says that this run gave no answer: rt is missing, the code is refused, a check
failed, or a limit of `rt try` was met (60 seconds, 1 MiB of output).
"""
import os
import subprocess
import sys

TOP = os.path.dirname(os.path.dirname(os.path.abspath(__file__)))
NO_ANSWER = 70
# names that `rt try` keeps for itself
TAKEN = ("program", "stdin", "stdout", "stderr")


def can_keep_its_name(word):
    """Whether a file can be handed in under this name: it lies below the folder, and the name isn't taken."""
    name = os.path.normpath(word)
    return not (os.path.isabs(name) or name.split("/")[0] == ".." or name.startswith(TAKEN) or "=" in name)


def name_for(word, number):
    """A name to hand the file in under, of which the file has no copy in its text, so that the word can be put back."""
    with open(word, "rb") as file:
        text = file.read()
    name = f"input_{number}"
    while name.encode() in text:
        name += "_"
    return name


def stop(why):
    print(f"eva: {why}", file=sys.stderr)
    sys.exit(NO_ANSWER)


def main(words):
    print("eva: this run is not proved; .ci/run proves and builds the program", file=sys.stderr, flush=True)
    flags, arguments, renamed = [], [], {}
    for number, word in enumerate(words):
        given = word
        if os.path.isfile(word) and not word.startswith("-"):
            if not can_keep_its_name(word):
                if not all(" " <= c <= "~" and c != "\\" for c in word):
                    stop(f"an unproved run can't take the name {word!r}: call it from the folder of the file")
                given = name_for(word, number)
                renamed[given] = word
            flags += ["--data", f"{given}={os.path.abspath(word)}"]
        arguments.append(given)
    try:
        ran = subprocess.run(
            ["rt", "try", *flags, "--", *arguments],
            cwd=f"{TOP}/crates/eva_cli",
            stdin=subprocess.DEVNULL,
            stdout=subprocess.PIPE,
            stderr=subprocess.PIPE,
        )
    except OSError:
        stop("rt isn't on the PATH: the Rattle kit is needed to build the program")
    said = ran.stderr.decode(errors="replace")
    if not said.rstrip("\n").rpartition("\n")[2].startswith("run=ended"):
        print(said, end="", file=sys.stderr)
        stop("rt try gave no answer (its limits are 60 seconds and 1 MiB of output)")
    text = ran.stdout
    for name, word in renamed.items():
        text = text.replace(name.encode(), word.encode())
    sys.stdout.buffer.write(text)
    sys.stdout.flush()
    sys.exit(ran.returncode)


if __name__ == "__main__":
    main(sys.argv[1:])
