"""Runs of the rows of programs, recorded, so that a test can make each of them once more in other ways."""
import os
import subprocess

HERE = os.path.dirname(os.path.abspath(__file__))


class Recording:
    """A run of a row: its words, its standard input, and the folder that it ran in."""

    def __init__(self, folder):
        with open(f"{folder}/words", "rb") as file:
            self.words = [os.fsdecode(word) for word in file.read().split(b"\0")[:-1]]
        with open(f"{folder}/stdin", "rb") as file:
            self.stdin = file.read()
        self.files = f"{folder}/files"


def record(pawk, folder, left_out):
    """Runs the rows of programs but for those topics, and gives the folders of their runs, which are made in this one."""
    topics = sorted(set(os.listdir(f"{HERE}/programs")) - {"README", "run", *left_out})
    wrapper = f"{folder}/pawk"
    with open(wrapper, "w", encoding="ascii") as file:
        file.write(f"""#!/bin/sh
run=$(mktemp -d {folder}/run.XXXXXX)
printf '%s\\0' "$@" >$run/words
cp -r . $run/files
cat >$run/stdin
exec {pawk} "$@" <$run/stdin
""")
    os.chmod(wrapper, 0o755)
    subprocess.run([f"{HERE}/programs/run", *topics], env=dict(os.environ, PAWK=wrapper),
                   stdout=subprocess.DEVNULL, stderr=subprocess.DEVNULL, check=False)
    return sorted(f"{folder}/{name}" for name in os.listdir(folder) if name.startswith("run."))


def run(words, stdin=b"", **more):
    """Output, errors and status of a run."""
    done = subprocess.run(words, input=stdin, stdout=subprocess.PIPE, stderr=subprocess.PIPE, timeout=120, **more)
    return done.stdout, done.stderr, done.returncode
