"""Runs a command over a case, in a folder of its own, and keeps what it said and left."""
import os
import shlex
import subprocess
import tempfile


class Said:
    """What a program said in each run of a case, its statuses, and the table files that it left."""

    def __init__(self, outputs, files):
        self.outputs, self.files = outputs, files

    def is_same(self, other, files):
        return self.outputs == other.outputs and (not files or self.files == other.files)


def is_table(name):
    return name.endswith(".tbl")


def run_case(command, case, seconds):
    """Runs a command over a case, in a folder of its own."""
    outputs = []
    with tempfile.TemporaryDirectory(prefix="conform-") as folder:
        tables = f"{folder}/tables"
        if case.files:
            os.mkdir(tables)
        for name, data in case.files.items():
            with open(f"{tables}/{name}", "wb") as it:
                it.write(data)
        for given in case.inputs():
            try:
                ran = subprocess.run([*command, "run"], cwd=folder, input=given, stdout=subprocess.PIPE, stderr=subprocess.DEVNULL, timeout=seconds)
                outputs.append((ran.stdout, ran.returncode))
            except subprocess.TimeoutExpired:
                outputs.append((b"", f"none after {seconds} seconds"))
        files = {}
        for name in filter(is_table, os.listdir(tables) if os.path.isdir(tables) else []):
            with open(f"{tables}/{name}", "rb") as it:
                files[name] = it.read()
    return Said(outputs, files)


def command_of(text):
    """The words of a command; a path that begins here means the same in another folder."""
    words = shlex.split(text)
    return [os.path.abspath(it) if "/" in it and os.path.exists(it) else it for it in words]
