#!/usr/bin/env python3
"""test_values: the manners of tools/values. It lists a model from a file, a pipe and standard input, through a link and from any folder; a
refusal ends with status 1, its line on standard output and a sentence on standard error; a program that is missing is built again, each
crate is said as it is proved, and a run that is killed while it builds leaves no process, no file and nothing that the next run cannot
use. Wants a checkout that is proved but for the program."""
import os
import shutil
import signal
import struct
import subprocess
import sys
import tempfile
import time
from pathlib import Path

ROOT = Path(__file__).resolve().parent.parent
VALUES = ROOT / "tools/values"
MODEL = ROOT / "examples/model-a.lkh"
LIST = "0 0 25200\n1 0 28800\n2 0 600\n3 1 6\n4 1 28200\n5 2 26\n"


def run(*words, given=b"", values=VALUES, folder=ROOT, room=None):
    environment = dict(os.environ, TMPDIR=str(room)) if room else None
    ended = subprocess.run([values, *words], input=given, capture_output=True, cwd=folder, env=environment, check=False)
    return ended.returncode, ended.stdout.decode(), ended.stderr.decode()


def lists_a_model(room):
    model = MODEL.read_bytes()
    assert run(MODEL) == (0, LIST, ""), run(MODEL)
    assert run("-", given=model) == (0, LIST, "")
    assert run("--", "examples/model-a.lkh") == (0, LIST, "")
    link = room / "values"
    link.symlink_to(VALUES)
    again = room / "again"
    again.symlink_to("values")
    assert run(MODEL, values=again, folder="/") == (0, LIST, "")
    pipe = room / "pipe"
    os.mkfifo(pipe)
    with subprocess.Popen(["cp", str(MODEL), str(pipe)]):
        assert run(pipe) == (0, LIST, "")
    status, listed, _ = run("--reasons", ROOT / "crates/reasons/stdin")
    assert status == 0 and "blank:" in listed


def words_of_the_command(room):
    status, shown, said = run("--help")
    assert status == 0 and shown.startswith("usage: tools/values") and not said
    version = (ROOT / "VERSION").read_text().strip()
    assert run("--version") == (0, f"values {version}\n", "")
    for words in [(), (MODEL, MODEL), ("--none", MODEL), (room / "none",), (room,)]:
        status, shown, said = run(*words)
        assert status == 2 and not shown and said, words


def refusals(room):
    model = MODEL.read_bytes()
    bounded = struct.pack("<4H4L", 2, 1, 0, 0, 28, 32, 32, 40) + struct.pack("<Lllll", 32, 0, 0, 0, 0)[:12]
    for given, line, sentence in [
        (model[:20], "refused 14 20\n", "this is no whole model file"),
        (b"", "refused 14 0\n", "this is no whole model file"),
        (model[:36] + b"\x05" + model[37:], "refused 7 3\n", "starts at another value than 0"),
        (bytes(65537), "refused 1 0\n", "lukhandro_read"),
        (bounded, "refused 14 0\n", "of version 2, with bounds, and lukhandro_read_bounded takes it"),
    ]:
        status, shown, said = run("-", given=given)
        assert (status, shown) == (1, line) and sentence in said, (shown, said)


def of_this_run(room):
    """The processes that have the folder of temporary files of this test in their environment."""
    found = []
    for process in Path("/proc").glob("[0-9]*"):
        try:
            if f"TMPDIR={room}".encode() in (process / "environ").read_bytes().split(b"\0"):
                found.append(int(process.name))
        except OSError:
            pass
    return found


def killed_and_run_again(room):
    program = ROOT / "target/bin/values"

    def forget():
        program.unlink(missing_ok=True)
        shutil.rmtree(ROOT / "crates/values/out", ignore_errors=True)

    for way, after in [(signal.SIGTERM, 2.0), (signal.SIGKILL, 4.0), (signal.SIGINT, 0.2)]:
        forget()
        folder = room / way.name
        folder.mkdir()
        environment = dict(os.environ, TMPDIR=str(folder))
        with subprocess.Popen([VALUES, MODEL], stdout=subprocess.PIPE, stderr=subprocess.PIPE, env=environment) as running:
            time.sleep(after)
            running.send_signal(way)
            running.communicate()
        until = time.monotonic() + 20
        while time.monotonic() < until and (of_this_run(folder) or list(folder.iterdir())):
            time.sleep(0.2)
        assert not of_this_run(folder) and not list(folder.iterdir()), f"{way.name} leaves something behind"
    forget()
    status, shown, said = run(MODEL, room=room)
    assert (status, shown) == (0, LIST), said
    lines = said.split("\n")
    crates = [line for line in lines if " proved (" in line]
    assert crates and crates[-1].startswith(f"values: [{len(crates)}/{len(crates)}] "), said
    assert run(MODEL) == (0, LIST, "")


def main():
    for test in [killed_and_run_again, lists_a_model, words_of_the_command, refusals]:
        with tempfile.TemporaryDirectory() as room:
            test(Path(room))
    print("values: its manners are as they must be")


if __name__ == "__main__":
    sys.exit(main())
