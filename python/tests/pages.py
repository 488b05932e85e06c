"""The console blocks of the documents, run: what a page shows is what happens. `python3 -m tests.pages --write`, in python/, puts
what happens into the pages."""
from __future__ import annotations

import os
import re
import shlex
import shutil
import subprocess
import sys
import tempfile
from pathlib import Path

from .support import ROOT
from .test_plan import Terminal

PAGES = ["README.md", "docs/DESK.md", "docs/TEXT.md", "docs/WHY.md"]
BLOCK = re.compile(r"^```console\n(.*?)^```$", re.DOTALL | re.MULTILINE)


class Room:
    """A folder in which a page's commands are typed, one after the other: it has the examples, and the tools are on the PATH."""

    def __init__(self) -> None:
        self.folder = Path(tempfile.mkdtemp())
        shutil.copytree(ROOT / "examples", self.folder / "examples")
        (self.folder / "tools").symlink_to(ROOT / "tools")

    def close(self) -> None:
        shutil.rmtree(self.folder)

    def happened(self, block: str) -> str:
        """A block with what happens in place of what it shows."""
        parts = re.split(r"^(?=\$ )", block, flags=re.MULTILINE)
        return "".join(self._command(part) for part in parts if part)

    def _command(self, part: str) -> str:
        line, _, shown = part.partition("\n")
        words = shlex.split(line[2:])
        if len(words) > 1 and words[0].endswith("lukhandro") and words[1] == "plan" and "<" not in words:
            return line + "\n" + self._sitting(words[1:], shown)
        env = dict(os.environ, PATH=f"{ROOT / 'tools'}{os.pathsep}{os.environ['PATH']}", PYTHONDONTWRITEBYTECODE="1", PYTHONIOENCODING="utf-8")
        done = subprocess.run(["bash", "-c", line[2:]], cwd=self.folder, env=env, stdin=subprocess.DEVNULL, stdout=subprocess.PIPE,
                              stderr=subprocess.STDOUT)
        return line + "\n" + done.stdout.decode()

    def _sitting(self, words: list[str], shown: str) -> str:
        """A sitting at the prompt: what the block types behind each prompt is typed at a terminal."""
        prompt = Path(words[1]).stem + "> "
        typed = [line[len(prompt):] for line in shown.split("\n") if line.startswith(prompt)]
        terminal = Terminal(*words, cwd=self.folder, state=self.folder / ".state")
        try:
            seen = terminal.until(prompt)
            for line in typed:
                terminal.type(line + "\n")
                seen += terminal.until(prompt) if line != "quit" else line + "\n"
            if terminal.end() != 0:
                raise AssertionError(f"the sitting ended badly: {seen}")
        finally:
            if terminal.process.poll() is None:
                terminal.process.kill()
        return seen


def happened(page: str) -> str:
    """A page with what happens in its blocks."""
    room = Room()
    try:
        text = (ROOT / page).read_text(encoding="utf8")
        return BLOCK.sub(lambda block: f"```console\n{room.happened(block.group(1))}```", text)
    finally:
        room.close()


if __name__ == "__main__":
    if sys.argv[1:] != ["--write"]:
        sys.exit("usage: python3 -m tests.pages --write")
    for page in PAGES:
        (ROOT / page).write_text(happened(page), encoding="utf8")
