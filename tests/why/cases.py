"""The stored cases: tests/why/cases/NAME.why, each the text of a sheet, as tools/sheet reads it, a line of ==, and the whole output of the program.

    # profile 1: subgroupElect has no operand.
    call subgroupElect 0
    ==
    type 0 bool
    entries 7
    (): chosen

Where the first line begins with a profile, the sheet is run in it, otherwise without an argument. A word of capitals after == stands in the output for a long spelling, which is
given in pieces, one to be repeated after its number:

    == DEEP = ptr<workgroup, + 247 array< + i32 + 247 ,4> + ,read_write>
"""
import importlib.machinery
import importlib.util
import pathlib
import re
import sys

sys.dont_write_bytecode = True
HERE = pathlib.Path(__file__).resolve().parent
ROOT = HERE.parent.parent
FOLDER = HERE / "cases"
ENDING = ".why"
PROFILE = re.compile(r"# profile (\d+):")
DIVIDER = re.compile(r"^==(?: ([A-Z]+) = (.*))?\n", re.MULTILINE)


def load(path):
    """A script as a module."""
    loader = importlib.machinery.SourceFileLoader(pathlib.Path(path).name, str(ROOT / path))
    module = importlib.util.module_from_spec(importlib.util.spec_from_loader(loader.name, loader))
    loader.exec_module(module)
    return module


tool = load("tools/sheet")


def whole(pieces):
    """A long spelling from its pieces."""
    spelling = ""
    for piece in pieces.split(" + "):
        repeated = re.fullmatch(r"(\d+) (.*)", piece)
        spelling += int(repeated[1]) * repeated[2] if repeated else piece
    return spelling


class Case:
    def __init__(self, path):
        self.path, self.name = path, path.stem
        text = path.read_text("ascii")
        self.divider = DIVIDER.search(text)
        if not self.divider:
            raise ValueError(f"{path}: no line of ==")
        self.source, self.short = text[:self.divider.start()], text[self.divider.end():]
        self.sheet = tool.make(self.source.encode("ascii"))
        named = PROFILE.match(self.source)
        self.argument = named and named[1]
        self.profile = int(self.argument or 0)

    def expected(self):
        word, pieces = self.divider.groups()
        return self.short.replace(word, whole(pieces)) if word else self.short

    def store(self, output):
        """Writes the output that is expected."""
        word, pieces = self.divider.groups()
        short = output.replace(whole(pieces), word) if word else output
        self.path.write_text(self.source + self.divider[0] + short, "ascii")


def stored():
    return [Case(path) for path in sorted(FOLDER.glob(f"*{ENDING}"))]
