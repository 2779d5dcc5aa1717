"""The words of the command lines of the tools: their page is what `--help` prints, and a wrong word gets one line."""
import argparse
import sys
from contextlib import nullcontext
from dataclasses import dataclass
from pathlib import Path

import program
from endings import UsageFault

IMAGE = b"CLRHEAP"


class Parser(argparse.ArgumentParser):
    """A parser that is given a tool's name and page, and ends with no usage but a fault of one line."""

    def __init__(self, name, page):
        super().__init__(prog=name, description=page, formatter_class=argparse.RawDescriptionHelpFormatter)

    def error(self, message):
        raise UsageFault(message)


@dataclass
class Words:
    """A program, a script or an image, and the options with which the program is to run or to open it."""

    program: str
    script: str
    options: list
    image: bool = False

    def open(self):
        """The script or image, open for reading bytes."""
        return nullcontext(sys.stdin.buffer) if self.script == "-" else open(self.script, "rb")


def read_words(name, page, arguments=None, standard_input=True, images=False):
    """The words `[--program PROGRAM] SCRIPT [OPTION..]`. Without options those of the `.words` file beside the script
    are taken. Where a tool takes images, `--image FILE [OPTION..]` may stand in the place of a script."""
    parser = Parser(name, page)
    program.add_option(parser)
    if images:
        parser.add_argument("--image", action="store_true", help="SCRIPT is an image, and is opened")
    parser.add_argument("script", metavar="SCRIPT", help="a script" + (", or - for standard input" * standard_input))
    options = parser.add_argument("options", nargs=argparse.REMAINDER, metavar="OPTION", help="as of `clrheap run`")
    options.required = False
    words = parser.parse_args(arguments)
    image = images and words.image
    check_words(words, image, standard_input and not image)
    if images and not image and is_image(words.script):
        raise UsageFault(f"{words.script} is an image: --image stands before it")
    path = program.find_program(name, words.program)
    return Words(path, words.script, words.options or ([] if image else options_beside(words.script)), image)


def check_words(words, image, standard_input):
    """What is wrong is told before anything is run."""
    what, command = ("image", "open") if image else ("script", "run")
    if words.script == "-" and not standard_input:
        raise UsageFault(f"the {what} is a file: standard input has the questions")
    if words.options and not words.options[0].startswith("-"):
        raise UsageFault(f"{words.options[0]} is no option of `clrheap {command}`; --program names the program")
    if words.script != "-":
        with open(words.script, "rb"):
            pass


def is_image(path):
    """Whether a file begins as an image does."""
    if path == "-":
        return False
    with open(path, "rb") as file:
        return file.read(len(IMAGE)) == IMAGE


def options_beside(script):
    """The options in the `.words` file beside a script, which begins with the word `run`."""
    path = Path(script).with_suffix(".words")
    return path.read_text(encoding="ascii").split()[1:] if script != "-" and path.is_file() else []
