"""The commands pack, show, beside and words, their help, and what they say on an error."""
import argparse
import signal
import sys

from . import text
from .beside import beside
from .language import LANGUAGE, word_list
from .line import TextError
from .session import BUFFER, Malformed

STATUS = """\
Status: 0 done; 1 the text or the session file is wrong, and nothing was written; 2 wrong use, or a file can't be
read or written."""


def parser():
    form = {"formatter_class": argparse.RawDescriptionHelpFormatter, "allow_abbrev": False}
    whole = argparse.ArgumentParser(
        prog="session-text",
        description="Session files (document 01) as text that a person writes and reads, and back.",
        epilog=f"{LANGUAGE}\n{STATUS}\n'session-text COMMAND --help' tells more of a command.",
        **form,
    )
    commands = whole.add_subparsers(dest="command", metavar="COMMAND", required=True)
    file = {"nargs": "?", "default": "-", "metavar": "FILE", "help": "- or nothing: standard input"}

    pack = "writes the session file of a text to standard output"
    one = commands.add_parser("pack", help=pack, description=f"{pack}.", epilog=f"{LANGUAGE}\n{STATUS}", **form)
    one.add_argument("file", **file)

    show = "writes the text of a session file to standard output"
    more = (
        "Each session file has one text, and 'pack' makes the same bytes of it again. A step that has no words is\n"
        "shown as 'step KIND A B C'. For a malformed file the error names the offset that document 01 defines.\n\n"
    )
    one = commands.add_parser("show", help=show, description=f"{show}.", epilog=more + STATUS, **form)
    one.add_argument("file", **file)

    both = "writes the lines that the program session printed for a session file, with its steps beside them"
    more = "Where a line is '~', it also says what the gear lacks. A malformed file has no steps, only its one line."
    one = commands.add_parser("beside", help=both, description=f"{both}.", epilog=more, **form)
    one.add_argument("file", metavar="FILE", help="the session file")
    one.add_argument("lines", metavar="LINES", help="what the program printed for it")

    words = "lists every name of a write, a query and a colour value, with its byte and what a value needs of a gear"
    commands.add_parser("words", help=words, description=f"{words}.", **form)
    return whole


class Unread(Exception):
    """A file that can't be read, and why."""


def called(file):
    return "standard input" if file == "-" else file


def content(file, most=-1):
    """What a file holds; 'most' is as many bytes as can matter, -1 for all."""
    try:
        with open(0 if file == "-" else file, "rb", closefd=file != "-") as opened:
            return opened.read(most)
    except OSError as error:
        raise Unread(f"{called(file)} can't be read: {error.strerror}") from None


def made(wanted):
    """What a command writes; all of it is there before a byte is written."""
    if wanted.command == "words":
        return word_list().encode()
    if wanted.command == "pack":
        return text.pack(content(wanted.file))
    if wanted.command == "beside":
        return beside(content(wanted.file, BUFFER), content(wanted.lines)).encode()
    return text.show(content(wanted.file, BUFFER)).encode()


def stop(status, message):
    print(f"session-text: {message}", file=sys.stderr)
    return status


def main():
    signal.signal(signal.SIGPIPE, signal.SIG_DFL)  # a reader that has seen enough, as 'head', is no error
    wanted = parser().parse_args()
    try:
        output = made(wanted)
    except (TextError, Malformed) as error:
        return stop(1, f"{called(wanted.file)}, {error}")
    except Unread as error:
        return stop(2, error)
    try:
        with open(1, "wb", closefd=False) as opened:
            opened.write(output)
    except OSError as error:
        return stop(2, f"standard output can't be written: {error.strerror}")
    return 0
