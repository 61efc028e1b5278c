"""One line of a text, taken word by word, and the error that names the line and the word."""
import difflib
import re

NUMBER = re.compile(r"[0-9]{1,10}|0x[0-9A-Fa-f]{1,8}")


class TextError(Exception):
    """What is wrong with a text, and the number of the line that it is in."""

    def __init__(self, line, message):
        super().__init__(f"line {line}: {message}")


def number_in(word, least, most):
    """The number that a word says, decimal or 0x and hex; None where it is no number from least to most."""
    if not NUMBER.fullmatch(word):
        return None
    value = int(word[2:], 16) if word.startswith("0x") else int(word)
    return value if least <= value <= most else None


def suggestion(word, names):
    """The name that was probably meant, as the end of a message; nothing where none is near."""
    spellings = {name.lower(): name for name in names}
    near = difflib.get_close_matches(word.lower(), spellings, 1, 0.6)
    return f"; perhaps {spellings[near[0]]} is meant" if near else ""


class Line:
    """The words of a line without its comment. 'what' and 'form' say, for an error, what is wanted next."""

    def __init__(self, number, text):
        self.number = number
        self.words = text.split("#", 1)[0].split()
        self.at = 0

    def error(self, message):
        return TextError(self.number, message)

    def refuse(self, word, what, form):
        """The error for a word that is not what is wanted at its place."""
        return self.error(f"'{word}' is not {what}: {form}")

    def next(self):
        """The word that comes next, or an empty one at the end of the line."""
        return self.words[self.at] if self.at < len(self.words) else ""

    def skip(self, word):
        """Whether this word comes next; it is then taken."""
        found = self.next() == word
        self.at += found
        return found

    def take(self, what, form):
        word = self.next()
        if not word:
            raise self.error(f"after '{self.words[-1]}' {what} is wanted: {form}")
        self.at += 1
        return word

    def take_number(self, what, most, least=0, instead=""):
        """A number; 'instead' names what else the error should offer."""
        form = f"a number from {least} to {most}{instead}"
        word = self.take(what, form)
        value = number_in(word, least, most)
        if value is None:
            raise self.refuse(word, what, form)
        return value

    def take_name(self, what, form, names):
        """One of 'names'; the error suggests the nearest."""
        word = self.take(what, form)
        if word not in names:
            raise self.refuse(word, what, form + suggestion(word, names))
        return word

    def end(self):
        word = self.next()
        if word:
            raise self.error(f"'{word}' is a word too many: after '{self.words[self.at - 1]}' the line ends")
