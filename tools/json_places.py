"""JSON texts as values with the place of each, read as the program reads them.

`read(data)` gives the value of bytes, or raises `NotJson` with the place at which no reading goes on. Of a
text that is read: an object has its last member under each key; a number with a point, an exponent or the
sign of `-0` is a float.
"""
import re

DEEPEST = 127  # levels of lists and objects
BLANKS = re.compile(r"[ \t\n\r]*")
NUMBER = re.compile(r"(-?)(0|[1-9][0-9]*)(\.[0-9]+)?([eE][+-]?[0-9]+)?")
PLAIN = re.compile(r'[^"\\\x00-\x1f]*')
WORDS = {"true": True, "false": False, "null": None}
ESCAPES = {'"': '"', "\\": "\\", "/": "/", "b": "\b", "f": "\f", "n": "\n", "r": "\r", "t": "\t"}


class NotJson(Exception):
    """No value can be read: `at` is a place in the text, or in the bytes where they are no text."""

    def __init__(self, at, why):
        super().__init__(why)
        self.at = at
        self.why = why


class Value:
    """A value that stands at a place: a text, number, mark or null, a list of values, or an object.

    An object is a dict from keys to values, and `keys` has the place of each key.
    """

    def __init__(self, at, it, keys=None):
        self.at = at
        self.it = it
        self.keys = keys


class Reader:
    def __init__(self, text):
        self.text = text
        self.at = 0
        self.level = 0

    def skip(self):
        self.at = BLANKS.match(self.text, self.at).end()

    def next(self):
        """The next sign behind blanks, or an empty text at the end."""
        self.skip()
        return self.text[self.at : self.at + 1]

    def fail(self, expected):
        found = self.next()
        raise NotJson(self.at, f"expected {expected}, found {repr(found) if found else 'the end'}")

    def take(self, sign, expected):
        if self.next() != sign:
            self.fail(expected)
        self.at += 1

    def value(self):
        """The value that begins here."""
        sign = self.next()
        at = self.at
        if sign == "{":
            return self.inside(self.object)
        if sign == "[":
            return self.inside(self.list)
        if sign == '"':
            return Value(at, self.string())
        if sign == "-" or sign.isdigit():
            return Value(at, self.number())
        for word, it in WORDS.items():
            if self.text.startswith(word, at):
                self.at += len(word)
                return Value(at, it)
        return self.fail("a value")

    def inside(self, read):
        """What `read` gives of a list or an object, one level further in."""
        if self.level == DEEPEST:
            raise NotJson(self.at, f"more than {DEEPEST} levels of lists and objects")
        self.level += 1
        value = read()
        self.level -= 1
        return value

    def list(self):
        value = Value(self.at, [])
        self.at += 1
        while self.next() != "]":
            if value.it:
                self.take(",", "`,` or `]`")
            value.it.append(self.value())
        self.at += 1
        return value

    def object(self):
        value = Value(self.at, {}, {})
        self.at += 1
        while self.next() != "}":
            if value.it:
                self.take(",", "`,` or `}`")
            if self.next() != '"':
                self.fail("a key")
            at, key = self.at, self.string()
            self.take(":", "`:`")
            value.it[key] = self.value()
            value.keys[key] = at
        self.at += 1
        return value

    def string(self):
        begin = self.at
        self.at += 1
        parts = []
        while True:
            plain = PLAIN.match(self.text, self.at)
            parts.append(plain.group())
            self.at = plain.end()
            sign = self.text[self.at : self.at + 1]
            if sign == '"':
                self.at += 1
                return "".join(parts)
            if sign == "":
                raise NotJson(begin, "a text that has no end")
            if sign != "\\":
                raise NotJson(self.at, "a control character in a text")
            parts.append(self.escape())

    def escape(self):
        letter = self.text[self.at + 1 : self.at + 2]
        if letter in ESCAPES and letter:
            self.at += 2
            return ESCAPES[letter]
        if letter != "u":
            raise NotJson(self.at, "an escape that there is not")
        begin, unit = self.at, self.unit()
        if 0xD800 <= unit < 0xDC00 and self.text.startswith("\\u", self.at):
            low = self.unit()
            if 0xDC00 <= low < 0xE000:
                return chr(0x10000 + ((unit - 0xD800) << 10) + low - 0xDC00)
        if 0xD800 <= unit < 0xE000:
            raise NotJson(begin, "one half of a surrogate pair")
        return chr(unit)

    def unit(self):
        digits = self.text[self.at + 2 : self.at + 6]
        if not re.fullmatch("[0-9a-fA-F]{4}", digits):
            raise NotJson(self.at, "an escape without four hexadecimal digits")
        self.at += 6
        return int(digits, 16)

    def number(self):
        found = NUMBER.match(self.text, self.at)
        if not found:
            raise NotJson(self.at, "a number without digits")
        begin, self.at = self.at, found.end()
        sign, digits, *rest = found.groups()
        if not any(rest) and (sign, digits) != ("-", "0") and len(digits) <= 20:
            return int(found.group())
        if float(found.group()) in (float("inf"), float("-inf")):
            raise NotJson(begin, "a number that is too large")
        return float(found.group())


def read(data):
    """The text of the bytes, and the value that it is."""
    try:
        text = data.decode("utf-8")
    except UnicodeDecodeError as error:
        raise NotJson(len(data[: error.start].decode("utf-8")), "bytes that are no UTF-8") from None
    reader = Reader(text)
    value = reader.value()
    if reader.next():
        reader.fail("the end")
    return text, value
