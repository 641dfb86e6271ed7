"""Words: how bytes, files and ranges are written where people read and write them."""
import re


class WordError(Exception):
    """Words that say nothing the tool knows."""


def bytes_of(word):
    """The bytes of a word: `-` none, `0x..` those in hex, any other its own."""
    if word == "-":
        return b""
    if word.startswith("0x"):
        try:
            return bytes.fromhex(word[2:])
        except ValueError:
            raise WordError(f"{word} isn't hex") from None
    return word.encode()


def word_of(data):
    """The word of bytes, which `bytes_of` reads again."""
    if not data:
        return "-"
    if re.fullmatch(rb"[!-~]+", data) and not data.startswith((b"0x", b"#", b"!")) and data != b"-":
        return data.decode()
    return "0x" + data.hex()


def number_of(word, most=2**64 - 1, least=0):
    try:
        value = int(word)
    except ValueError:
        raise WordError(f"{word} isn't a number") from None
    if not least <= value <= most:
        raise WordError(f"{word} isn't a number from {least} to {most}")
    return value


def fixed_of(word, count):
    """So many bytes of a word: `0x..` those in hex, else a number, big-endian."""
    data = bytes_of(word) if word.startswith("0x") else number_of(word, 2 ** (8 * count) - 1).to_bytes(count, "big")
    if len(data) != count:
        raise WordError(f"{word} isn't {count} bytes")
    return data


def length_of(word):
    """A length; `end` reaches the last byte there is, which protocols spell as 0 or as all ones."""
    return None if word == "end" else number_of(word)


def is_exclusive(word):
    if word not in ("x", "s"):
        raise WordError(f"{word} is neither x, exclusive, nor s, shared")
    return word == "x"


def mode_word(exclusive):
    return "x" if exclusive else "s"


def rights_of(word, letters="rw"):
    """The set of letters of a word, `-` for none."""
    rights = set() if word == "-" else set(word)
    if not rights <= set(letters) or (word != "-" and len(rights) != len(word)):
        raise WordError(f"{word} has other letters than those of {letters}")
    return rights


def rights_word(rights, letters="rw"):
    return "".join(letter for letter in letters if letter in rights) or "-"


def bytes_in_words(first, last):
    """A range by its first and last byte; the last is None where no byte is the last."""
    if last is None:
        return f"bytes {first} to the end"
    return f"byte {first}" if first == last else f"bytes {first} to {last}"


class Usage:
    """How a word is used: `CALLER FILE [DENY] [reclaim] [oh=NAME]` wants two words, takes a third, and knows a flag and
    an option. A word in small letters that stands in no brackets, as `x|s`, is wanted too."""

    def __init__(self, name, text):
        self.name, self.text = name, text
        self.wanted, self.most, self.flags, self.options = 0, 0, set(), set()
        for word in text.split():
            inner = word.strip("[]")
            if not word.startswith("["):
                self.wanted += 1
                self.most += 1
            elif "=" in inner:
                self.options.add(inner.split("=")[0])
            elif inner.isupper():
                self.most += 1
            else:
                self.flags.add(inner)

    def read(self, given):
        """The words by position, the flags and the options of what is given. WordError where it isn't used so."""
        positions, flags, options = [], set(), {}
        for word in given:
            key, mark, value = word.partition("=")
            if mark and key in self.options and key not in options:
                options[key] = value
            elif word in self.flags and len(positions) >= self.wanted:
                flags.add(word)
            else:
                positions.append(word)
        if not self.wanted <= len(positions) <= self.most:
            raise WordError(f"usage: {self.name} {self.text}".rstrip())
        return positions, flags, options


class Files:
    """Exported files, by name and by number from 1, and the handles by which calls name them: `XLK1` and a number of
    four bytes, 0 for the root."""

    MARK = b"XLK1"

    def __init__(self, names=()):
        self.names = list(names)

    def number(self, name):
        """The number of a file, which is exported where it wasn't yet."""
        if name not in self.names:
            if not re.fullmatch(r"[a-z0-9._-]{1,64}", name):
                raise WordError(f"{name} can't be a file's name: small letters, digits, '.', '_' and '-', 64 at most")
            self.names.append(name)
        return self.names.index(name) + 1

    def handle(self, word):
        """The handle of a file's name, of `/`, the root, or the bytes of `0x..`."""
        if word.startswith("0x"):
            return bytes_of(word)
        number = 0 if word == "/" else self.number(word)
        return self.MARK + number.to_bytes(4, "big")

    def word(self, handle):
        """The word of a handle, which `handle` reads again."""
        if len(handle) == 8 and handle[:4] == self.MARK:
            number = int.from_bytes(handle[4:], "big")
            if number == 0:
                return "/"
            if number <= len(self.names):
                return self.names[number - 1]
        return "0x" + handle.hex()
