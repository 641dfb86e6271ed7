"""Scenarios: cases, one behind the other, of which each is replayed from the beginning.

A case is a line `== HEAD` and its text, which ends before the line feed that the next such line follows, or that ends the
file. What stands before the first case is a comment. In a file NAME.words the head is the case's name, and the text its
words; in a file NAME.cases the text is read as it stands, and behind the name the head has which read and which write of the
program fails, 0 where none does, and the program's words.
"""
from capture_from_words import capture_of
from transcript_in_words import in_words
from xlock.words import WordError

MARK = "\n== "
REPLAY = "0 0 xlockd replay"


def text_of(path):
    """A file's text with its line ends as they stand."""
    return path.read_bytes().decode()


def cases_of(text):
    """The heads of a file's cases with their texts."""
    _, *cases = ("\n" + text.removesuffix("\n")).split(MARK)
    for case in cases:
        head, _, text = case.partition("\n")
        yield head, text


def joined(cases):
    return "".join(f"== {head}\n{text}\n" for head, text in cases)


def replayed_of(path):
    """The cases that the replay reads of a file of scenarios."""
    for head, text in cases_of(text_of(path)):
        try:
            yield (f"{head} {REPLAY}", capture_of(text)) if path.suffix == ".words" else (head, text)
        except WordError as error:
            raise WordError(f"{path.name}, {head}: {error}") from None


def files_of(folder):
    return sorted([*folder.glob("*.words"), *folder.glob("*.cases")])


def read_of(folder):
    """All that the replay reads."""
    return joined(case for path in files_of(folder) for case in replayed_of(path))


def said_of(path, told):
    """What the cases of a file of words come to, in words, by what the replay told of each."""
    for head, capture in replayed_of(path):
        name = head.split(" ")[0]
        _, _, transcript = told[name].partition("\n")
        yield name, "".join(line + "\n" for line in in_words(capture, transcript))
