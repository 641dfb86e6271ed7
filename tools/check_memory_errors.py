#!/usr/bin/env python3
"""Checks that no function says that memory ran out unless a call that it made said so.

    python3 tools/check_memory_errors.py

looks at each place in the crates' sources, except the tests, that makes such an error (`AllocError`, a `NoMemory`): it has
to be the conversion of one, or stand where a call gave an error that can only be of memory, by what the call's result says
or by the list of the library's below. Other places are in SHORT_LIST with a reason. It prints each place that is neither,
and each entry of that list that is needed no more, and nothing if all is well; the exit status is 1 if something isn't.
"""
import argparse
import re
import sys
from pathlib import Path

from xlock.sources import without_texts

MADE = re.compile(r"\bErr\(AllocError\)|\b\w+::NoMemory\b")
OF_MEMORY = re.compile(r"NoMemory|OutOfMemory|Alloc(?:Error|Failed)")

LIBRARY = {"push", "insert", "reserve", "extend_from_slice", "with_capacity", "from_slice"}
"""Calls of the library that fail for want of memory alone."""

SHORT_LIST = {
    ("xl_base", "store"): "the push is that of a list",
    ("xl_capture", "add"): "the push is that of a list",
    ("xl_front_nfs", "enter"): "the row is added to clients of NFSv4",
    ("xl_house", "raise"): "the start is that of a grace",
    ("xl_nfs_state", "enter"): "the insert is that of a map",
    ("xl_replay", "ended_in"): "the house is spoiled, which it is for want of memory alone",
    ("xl_replay", "step_run"): "there is no room for the desk",
    ("xl_serve", "serve_desk"): "the same",
    ("xl_work", "check"): "the machine is halted: the look behind that fails for memory alone",
    ("xl_work", "enter"): "the same behind a call that was refused",
    ("xl_work", "enter_tick"): "the same of the clock's reading",
    ("xl_work", "turn"): "the outcome of a call without an answer, none of a caller that had no memory",
}
"""By crate and function why an error of memory may be made there though the name of the call, or its error, tells more."""


def head_before(text, brace):
    """What stands before a brace that opens, from the end of the statement before it on, and where that is."""
    depth, at = 0, brace - 1
    while at >= 0:
        letter = text[at]
        if depth == 0 and letter in ";{}":
            break
        depth += (letter in ")}]") - (letter in "({[")
        if depth < 0:
            break
        at -= 1
    return text[at + 1 : brace], at + 1


def opener_of(text, at):
    """The innermost brace that is open at this place; -1 if none is."""
    depth = 0
    for place in range(at - 1, -1, -1):
        depth += (text[place] == "}") - (text[place] == "{")
        if depth < 0:
            return place
    return -1


def without_arguments(text):
    """The text without what stands between parentheses, brackets and braces."""
    while (shorter := re.sub(r"\([^()]*\)|\[[^\[\]]*\]|\{[^{}]*\}", "", text)) != text:
        text = shorter
    return text


def calls_of(expression, body):
    """The names of the functions whose results the expression is; those of a variable are its definition's."""
    expression = expression.strip()
    if expression.startswith("(") and expression.endswith(")"):
        inner = re.sub(r"\(([^()]*)\)", "", expression[1:-1])
        return [name for part in inner.split(",") for name in calls_of(part, body)]
    flat = without_arguments(expression).strip()
    name = re.split(r"\.|::", flat.removesuffix("?"))[-1].strip()
    defined = re.findall(rf"\blet {re.escape(name)} =([^;]*);", body) if re.fullmatch(r"\w+", flat) else []
    return calls_of(defined[-1], "") if defined else [name]


def errors_of_memory(sources):
    """The types of errors that can only be of memory: those of the library, and each that has no other variant."""
    types = {"AllocError", "AllocFailed"}
    for text in sources:
        for name, variants in re.findall(r"\benum (\w+)[^{};]*\{([^{}]*)\}", text):
            if re.sub(r"#\[[^\]]*\]|\s", "", variants) == "NoMemory,":
                types.add(name)
    return types


def errors_by_function(sources):
    """By the name of each function that gives a result which errors it may give."""
    errors = {}
    for text in sources:
        for found in re.finditer(r"\bfn (\w+)[^;{]*?->\s*Result<", text):
            depth, at, last = 1, found.end(), found.end()
            while depth:
                letter = text[at]
                depth += (letter == "<" or letter in "([") - (letter == ">" and text[at - 1] != "-" or letter in ")]")
                if letter == "," and depth == 1:
                    last = at + 1
                at += 1
            errors.setdefault(found[1], set()).add(text[last : at - 1].strip(" ,\n"))
    return errors


class Place:
    """A place where an error of memory stands, within its function."""

    def __init__(self, text, found):
        self.text, self.found = text, found
        heads = list(re.finditer(r"\bfn (\w+)", text[: found.start()]))
        self.function = heads[-1][1] if heads else ""
        self.begin = heads[-1].start() if heads else 0
        self.line = text[: found.start()].count("\n") + 1

    def is_pattern(self):
        line_end = self.text.find("\n", self.found.end())
        behind = self.text[self.found.end() : line_end]
        before = self.text[self.text.rfind("\n", 0, self.found.start()) + 1 : self.found.start()]
        is_bound = re.search(r"\blet [^=]*$", before) and re.match(r"\)* = ", behind)
        return bool(re.match(r"[^=;{}]*=>", behind) or "matches!(" in before or is_bound)

    def causes(self):
        """What the error comes from: patterns that name one, a signature, or the names of calls that failed."""
        at = self.found.start()
        line = self.text[self.text.rfind("\n", 0, at) + 1 : at]
        if "=>" in line and OF_MEMORY.search(line.rpartition("=>")[0]):
            return [line.rpartition("=>")[0].strip()], []
        while (brace := opener_of(self.text, at)) > self.begin:
            head, begin = head_before(self.text, brace)
            body = self.text[self.begin : begin]
            if pattern := re.search(r"([^,]*)=>\s*$", head):
                if OF_MEMORY.search(pattern[1]):
                    return [pattern[1].strip()], []
            elif tested := re.search(r"\bif (.*)\.is_err\(\)\s*$", head, re.S):
                return [], calls_of(tested[1], body)
            elif refused := re.search(r"\blet .*? = (.*) else\s*$", head, re.S):
                return [], calls_of(refused[1], body)
            elif matched := re.search(r"\bmatch (.*)$", head, re.S):
                return [], calls_of(matched[1], body)
            elif re.search(r"\bfn \w+", head):
                break
            at = brace
        signature = self.text[self.begin : self.text.find("{", self.begin)]
        return ([signature] if re.search(r"fn from\(_\w*: Alloc", signature) else []), []


def faults(root):
    """Each place that makes an error of memory by itself."""
    folders = [folder for folder in sorted(Path(root).glob("crates/*/src")) if not folder.parent.name.startswith("xl_tests_")]
    texts = {file: without_texts(file.read_text()) for folder in folders for file in sorted(folder.glob("**/*.rt"))}
    errors, of_memory, needed = errors_by_function(texts.values()), errors_of_memory(texts.values()), set()
    for file, text in texts.items():
        crate = file.relative_to(Path(root) / "crates").parts[0]
        for found in MADE.finditer(text):
            place = Place(text, found)
            if place.is_pattern():
                continue
            named, calls = place.causes()
            kinds = [{re.match(r"\w*", kind)[0] for kind in errors[name]} if name in errors else set() for name in calls]
            is_below = calls and all(of <= of_memory and (of or name in LIBRARY) for name, of in zip(calls, kinds))
            if named or is_below:
                continue
            needed.add((crate, place.function))
            if (crate, place.function) not in SHORT_LIST:
                by = ", ".join(calls) or "nothing"
                yield f"crates/{crate}/src/{file.name}:{place.line}: {place.function} says that memory ran out, by {by}"
    for crate, function in sorted(set(SHORT_LIST) - needed):
        yield f"tools/check_memory_errors.py: {function} of {crate} is in the short list, and needn't be"


def main():
    form = argparse.RawDescriptionHelpFormatter
    parser = argparse.ArgumentParser(description=__doc__, formatter_class=form)
    root = Path(__file__).resolve().parent.parent
    parser.add_argument("root", nargs="?", default=root, metavar="FOLDER", help="the repository; this one without it")
    found = list(faults(parser.parse_args().root))
    for line in found:
        print(line)
    sys.exit(1 if found else 0)


if __name__ == "__main__":
    main()
