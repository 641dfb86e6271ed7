"""The files and directories of another server, as a recorded session names them, and ours in their place: each file is an
exported one, each directory the root."""
import re

from xlock.words import Files

MOST_FILES = 1024
ROOT = Files.MARK + bytes(4)
PROPER = re.compile(r"[a-z0-9._-]{1,64}")


class Thing:
    """A file or a directory."""

    def __init__(self, parent=None, name=None, handle=None):
        self.parent, self.name, self.handle = parent, name, handle
        self.is_directory = None
        """None while nothing tells."""
        self.exists = False
        self.is_of_share = False
        """Whether SMB names it."""
        self.number = 0
        """Of the exported file, 0 where it is none."""
        self.same = None
        """The thing that it turned out to be."""

    def __str__(self):
        if self.handle is not None:
            return f"the handle {self.handle.hex() or '-'}"
        names, thing = [], self
        while thing is not None and thing.name is not None:
            names.append(thing.name if isinstance(thing.name, str) else "0x" + thing.name.hex())
            thing = thing.parent
        return ("\\" if any("\\" in name for name in names) else "/").join(reversed(names))


class Things:
    """What is known of them: by handle, and by name in a directory."""

    def __init__(self):
        self.all, self.by_handle, self.by_name = [], {}, {}
        self.files = Files()
        self.shares = {}
        """The path of each tree connect of SMB, by its session and its number."""
        self.states = {}
        """What each stateid of NFSv4 was first given for."""
        self.root = self._add(Thing())
        self.root.is_directory = True

    def _add(self, thing):
        self.all.append(thing)
        return thing

    def find(self, thing):
        while thing.same:
            thing = thing.same
        return thing

    def of_handle(self, handle):
        if handle not in self.by_handle:
            self.by_handle[handle] = self._add(Thing(handle=handle))
        return self.find(self.by_handle[handle])

    def child(self, parent, name):
        """What has this name in a directory, whether or not there is such a thing."""
        key = parent, name
        if key not in self.by_name:
            self.by_name[key] = self._add(Thing(parent, name))
        return self.find(self.by_name[key])

    def parent_of(self, thing):
        """The directory of a thing; where it isn't known, one of which nothing is known."""
        parent = self.find(thing.parent) if thing.parent else self.child(thing, "..")
        parent.is_directory = True
        return parent

    def has_handle(self, thing, handle):
        """A reply told a thing's handle."""
        other = self.by_handle.setdefault(handle, thing)
        other = self.find(other)
        thing.exists = other.exists = True
        if other is not thing:
            self._join(other, thing)
        elif thing.handle is None:
            thing.handle = handle

    def has_state(self, thing, other):
        """A stateid stands for a thing, which is that for which it was given."""
        known = self.find(self.states.setdefault(other, thing))
        if known is not thing:
            self._join(known, thing)

    def _join(self, one, other):
        """Two turned out to be one: the first that was named stays."""
        if other is self.root or (one is not self.root and self.all.index(other) < self.all.index(one)):
            one, other = other, one
        other.same = one
        one.exists = one.exists or other.exists
        one.handle = one.handle if one.handle is not None else other.handle
        if one.name is None and one is not self.root:
            one.name, one.parent = other.name, other.parent
        if one.is_directory is None:
            one.is_directory = other.is_directory
        for (parent, name), child in list(self.by_name.items()) if one.is_directory is not False else []:
            if parent is other:
                known = self.by_name.setdefault((one, name), child)
                if self.find(known) is not self.find(child):
                    self._join(self.find(known), self.find(child))

    def join_names(self):
        """What SMB names is what others name alike, where there is one such thing on either side."""
        sides = {True: {}, False: {}}
        for thing in self.all:
            if thing.exists and not thing.same and not thing.is_directory and isinstance(thing.name, str):
                sides[thing.is_of_share].setdefault(thing.name.lower(), []).append(thing)
        for name, ones in sides[True].items():
            others = sides[False].get(name, [])
            if len(ones) == len(others) == 1:
                self._join(others[0], ones[0])

    def export(self):
        """Numbers and names the files that there are, in order of appearance. A name that no exported file can have, or that
        another has, becomes f and the number."""
        for thing in self.all:
            if thing.same or thing.is_directory or not thing.exists:
                continue
            thing.number = len(self.files.names) + 1
            name = thing.name if isinstance(thing.name, str) else ""
            if not PROPER.fullmatch(name) or name in self.files.names:
                name = f"f{thing.number}"
            while name in self.files.names:
                name += "-"
            self.files.number(name)
        return len(self.files.names) <= MOST_FILES

    def name_of(self, thing):
        """Our name of a thing; one that isn't there has a name that no exported file has."""
        if thing.number:
            return self.files.names[thing.number - 1]
        name = thing.name if isinstance(thing.name, str) else "nothing"
        while name in self.files.names:
            name += "-"
        return name

    def handle_of(self, thing):
        """Our handle of a thing; the other server's where it is none of ours."""
        if thing.is_directory:
            return ROOT
        if thing.number:
            return Files.MARK + thing.number.to_bytes(4, "big")
        return thing.handle if thing.handle is not None else b""

    def ours(self, handle):
        """Our handle of what a call named, any other as it is."""
        return self.handle_of(self.of_handle(handle)) if handle in self.by_handle else handle

    def table(self):
        """What each exported file is."""
        numbered = [thing for thing in self.all if thing.number]
        return [f"{self.files.names[thing.number - 1]} is {thing}" for thing in numbered]
