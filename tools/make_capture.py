#!/usr/bin/env python3
"""Makes a capture of random sessions of all three protocols, for long runs and benchmarks.

    python3 tools/make_capture.py SEED COUNT >CAPTURE
    python3 tools/make_capture.py SEED COUNT --into PREFIX

writes a capture (docs/CAPTURE.md) of COUNT events, the same for the same words. Clients of NLM, NFSv4.0 and SMB 2.1 open and
lock, wait and are served or cancelled, have delegations, oplocks and leases, and answer their breaks, or let the deadline pass;
leases of clients end; hosts start anew; connections end with all they have. Many such scenes run at a time, each at a file of
its own, and all clients contend for the ranges of some files. The ids in it are those that the server gives, since these are
counted, so most requests succeed. One event of a hundred is a tick. PERCENT of the events are of hostile peers: bytes that are
no message, cut calls, ids of nobody. With --restarts the server starts again at times, behind at least so many events: a client
reclaims, and then all begin anew.

A replay takes at most 1,048,576 events, and a capture 268,435,456 bytes. --into writes the files PREFIX1.capture,
PREFIX2.capture, .., each a session of its own with at most so many events as --each says. Lines are written as they are made.
"""
import argparse
import sys

from xlock import scenes
from xlock.world import FILES, LEASE, Full, World

MOST_EVENTS, MOST_BYTES = 1_048_576, 268_435_456
# How many scenes run at a time, and the parts of a hundred events that are ticks and that are on shared files.
RUNNING, TICKS, SHARED = 24, 1, 30


class Show:
    """The random course of a capture."""

    def __init__(self, world, hostile, restarts):
        self.world, self.hostile, self.restarts = world, hostile, restarts
        self.begin()

    def begin(self):
        self.stage, self.running, self.begun = scenes.Stage(self.world, FILES), [], self.world.place

    def event(self):
        """One event more, or some."""
        if self.restarts and self.world.place >= self.begun + self.restarts:
            self.world.restart()
            scenes.grace(self.world)
            self.begin()
        elif self.world.chance(self.hostile):
            scenes.hostile(self.stage)
        elif self.world.chance(TICKS):
            self.tick()
        else:
            self.act()

    def act(self):
        """A step of a scene; a scene that waits for the clock sends nothing."""
        if len(self.running) < RUNNING and self.stage.files:
            scene = scenes.shared_range if self.world.chance(SHARED) else self.world.choice(scenes.ALL)
            self.running.append(scene(self.stage))
        at = self.world.pick(len(self.running))
        if next(self.running[at], self) is self:
            self.running[at] = self.running[-1]
            self.running.pop()

    def tick(self):
        """A later moment, short of the deadlines of breaks that are still to be answered; before it clients whose leases are half
        over renew them."""
        moment = self.world.clock + 1 + self.world.pick(5000)
        moment = min([moment] + [deadline - 1 for deadline in self.world.deadlines])
        if moment <= self.world.clock:
            return
        for client in self.stage.clients + self.stage.called_back:
            if moment - client.renewed > LEASE // 2:
                self.world.renew(client)
        self.world.tick(moment)


def write_capture(seed, count, hostile, write, expects=False, restarts=0):
    """A capture of so many events, or of as many as it may have bytes; the world that is left has how many they are. The server
    starts again behind at least so many events as `restarts` says, never where that is 0."""
    world = World(seed, write, count, MOST_BYTES, expects)
    world.header()
    show = Show(world, hostile, restarts)
    try:
        while True:
            show.event()
    except Full:
        return world


def write_all(given):
    """Writes the captures of all events, one file after another."""
    left, number = given.count, 0
    while left:
        number += 1
        name = f"{given.into}{number}.capture"
        with open(name, "w") as file:
            world = write_capture(f"{given.seed}/{number}", min(left, given.each), given.hostile, file.write, restarts=given.restarts)
        left -= world.place
        print(f"{name}: {world.place} events", file=sys.stderr)


def number(word):
    """A number without a sign."""
    if not word.isascii() or not word.isdigit():
        raise argparse.ArgumentTypeError(f"{word} isn't a number")
    return int(word)


def main():
    form = argparse.RawDescriptionHelpFormatter
    parser = argparse.ArgumentParser(description=__doc__, formatter_class=form)
    parser.add_argument("seed", type=number, metavar="SEED", help="a number; each makes another session")
    parser.add_argument("count", type=number, metavar="COUNT", help="how many events")
    hostile = "how many of a hundred events are hostile, 5 without it"
    parser.add_argument("--hostile", type=number, default=5, metavar="PERCENT", help=hostile)
    restarts = "behind how many events the server starts again, never without it"
    parser.add_argument("--restarts", type=number, default=0, metavar="COUNT", help=restarts)
    into = "writes files PREFIX1.capture, PREFIX2.capture, .. in the place of one text"
    parser.add_argument("--into", metavar="PREFIX", help=into)
    each = "how many events a file has at most, 500,000 without it"
    parser.add_argument("--each", type=number, default=500_000, metavar="COUNT", help=each)
    given = parser.parse_args()
    if given.hostile > 100 or not 1 <= given.each <= MOST_EVENTS:
        parser.error(f"PERCENT is at most 100, and a file has 1 to {MOST_EVENTS} events")
    if given.into:
        write_all(given)
    elif given.count > MOST_EVENTS:
        parser.error(f"a replay takes at most {MOST_EVENTS} events: --into cuts them into several captures")
    else:
        world = write_capture(str(given.seed), given.count, given.hostile, sys.stdout.write, restarts=given.restarts)
        if world.place < given.count:
            print(f"make_capture: {world.place} events fill a capture: --into cuts them into several", file=sys.stderr)


if __name__ == "__main__":
    main()
