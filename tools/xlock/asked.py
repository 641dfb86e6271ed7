"""What a recorded session asks, and what of it ours is asked."""
from dataclasses import dataclass, field

from xlock.conversations import Conversation, Piece


@dataclass(eq=False)
class Request:
    """A message of a client's, and its replies: more than one where the first says that it waits."""

    protocol: object
    """The module that takes care of it."""
    conversation: Conversation
    piece: Piece
    message: bytes
    """The request alone, where its piece has others too."""
    call: object = None
    """As its protocol reads it, None where it can't be read."""
    replies: list = field(default_factory=list)
    """Pieces, each with the reply alone."""
    is_followed: bool = False
    """Whether others follow in its piece, which may name what its reply brings."""
    share: str | None = ""
    """Of SMB: the path of the share that it connects to, None where that has no files."""
    thing: object = None
    """Of SMB: the file or directory that a CREATE names."""


@dataclass
class Asked:
    """A message of the capture."""

    place: int
    connection: int
    request: Request
    message: bytes
    """With our handles, names and ids."""
    kept: list = field(default_factory=list)
    """Of a COMPOUND: the place that each of its operations has in the other server's, None where it has none there."""


@dataclass(eq=False)
class Told:
    """A call that the other server made to a client, and the client's reply, where that was captured."""

    call: object
    module: object
    """That of its protocol."""
    called: int
    """The number of the packet with the call."""
    record: bytes | None = None
    number: int = 0
    """Of the packet with the reply."""
