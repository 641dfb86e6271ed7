"""The protocols that the tools know. One that joins has a module with the functions that xlock/nlm.py lists."""
from xlock import nfs, nlm

# Over ONC RPC, by program and version.
RPC = {(nlm.PROGRAM, nlm.VERSION): nlm, (nfs.PROGRAM, nfs.VERSION): nfs}

# The kinds of connection in a capture's `O` line.
KINDS = ("rpc", "smb")


def of_call(call):
    """The module of a call's protocol, or None."""
    return RPC.get((call.program, call.version))


def word_modules():
    """The module that knows each word."""
    return {name: module for module in RPC.values() for name in module.USAGES}
