"""What the tools share: texts, messages and packets.

`captures` and `transcripts` are the texts of docs/CAPTURE.md. `xdr` and `rpc` are RFC 4506 and RFC 5531. Each protocol
has a module of its own, and `protocols` lists them. `pcap`, `packets`, `streams` and `conversations` go from a file of
packets to messages.
"""
