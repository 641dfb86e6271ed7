#!/bin/sh
# Starts the program's `serve` on two ports, locks by a client that isn't ours, and replays the capture that the server wrote: both
# have to say the same. The client is rpcgen's and libtirpc's (Debian: rpcsvc-proto, libtirpc-dev, gcc). Its protocol is Debian's
# nlm_prot.x; version 4 is version 3 with offsets and lengths of 64 bits (XNFS C702, NLM version 4).
# usage: examples/serve.sh PROGRAM [RPC_PORT SMB_PORT]
set -eu
program=$1
rpc=${2:-7001}
smb=${3:-7002}
here=$(cd "$(dirname "$0")" && pwd)
work=$(mktemp -d)
server=
stop() {
    if [ -n "$server" ]; then kill "$server" 2>/dev/null || true; fi
    rm -rf "$work"
}
trap stop EXIT

sed -e 's/unsigned l_offset/unsigned hyper l_offset/' -e 's/unsigned l_len/unsigned hyper l_len/' -e 's/^\t} = 1;/\t} = 4;/' \
    /usr/include/rpcsvc/nlm_prot.x >"$work/nlm4.x"
(cd "$work" && rpcgen -C -h -o nlm4.h nlm4.x && rpcgen -C -c -o nlm4_xdr.c nlm4.x && rpcgen -C -l -o nlm4_clnt.c nlm4.x)
gcc -w -I/usr/include/tirpc -I"$work" -o "$work/client" "$here/serve_client.c" "$work/nlm4_xdr.c" "$work/nlm4_clnt.c" -ltirpc

printf 'F a.txt\n' >"$work/exports"
"$program" serve --rpc "$rpc" --smb "$smb" --record "$work/record" --turns 300 \
    <"$work/exports" >"$work/capture" 2>"$work/said" &
server=$!
tries=0
until grep -q serving "$work/said"; do
    tries=$((tries + 1))
    if [ "$tries" -gt 100 ]; then cat "$work/said" >&2; exit 1; fi
    sleep 0.1
done
"$work/client" "$rpc" | tee "$work/answers"
# The server ends once its turns are done.
wait "$server"
server=

"$program" replay <"$work/capture" >"$work/transcript"
python3 -B "$here/../tools/transcript_in_words.py" "$work/capture" "$work/transcript" | tee "$work/words"
# The status of each reply, in both: GRANTED is 0, DENIED 1.
sed -n 's/.*: //p' "$work/answers" >"$work/one"
sed -n 's/.*GRANTED$/0/p; s/.*DENIED$/1/p' "$work/words" >"$work/two"
if ! cmp -s "$work/one" "$work/two"; then
    echo "the replay says otherwise" >&2
    exit 1
fi
