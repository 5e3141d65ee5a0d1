#!/bin/sh
# A terminal session on this machine: a node whose line greets and echoes what comes, and a server whose terminal types two
# lines and hangs up. Prints what the terminal shows, and the last text of both daemons.
#
#     examples/terminal.sh [LATD]
#
# It needs a built `latd` ((cd crates/latd && rt run) builds it), OpenBSD's `nc` and `mktemp`, and ends by itself within seconds.
set -eu
latd=${1:-$(dirname "$0")/../crates/latd/out/latd}
[ -x "$latd" ] || { echo "build latd first: (cd crates/latd && rt run)"; exit 1; }
command -v nc > /dev/null || { echo "this needs nc (OpenBSD's, which has -N)"; exit 1; }
folder=$(mktemp -d)
node= server= host=
trap 'kill $node $server $host 2> /dev/null || true; rm -rf "$folder"' EXIT

"$latd" --role node --name VAX1 --address aa0004000204 --port 27001 --lines 1 --line-port 27201 --service VAX --sessions 1 27000 \
    > "$folder/node" &
node=$!
"$latd" --role server --name TS1 --address aa0004000104 --port 27000 --lines 1 --line-port 27101 --service VAX --sessions 1 27001 \
    > "$folder/server" &
server=$!
sleep 1

# The host: what comes from its line goes back to it, behind a greeting.
mkfifo "$folder/echo"
(printf 'Welcome to VAX1\n'; cat "$folder/echo") | nc 127.0.0.1 27201 > "$folder/echo" &
host=$!

# The terminal: two lines are typed, and the end of its input hangs up.
(sleep 2; printf 'hello\n'; sleep 1; printf 'goodbye\n'; sleep 1) | nc -N 127.0.0.1 27101 | sed 's/^/terminal: /'

wait "$server" && echo "server: status 0" || echo "server: status $?"
sed 's/^/server: /' "$folder/server"
wait "$node" && echo "node: status 0" || echo "node: status $?"
sed 's/^/node: /' "$folder/node"
