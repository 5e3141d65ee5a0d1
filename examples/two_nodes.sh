#!/bin/sh
# Two nodes that offer one service, and a server with four lines that are connected to it: callers go to the node with more free
# lines, and to the other one where it is full or gone. They run until they are stopped.
#
#     examples/two_nodes.sh start [LATD]
#     examples/terminal.py 28121        (to 28124: the greeting says which node it is)
#     examples/two_nodes.sh status
#     examples/two_nodes.sh stop
#
# Try it: end one node (kill the process that `status` names), and call again. It needs a built `latd` ((cd crates/latd && rt run)
# builds it) and Python.
set -eu
example=two_nodes
here=$(dirname "$0")

start() {
    run host1 python3 "$here/host.py" 28221 echo VAX1
    run host2 python3 "$here/host.py" 28222 echo VAX2
    run node1 "$latd" --role node --name VAX1 --address aa0004000204 --port 28021 --lines 3 --service VAX=28221 28020
    run node2 "$latd" --role node --name VAX2 --address aa0004000304 --port 28022 --lines 2 --service VAX=28222 28020
    run server "$latd" --role server --name TS1 --address aa0004000104 --port 28020 --lines 4 --line-port 28121 --service VAX \
        28021 28022
}

hint() {
    echo "now: $here/terminal.py 28121"
}

. "$here/daemons.sh"
