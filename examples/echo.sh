#!/bin/sh
# An echo host behind a terminal server: a node that offers ECHO, whose sessions are dialled to a program that sends back what
# comes, and a server with two lines that are connected to it. They run until they are stopped.
#
#     examples/echo.sh start [LATD]
#     examples/terminal.py 28111        (or 28112: what is typed comes back; control-^ leaves)
#     examples/echo.sh status
#     examples/echo.sh stop
#
# It needs a built `latd` ((cd crates/latd && rt run) builds it) and Python.
set -eu
example=echo
here=$(dirname "$0")

start() {
    run host python3 "$here/host.py" 28211 echo VAX1
    run node "$latd" --role node --name VAX1 --address aa0004000204 --port 28011 --lines 2 --service ECHO=28211 28010
    run server "$latd" --role server --name TS1 --address aa0004000104 --port 28010 --lines 2 --line-port 28111 --service ECHO 28011
}

hint() {
    echo "now: $here/terminal.py 28111"
}

. "$here/daemons.sh"
