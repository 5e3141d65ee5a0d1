#!/bin/sh
# A login behind a terminal server: a node that offers VAX, whose sessions are dialled to a program that asks who is there and runs
# a shell, and a server with four lines that are connected to VAX. They run until they are stopped.
#
#     examples/login.sh start [LATD]
#     examples/terminal.py 28101        (to 28104: type a name, then commands; `exit` ends the session)
#     examples/login.sh status
#     examples/login.sh stop
#
# It needs a built `latd` ((cd crates/latd && rt run) builds it) and Python. Whoever can connect to this machine's port 28201, or to
# one of the lines, has a shell of yours while it runs.
set -eu
example=login
here=$(dirname "$0")

start() {
    run host python3 "$here/host.py" 28201 login VAX1
    run node "$latd" --role node --name VAX1 --address aa0004000204 --port 28001 --lines 4 --service VAX=28201 28000
    run server "$latd" --role server --name TS1 --address aa0004000104 --port 28000 --lines 4 --line-port 28101 --service VAX 28001
}

hint() {
    echo "now: $here/terminal.py 28101"
}

. "$here/daemons.sh"
