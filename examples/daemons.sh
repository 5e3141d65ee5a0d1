# Read by the examples whose daemons run for good (login.sh, echo.sh, two_nodes.sh): starts programs, remembers them by their
# process ids in a folder of the example's own, says which of them run, and ends them.
#
# It wants `example`, the example's name, `here`, the folder of the examples, and two functions: `start`, which calls `run`, and
# `hint`, which says what to do next.

folder=${XDG_RUNTIME_DIR:-/tmp}/lat-$example-$(id -u)

# Starts a program: its label, then its words. What it writes goes into a file beside its process id.
run() {
    label=$1
    shift
    "$@" > "$folder/$label.log" 2>&1 < /dev/null &
    echo $! > "$folder/$label.pid"
}

# Whether the program with this label runs.
runs() {
    kill -0 "$(cat "$folder/$1.pid")" 2> /dev/null
}

labels() {
    for file in "$folder"/*.pid; do
        [ -e "$file" ] && basename "$file" .pid
    done
}

status() {
    [ -d "$folder" ] || { echo "$example: not started"; return 1; }
    all=0
    for label in $(labels); do
        if runs "$label"; then
            echo "$label: runs, process $(cat "$folder/$label.pid")"
        else
            echo "$label: has ended"
            sed "s/^/$label: /" "$folder/$label.log" | tail -n 3
            all=1
        fi
    done
    return $all
}

# Waits until this program runs no more, five seconds at most: then its ports are free for the next start.
gone() {
    tries=50
    while runs "$1" && [ $tries -gt 0 ]; do
        sleep 0.1
        tries=$((tries - 1))
    done
}

stop() {
    [ -d "$folder" ] || { echo "$example: not started"; return 0; }
    for label in $(labels); do
        ! runs "$label" || kill "$(cat "$folder/$label.pid")"
    done
    for label in $(labels); do
        gone "$label"
    done
    rm -rf "$folder"
    echo "$example: stopped"
}

begin() {
    [ -x "$latd" ] || { echo "build latd first: (cd crates/latd && rt run)"; exit 1; }
    command -v python3 > /dev/null || { echo "this needs python3"; exit 1; }
    [ ! -d "$folder" ] || { echo "$example: started already; end it first: $0 stop"; exit 1; }
    (umask 077; mkdir "$folder")
    start
    sleep 1
    status || { stop > /dev/null; exit 1; }
    hint
}

latd=${2:-$here/../crates/latd/out/latd}
case ${1:-} in
    start) begin ;;
    status) status ;;
    stop) stop ;;
    *) echo "usage: $0 start [LATD] | status | stop"; exit 1 ;;
esac
