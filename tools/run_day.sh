#!/bin/sh
top=$(cd "$(dirname "$0")/.." && pwd) || exit 1

help() {
    cat << 'END'
Runs a day so that a signal ends it with its report: run_day.sh [--report FILE] DAY.toml

Starts `tapebox live DAY.toml` with TERM, HUP and INT ignored, and waits for its end. When the script itself gets one of these, it calls
`tapebox end DAY.toml`: the day ends as if every line had closed then, and live writes its report. A second signal calls it again, after
which live waits for no follower. The file needs a control socket (docs/FORMATS.md, "A day's file"). If the socket isn't there yet, as while
live starts, the call is tried again for five seconds.

    --report FILE   writes the report to FILE, which is there once it is whole, and not to standard output
    TAPEBOX         the program (the one that ./run finds, or else the installed one)

Statuses: those of live, which docs/OPERATING.md tells; 1 if the day isn't started, since the file can't be read or names no control
socket, there is no program, or FILE can't be written, or if FILE can't be put in its place at the end; 2 if the words are others.
END
}

usage() {
    echo "usage: run_day.sh [--report FILE] DAY.toml" >&2
    exit 2
}

fail() {
    echo "run_day.sh: $*" >&2
    exit 1
}

# Runs a word of the program on the day, in the place of this process, with those signals ignored that end the day and not a program.
deaf() {
    exec env --ignore-signal=TERM,HUP,INT "$program" "$1" "$day"
}

# Calls the day's end, as long as live runs and nobody hears it, for five seconds.
call_end() {
    for _ in 1 2 3 4 5 6 7 8 9 10; do
        said=$( (deaf end) 2>&1) && return
        sleep 0.5
        kill -0 "$live" 2> /dev/null || return
    done
    echo "run_day.sh: $day: nobody heard that the day is to end, and it goes on: ${said#tapebox: }" >&2
}

report=
case ${1-} in
    -h | --help) help; exit ;;
    --report) [ $# -ge 2 ] || usage; report=$2; shift 2 ;;
    --report=*) report=${1#--report=}; shift ;;
esac
[ $# -eq 1 ] || usage
case $1 in -*) usage ;; esac
day=$1
program=${TAPEBOX-}
if [ -z "$program" ]; then
    if [ -x "$top/run" ]; then program=$("$top/run" --which tapebox) || exit 1; else program=tapebox; fi
fi
[ -r "$day" ] || fail "$day: it can't be read"
grep -q '^[[:space:]]*"\{0,1\}control"\{0,1\}[[:space:]]*=' "$day" || fail "$day: it names no control socket, and a signal could not end the day"
# The report stands beside its place until it is whole.
if [ -n "$report" ] && ! true 2> /dev/null > "$report.part"; then
    fail "$report: it can't be written"
fi

called=
live=
# Each call is a process of its own, so that a second signal is heard while the first one's call is on its way.
trap 'called=yes; [ -z "$live" ] || call_end &' TERM HUP INT
if [ -n "$report" ]; then
    deaf live > "$report.part" &
else
    deaf live &
fi
live=$!
[ -z "$called" ] || call_end &

# A signal ends a wait with a status that is not live's, and so may one whose trap has run: live is waited for until it is gone. What a
# wait finds no more leaves the status as it is (127).
status=127
while
    wait "$live"
    seen=$?
    [ "$seen" -eq 127 ] || status=$seen
    kill -0 "$live" 2> /dev/null
do :; done
trap '' TERM HUP INT
# For the calls that were not heard any more.
wait

if [ -n "$report" ]; then
    if [ "$status" -eq 0 ]; then
        mv -f "$report.part" "$report" || exit 1
    elif [ ! -s "$report.part" ]; then
        rm -f "$report.part"
    fi
fi
exit "$status"
