#!/bin/sh
tests=$(cd "$(dirname "$0")" && pwd) || exit 1
samples=$tests/../samples
tools=$tests/../tools

help() {
    cat << 'END'
A day over sockets: lossy_day.sh [TABLE.csv]

Starts `tapebox live`, a relay that loses, doubles and reorders packets and injects bytes that are no packet, and `tapebox follow`
behind it, sends the table's messages (without an argument, those of samples/corrections.csv), and compares the two reports byte for
byte. Prints the report once, and on standard error what the relay did and the follower's account: what came by each line, what was
asked for again. Needs python3 and Linux, whose /proc/net tells which ports are bound.

    TAPEBOX   the program (what ../run --which tapebox prints, from here)
    FOLLOWED  1, or 0 for a day that nobody follows: `live` awaits no retransmission, and its report alone is printed (1)
    LOSE      the percentage of packets that is lost: of both lines, or as 100,10 of each (30)
    SEED      what the relay draws from (9, which loses the third packet of a line on both)
    PAUSE     seconds of rest after each message, so that each has a packet of its own (0.002)
    LIMIT     seconds until the day must have ended (60)

Statuses: 0 if the reports are the same; 1 if anything fails, they differ or the time is up; 2 if the words are others.
END
}

case ${1-} in -h | --help) help; exit ;; esac
[ $# -le 1 ] || { echo "usage: lossy_day.sh [TABLE.csv]" >&2; exit 2; }
table=${1:-$samples/corrections.csv}
tapebox=${TAPEBOX:-$("$tests/../run" --which tapebox)} || exit 1
export TAPEBOX="$tapebox"
followed=${FOLLOWED:-1}
lose=${LOSE:-30}
seed=${SEED:-9}
pause=${PAUSE:-0.002}
limit=${LIMIT:-60}
# Above 32 bits: a session is a number of 64.
session=4294967303

# The programs that run, each as NAME:PROCESS, and the relay among them.
running=
relay=
work=$(mktemp -d) || exit 1

clean_up() {
    for program in $running; do
        kill -KILL "${program#*:}" 2> /dev/null
    done
    wait 2> /dev/null
    rm -rf "$work"
}
trap clean_up EXIT
trap 'exit 1' HUP INT TERM

fail() {
    echo "lossy_day.sh: $*" >&2
    exit 1
}

# Starts a program whose output and errors are kept under its name: start NAME COMMAND..
start() {
    name=$1
    shift
    "$@" > "$work/$name.out" 2> "$work/$name.err" &
    running="$running $name:$!"
}

# Takes the ended programs out of those that run. Ends if one has failed, or if the time is over.
look() {
    still=
    failed=
    for program in $running; do
        name=${program%:*}
        process=${program#*:}
        if kill -0 "$process" 2> /dev/null; then
            still="$still $program"
        else
            wait "$process"
            status=$?
            [ "$status" -eq 0 ] || failed="$name ended with status $status: $(cat "$work/$name.err")"
        fi
    done
    running=$still
    [ -z "$failed" ] || fail "$failed"
    [ "$(date +%s)" -lt "$deadline" ] || fail "after $limit seconds there still run:$running"
}

# Waits until the command answers yes.
await() {
    until "$@"; do
        look
        sleep 0.1
    done
}

# Whether a socket listens on the port, or receives there: bound tcp|udp PORT
bound() {
    grep -q ": [0-9A-F]*:$(printf %04X "$2") 00000000:0000 " "/proc/net/$1"
}

# Names with commas between them as a list of TOML: listed NAMES
listed() {
    echo "[\"$(echo "$1" | sed 's/,/", "/g')\"]"
}

# Writes the day's file of one side, whose lines are these ports: day NAME A B
day() {
    cat > "$work/$1.toml" << END
symbols = $(listed "$symbols")
participants = $(listed "$participants")
port = $port
a = [$2]
b = [$3]
retransmission = $retransmission
followers = $followed
session = $session
END
}

# Whether the relay alone is left, or nothing if there is none.
ended() {
    look
    [ "$running" = "${relay:+ $relay}" ]
}

[ -x "$tapebox" ] || fail "there is no program $tapebox"
[ -r /proc/net/udp ] || fail "there is no /proc/net/udp"
names=$("$tools/send_day.py" --names "$table") || exit 1
symbols=$(echo "$names" | sed -n 1p)
participants=$(echo "$names" | sed -n 2p)
lines=$(echo "$participants" | tr ',' '\n' | wc -l)
port=$("$tests/free_ports.py" $((lines + 5))) || fail "there are no free ports"
retransmission=$((port + lines))
sent_a=$((retransmission + 1))
sent_b=$((retransmission + 2))
a=$((retransmission + 3))
b=$((retransmission + 4))
deadline=$(($(date +%s) + limit))

day live "$sent_a" "$sent_b"
day follow "$a" "$b"
start live "$tapebox" live "$work/live.toml"
await bound tcp "$retransmission"
if [ "$followed" -eq 0 ]; then
    start sender "$tools/send_day.py" --pause "$pause" "$table" "$port"
    await ended
    [ -s "$work/live.out" ] || fail "live wrote no report"
    cat "$work/live.out"
    echo "live wrote its report, and nobody followed" >&2
    exit
fi

# The follower connects as it starts, and a line's first packet must find the relay and the follower.
start relay "$tests/lossy_relay.py" --lose "$lose" --double 10 --reorder 10 --garble 30 --seed "$seed" "$sent_a" "$sent_b" "$a" "$b"
relay=relay:$!
await bound udp "$sent_a"
await bound udp "$sent_b"
start follow "$tapebox" follow "$work/follow.toml"
await bound udp "$a"
await bound udp "$b"
start sender "$tools/send_day.py" --pause "$pause" "$table" "$port"
await ended

running=
kill -TERM "${relay#*:}" && wait "${relay#*:}" || fail "the relay failed: $(cat "$work/relay.err")"
cat "$work/relay.out" "$work/follow.err" >&2
[ -s "$work/live.out" ] || fail "live wrote no report"
diff "$work/live.out" "$work/follow.out" >&2 || fail "the reports differ"
cat "$work/live.out"
echo "live and follow wrote the same report" >&2
