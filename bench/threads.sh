#!/bin/sh
# Times the clients of a driver that runs: `bench/threads.sh`, with `rt` and `cc` on the path, and ZeroMQ's library where it is
# there to be compared with (Debian's libzmq3-dev). `bench/threads.sh PROGRAM` times a program that was built before. RUNS says
# how often each is run, seven times if it says nothing.
. "$(dirname "$0")/compare.sh"

mkdir -p "$out"
if [ $# -gt 0 ]; then
    program=$1
else
    crates='byte_strings channel_uri driver_core media_driver media_wire policy_core'
    copy "$crates"
    cp "$bench/../HANDLES" "$out/HANDLES"
    mkdir -p "$out/crates/threads/src"
    echo "threads: $crates" >>"$out/crates.txt"
    cp "$bench/threads.rt.txt" "$out/crates/threads/src/main.rt"
    # that it is built is what counts: no message is asked for
    (cd "$out/crates/threads" && ${RT:-rt} run -- idle 0 0 1 0 >/dev/null)
    program=$out/crates/threads/out/threads
fi
zmq=
if cc -O2 -DZMQ "$bench/beside.c" -o "$out/beside" -lzmq -lpthread 2>/dev/null; then
    zmq=1
else
    cc -O2 "$bench/beside.c" -o "$out/beside" -lpthread
    echo 'left out: libzmq is not there to be compared with'
fi
. "$bench/figures.sh"

# begin: no run was made of the driver or of ZeroMQ.
begin() { : >"$out/ours" && : >"$out/theirs"; }

# trips WHAT: the median and the greatest but for 1 and 0.1 of 100, of the numbers that are read.
trips() {
    sort -n | awk -v what="$1" '{ a[NR] = $1 } END { printf "%-34s %8.2f %8.2f %8.2f microseconds\n", what, a[int(NR * 0.5) + 1] / 1000, a[int(NR * 0.99) + 1] / 1000, a[int(NR * 0.999) + 1] / 1000 }'
}

# idle LOGS: what five seconds of a driver take of a core, with so many logs that nothing is offered to.
idle() {
    : >"$out/started"
    : >"$out/ours"
    for _ in $(seq 3); do
        run "$out/started" "$program" idle 0 0 10 0 "$1"
        run "$out/ours" "$program" idle 0 5000 10 0 "$1"
    done
    awk -v what="$1 logs" -v took="$(least "$out/ours" 2)" -v off="$(least "$out/started" 2)" \
        'BEGIN { printf "%-34s %8.2f of 100 of a core\n", what, (took - off) / 50000000 }'
}

heading
start=$(for _ in $(seq 3); do "$out/beside" cost "$program" idle 0 0 10 0; done | sort -n -k 2,2 | awk 'NR == 1 { print $2 }')
count=1000000
for bytes in 64 1376; do
    for publishers in 1 2 4; do
        begin
        for _ in $(seq "$runs"); do
            run "$out/ours" "$program" pass "$bytes" "$((count / publishers))" 10 "$publishers"
            [ -z "$zmq" ] || run "$out/theirs" "$out/beside" zmq "$bytes" "$count"
        done
        row "$bytes bytes, publishers: $publishers" "$count" "$out/ours" "$start"
        : >"$out/ours"
        for _ in $(seq "$runs"); do run "$out/ours" "$program" lists "$bytes" "$((count / publishers))" 10 "$publishers"; done
        row "$bytes bytes, in sixteens, publishers: $publishers" "$count" "$out/ours" "$start"
        [ -z "$zmq" ] || row "$bytes bytes, ZeroMQ" "$count" "$out/theirs" 0
    done
    begin
    for _ in $(seq "$runs"); do
        run "$out/ours" "$program" pass "$bytes" "$count" 1000 1
        run "$out/theirs" "$out/beside" copies "$bytes" "$count"
    done
    row "$bytes bytes, 1,000 rules" "$count" "$out/ours" "$start"
    row "$bytes bytes, two locks and copies" "$count" "$out/theirs" 0
done
for clients in 1 8 32; do
    begin
    for _ in $(seq "$runs"); do
        run "$out/ours" "$program" each 64 "$((count / clients))" 1 "$clients"
        [ -z "$zmq" ] || run "$out/theirs" "$out/beside" zmq-each 64 "$count" "$clients"
    done
    row "64 bytes, own logs: $clients" "$count" "$out/ours" "$start"
    [ -z "$zmq" ] || row "64 bytes, own pairs, ZeroMQ: $clients" "$count" "$out/theirs" 0
done

echo 'there and back: half of the trips, 99 and 99.9 of 100 take at most'
for _ in 1 2 3; do
    "$program" trip 64 100000 10 0 | trips '64 bytes'
    [ -z "$zmq" ] || "$out/beside" zmq-trip 64 100000 | trips '64 bytes, ZeroMQ'
done

echo 'a driver that has nothing to do, its start and its end left out'
for logs in 0 250; do idle "$logs"; done
load
