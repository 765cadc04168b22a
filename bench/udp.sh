#!/bin/sh
# Times two drivers over loopback: `bench/udp.sh [PROGRAM]`, where PROGRAM is aeron_policyd; without one it is what `make build`
# leaves. A publisher's process sends messages of 1,376 and of 64 bytes to a subscriber's, beside a loop of `sendto` and one of
# `recvfrom` with datagrams of the same length; and then through a relay that loses 1 and 10 of 100 datagrams of either side, and
# hands the others on DELAY milliseconds later, at once if it says nothing.
# RUNS says how often each is run, seven times if it says nothing. Each run is made with few messages and with many, and what the
# few took is taken off: the start of two drivers, and the half second for which a subscriber stays at its end, are left out.
SETTINGS=${SETTINGS:-}
if [ "${1:-}" = talk ]; then
    # talk PROGRAM OUT BYTES COUNT FROM TO: nanoseconds until the subscriber at the port TO has printed all messages, from the
    # start of the publisher to the port FROM on; SETTINGS are of both
    "$2" subscribe $SETTINGS --policy "$3/udp.policy" --raw --count "$5" "aeron:udp?endpoint=127.0.0.1:$7" 10 2>"$3/notes" | wc -c >"$3/came" &
    reader=$!
    sleep 1
    begun=$(date +%s%N)
    head -c "$(($5 * $4))" /dev/zero |
        "$2" publish $SETTINGS --policy "$3/udp.policy" --bytes "$4" "aeron:udp?endpoint=127.0.0.1:$6|term-length=1m" 10 2>>"$3/notes"
    wait "$reader"
    ended=$(date +%s%N)
    [ "$(cat "$3/came")" -eq "$(($5 * $4))" ] || { cat "$3/notes" >&2; exit 1; }
    echo "$((ended - begun))"
    exit
fi
. "$(dirname "$0")/compare.sh"

program=${1:-$bench/../build/aeron_policyd}
mkdir -p "$out"
cc -O2 "$bench/beside.c" -o "$out/beside" -lpthread
. "$bench/figures.sh"
cat >"$out/udp.policy" <<'POLICY'
version = 1
default = "allow"
POLICY

# talk FILE BYTES COUNT FROM TO: one run more
talk() { run "$1" sh "$bench/udp.sh" talk "$program" "$out" "$2" "$3" "$4" "$5"; }

# drivers WHAT BYTES FEW MANY FROM: a row of two drivers, by way of the port FROM
drivers() {
    : >"$out/few"
    : >"$out/many"
    for _ in $(seq "$runs"); do
        talk "$out/few" "$2" "$3" "$5" 40123
        talk "$out/many" "$2" "$4" "$5" 40123
    done
    between "$1" "$(($4 - $3))" "$out/many" "$out/few"
}

heading
for bytes in 1376 64; do
    drivers "$bytes bytes, two drivers" "$bytes" 20000 220000 40123
    : >"$out/theirs"
    for _ in $(seq "$runs"); do run "$out/theirs" "$out/beside" udp "$bytes" 200000; done
    row "$bytes bytes, sendto and recvfrom" 200000 "$out/theirs" 0
done
# for links that lose
soon='--setting nak-delay=200us --setting nak-repeat=2ms --setting resend-linger=2ms --setting status-interval=10ms --setting heartbeat-interval=10ms'
for percent in 0 1 10; do
    "$out/beside" relay 40124 40123 "$percent" "${DELAY:-0}" &
    relay=$!
    export SETTINGS=
    if [ "$percent" -eq 10 ]; then many=2100; else many=20100; fi
    drivers "1376 bytes, $percent of 100 lost" 1376 100 "$many" 40124
    SETTINGS=$soon
    drivers '  the same with settings for that' 1376 100 "$many" 40124
    kill "$relay"
done
tail -n 2 "$out/notes"
load
