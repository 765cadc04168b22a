# What `threads.sh` and `udp.sh` have in common: runs, and rows of their figures. Sourced once `$out/beside` is built.
runs=${RUNS:-7}

# load: how many threads of the whole machine run or want to, in the last one, five and fifteen minutes, and on how many cores.
load() { echo "load $(cut -d ' ' -f 1-3 /proc/loadavg) on $(nproc) cores"; }

# run FILE COMMAND ..: one run more; a line of the nanoseconds that it prints, those of processor time and how often its threads
# left the processor.
run() {
    file=$1
    shift
    "$out/beside" cost "$@" >>"$file"
}

# least FILE COLUMN and middle FILE COLUMN: the least number of a column, and the median.
least() { sort -n -k "$2,$2" "$1" | awk -v column="$2" 'NR == 1 { print $column }'; }
middle() { sort -n -k "$2,$2" "$1" | awk -v column="$2" '{ all[NR] = $column } END { print all[int((NR + 1) / 2)] }'; }

heading() {
    load
    printf '%-34s %9s %9s %9s %9s\n' 'a second, in millions; a message' median best 'CPU ns' 'switches'
}

# row WHAT COUNT FILE START: of runs of so many messages the median and the best rate, and the medians of processor time, less
# the nanoseconds START, and of switches for each message.
row() {
    awk -v what="$1" -v count="$2" -v start="$4" -v mid="$(middle "$3" 1)" -v best="$(least "$3" 1)" \
        -v used="$(middle "$3" 2)" -v left="$(middle "$3" 3)" \
        'BEGIN { printf "%-34s %9.3f %9.3f %9.0f %9.4f\n", what, count * 1000 / mid, count * 1000 / best, (used - start) / count, left / count }'
}

# between WHAT COUNT MANY FEW: the same of what the runs in MANY took more than those in FEW, with so many messages more.
between() {
    awk -v what="$1" -v count="$2" -v mid="$(($(middle "$3" 1) - $(middle "$4" 1)))" -v best="$(($(least "$3" 1) - $(least "$4" 1)))" \
        -v used="$(($(middle "$3" 2) - $(middle "$4" 2)))" -v left="$(($(middle "$3" 3) - $(middle "$4" 3)))" \
        'BEGIN { printf "%-34s %9.3f %9.3f %9.0f %9.4f\n", what, count * 1000 / mid, count * 1000 / best, used / count, left / count }'
}
