# shellcheck shell=bash disable=SC2034 # its variables are used where it is sourced
# Sourced by the scripts beside it: a folder to work in, and how a command is timed and weighed.
set -euo pipefail
export LC_ALL=C

# --help of each of them: the comment that it begins with
if [ "${1:-}" = --help ]; then
    sed -n '2,/^[^#]/s/^# \{0,1\}//p' "$0" | grep -v '^shellcheck '
    exit 0
fi

rounds=5
here=$(cd "$(dirname "${BASH_SOURCE[0]}")" && pwd)

gnu_time=$(type -P time || true)
if [ -n "$gnu_time" ] && ! "$gnu_time" -f %M true > /dev/null 2>&1; then
    gnu_time=
fi

work=$(mktemp -d)
trap 'rm -rf "$work"' EXIT

fail() {
    echo "bench: $*" >&2
    exit 1
}

has_rustc() {
    type -P rustc > /dev/null
}

build() {
    rustc --edition 2021 -O -o "$work/$1" "$here/$1.rs" || fail "$1.rs does not build"
}

# The quotient of two numbers.
ratio() {
    awk -v a="$1" -v b="$2" 'BEGIN { if (b > 0) printf "%.2f", a / b; else printf "-" }'
}

call() {
    "$@" > said 2> errors || fail "status $? of $*: $(cat said errors)"
}

# So many bytes of numbers, so that no two pieces are the same: one that is misplaced shows in the image.
numbers() {
    # head ends seq by a signal
    { seq 10000000 999999999 || true; } | head -c "$1"
}

# Runs a command and sets `micros`.
time_command() {
    local start=${EPOCHREALTIME/./}
    call "$@"
    micros=$((${EPOCHREALTIME/./} - start))
}

# Runs a command in each round and sets `least`, the microseconds of the best of all rounds.
time_best() {
    local round
    least=
    for ((round = 0; round < rounds; round++)); do
        time_command "$@"
        if [ -z "$least" ] || [ "$micros" -lt "$least" ]; then
            least=$micros
        fi
    done
}

# Runs a command and sets `kib`, its peak memory, or `-` where nothing tells it.
weigh_command() {
    local pid now
    kib=-
    if [ -n "$gnu_time" ]; then
        call "$gnu_time" -f %M -o weight "$@"
        kib=$(tail -n 1 weight)
        return
    fi
    "$@" > said 2> errors &
    pid=$!
    # The mark only rises, so that the last one seen is the peak or close below it.
    while now=$(awk '/^VmHWM:/ { print $2 }' "/proc/$pid/status" 2> /dev/null) && [ -n "$now" ]; do
        kib=$now
    done
    wait "$pid" || fail "status $? of $*: $(cat said errors)"
}
