# shellcheck shell=bash
# Sourced by from_c.sh: how long ten loads of one entry take, in a plain program and in the one under test.
# shellcheck source-path=SCRIPTDIR source=measure.sh
source "$(dirname "${BASH_SOURCE[0]}")/measure.sh"

rounds=15
goal=1.15

# Makes the entry's files: a Linux kernel of 10 MiB and an initial ramdisk of 200 MiB.
make_files() {
    "$here/make_bzimage.sh" vmlinuz $((10 << 20))
    numbers $((200 << 20)) > initrd.img
}

# Prints the rows of a plain program and of another, and their ratio. The programs take turns, and load once or eleven times: the
# difference is ten loads, without what reading costs.
compare_loads() {
    local program times name round ten plain=
    local -A best
    for ((round = 0; round < rounds; round++)); do
        for times in 1 11; do
            for program; do
                time_command "$program" vmlinuz initrd.img "$times"
                name="$program $times"
                if [ "$micros" -lt "${best[$name]:-999999999}" ]; then best[$name]=$micros; fi
            done
        done
    done
    for program; do
        weigh_command "$program" vmlinuz initrd.img 1
        ten=$((${best["$program 11"]} - ${best["$program 1"]}))
        printf '%-14s %8s seconds a load, %s MiB\n' "${program##*/}" \
            "$(awk -v a="$ten" 'BEGIN { printf "%.4f", a / 1e7 }')" "$((kib >> 10))"
        plain=${plain:-$ten}
    done
    echo "ratio $(ratio "$ten" "$plain"), the goal is $goal"
}

# Ends the run unless the programs print the same of two loads: a byte of the ramdisk at its place in memory, after each.
need_same_lines() {
    local program
    for program; do
        call "$program" vmlinuz initrd.img 2
        [ -s said ] || fail "$program prints nothing of its loads"
        [ "$program" != "$1" ] || cp said wanted
        cmp -s said wanted || fail "$program loads another ramdisk than $1: $(cat said)"
    done
}
