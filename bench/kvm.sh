#!/usr/bin/env bash
# The monitor of examples/kvm up to the guest's first instruction, beside a plain program that reads the same files to the same
# places of a fresh mapping and starts no machine: microseconds from exec to the line that each writes then, their difference, how
# much of it KVM's own calls take (with strace), how many calls of the system each makes, and what the monitor takes of memory
# beside the guest's. What the kernel does as a program ends counts for neither.
#
#   bench/kvm.sh
#
# The files are a Linux kernel of 10 MiB and an initial ramdisk of 200 MiB, the guest has 512 MiB; then a kernel of 14 KiB alone.
# The programs take turns, and the best of all rounds counts. Needs /dev/kvm, bash 5, coreutils, awk, cc, iasl, and the static
# library that examples/c/build makes.
# shellcheck source-path=SCRIPTDIR source=loads.sh
source "$(dirname "${BASH_SOURCE[0]}")/loads.sh"

top=$here/..
archive=$top/examples/c/out/libbootcore.a
[ -e "$archive" ] || fail "$archive is not built: examples/c/build builds it"
[ -w /dev/kvm ] || fail "/dev/kvm is not at hand"
cc -std=c99 -O2 -o "$work/kvm_reads" "$here/kvm_reads.c" || fail "kvm_reads.c does not build"
"$top/examples/kvm/build" "$work/made" > /dev/null || fail "the monitor is not built" # with its tables
cc -std=c99 -O2 -I"$top/include" -I"$top/examples/kvm" -I"$work/made/acpi" -o "$work/kvm_state" "$top/tests/drivers/kvm_state.c" \
    "$top"/examples/kvm/{acpi,load,machine,memory}.c "$archive" || fail "kvm_state.c does not build"
cd "$work"
echo 'int main(void) { return 0; }' > nothing.c
cc -O2 -o nothing nothing.c || fail "nothing.c does not build"
least_kib=999999999
for ((round = 0; round < rounds; round++)); do
    weigh_command ./nothing
    [ "$kib" -ge "$least_kib" ] || least_kib=$kib
done
make_files

# time_line COMMAND..: sets `micros` from exec to its first line
time_line() {
    local start=${EPOCHREALTIME/./}
    exec 3< <(exec "$@")
    read -r <&3 || fail "$1 writes no line"
    micros=$((${EPOCHREALTIME/./} - start))
    exec 3<&-
    wait "$!"
}
# FILE..: both programs with these files
compare_starts() {
    local round beside plain=999999999 monitor=999999999
    for ((round = 0; round < rounds; round++)); do
        time_line ./kvm_reads "$@"
        [ "$micros" -ge "$plain" ] || plain=$micros
        time_line ./kvm_state ready linux 512 k "$@"
        [ "$micros" -ge "$monitor" ] || monitor=$micros
    done
    echo "$# files: reads $plain us, up to the first instruction $monitor us, beyond the reads $((monitor - plain)) us (goal 2000)"
    beside=$(for ((round = 0; round < rounds; round++)); do ./kvm_state ready linux 512 k "$@"; done | sort -n | head -n 1)
    echo "memory beside the guest's: $beside KiB, of which a program that does nothing has $least_kib (goal 1024 beyond that)"
    if type -P strace > /dev/null; then
        echo "of this KVM's own calls, best of $rounds rounds: $(for ((round = 0; round < rounds; round++)); do
            strace -f -T -e trace=ioctl ./kvm_state ready linux 512 k "$@" 2>&1 > /dev/null |
                awk '/KVM_/ { gsub(/.*<|>.*/, ""); sum += $0 } END { printf "%.0f\n", sum * 1000000 }'
        done | sort -n | head -n 1) us"
        echo "calls of the system: $(strace -f ./kvm_state ready linux 512 k "$@" 2>&1 > /dev/null | wc -l)," \
            "of the reads alone $(strace -f ./kvm_reads "$@" 2>&1 > /dev/null | wc -l)"
    fi
}
compare_starts vmlinuz initrd.img
"$here/make_bzimage.sh" small $((14 << 10))
compare_starts small
