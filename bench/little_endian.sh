# shellcheck shell=bash
# Sourced by the scripts beside it: little-endian numbers of 16 and of 32 bits, and zeros, on standard output.

half() {
    local n escaped
    for n; do
        printf -v escaped '\\x%02x' $((n & 255)) $((n >> 8 & 255))
        printf '%b' "$escaped"
    done
}

word() {
    local n
    for n; do
        half $((n & 0xFFFF)) $((n >> 16 & 0xFFFF))
    done
}

zeros() {
    head -c "$1" /dev/zero
}
