#!/usr/bin/env bash
# Prints the SHA-256 of an image, of its head with the records, and of each part: a line each, with its
# address and its number of bytes. docs/MEASURED.md says what they are compared with.
#
#   PATH-OF-THIS-REPOSITORY/examples/digests.sh linux.image
#
# It reads images of version 2, by the table of docs/FORMATS.md, and needs the usual tools alone.
set -u
usage="usage: examples/digests.sh IMAGE
  prints the part, its index, its address, its length and its SHA-256, for IMAGE and each part of it"
case "$#,${1:-}" in
1,--help)
    echo "$usage"
    exit 0
    ;;
1,*) ;;
*)
    echo "$usage" >&2
    exit 64
    ;;
esac
image=$1
# the magic BLIMAGE and a zero byte, version 2
if [ "$(head -c 12 "$image" | od -An -v -tx1 | tr -d ' \n')" != 424c494d4147450002000000 ]; then
    echo "digests.sh: '$image' is no image of version 2; bootcore convert makes one of version 1" >&2
    exit 1
fi
roles=(head kernel module information parameters line gdt initrd tables)
# told PART INDEX ADDRESS LENGTH: these and the SHA-256 of what comes in
told() { printf '%-11s %5s %8s %10d %s\n' "$1" "$2" "$3" "$4" "$(sha256sum | cut -d ' ' -f 1)"; }
numbers() { od -An -v -j "$1" -N "$2" -tu"$3" --endian=little "$image"; }

told image - - "$(wc -c <"$image")" <"$image"
count=$(numbers 264 4 4)
offset=$((272 + 24 * count))
head -c "$offset" "$image" | told head - - "$offset"
for ((i = 0; i < count; i++)); do
    read -r role index _ < <(numbers $((272 + 24 * i)) 8 4)
    read -r address length _ < <(numbers $((280 + 24 * i)) 16 8)
    tail -c +$((offset + 1)) "$image" | head -c "$length" |
        told "${roles[role]:-$role}" "$index" "$(printf %08x "$address")" "$length"
    offset=$((offset + length))
done
if [ "$offset" != "$(wc -c <"$image")" ]; then
    echo "digests.sh: '$image' has not the length that its records give" >&2
    exit 1
fi
