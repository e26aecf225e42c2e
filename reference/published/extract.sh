#!/bin/sh
# Prints the S-box that the ciphers Khazad and Anubis share, as the installed
# package libtomcrypt-dev has it: 256 bytes, 16 per line, uppercase hex.
#
# In both ciphers, S[x] is the top byte of entry x of the table T0. The entries
# have 64 bits in Khazad and 32 bits in Anubis. The script takes the two object
# files from the package's static archive, reads T0 from each, and prints the
# bytes only if both ciphers have the same ones.
#
# Needs: dpkg, binutils (ar, nm, objcopy, readelf), GNU od, awk.
# Usage: extract.sh [path of libtomcrypt.a]
set -eu

fail() {
    echo "extract.sh: $1" >&2
    exit 1
}

# The archive of the installed package.
find_archive() {
    dpkg -L libtomcrypt-dev | grep '/libtomcrypt\.a$' ||
        fail "no libtomcrypt.a in package libtomcrypt-dev"
}

# Prints the top byte of each T0 entry, one per line, in uppercase hex.
# $1: object file, $2: bytes per entry
top_bytes() {
    symbol=$(nm -S "$1" | awk '$3 == "r" && $4 == "T0" { print $1, $2 }')
    [ -n "$symbol" ] || fail "no read-only table T0 in $1"
    start=$((0x${symbol% *}))
    size=$((0x${symbol#* }))
    [ "$size" -eq $((256 * $2)) ] || fail "T0 in $1 has $size bytes"
    case $(readelf -h "$1" | grep 'Data:') in
    *'little endian'*) top=$2 ;;
    *'big endian'*) top=1 ;;
    *) fail "unknown byte order in $1" ;;
    esac
    objcopy -O binary --only-section=.rodata "$1" "$1.rodata"
    od -An -v -tx1 -w"$2" -j "$start" -N "$size" "$1.rodata" |
        awk -v top="$top" '{ print toupper($top) }'
}

archive=${1:-$(find_archive)}
[ -r "$archive" ] || fail "cannot read $archive"
archive=$(cd "$(dirname "$archive")" && pwd)/$(basename "$archive")

work=$(mktemp -d)
trap 'rm -rf "$work"' EXIT
cd "$work"

ar x "$archive" khazad.o anubis.o
top_bytes khazad.o 8 >khazad
top_bytes anubis.o 4 >anubis
cmp -s khazad anubis || fail "Khazad and Anubis have different bytes"
[ "$(wc -l <khazad)" -eq 256 ] || fail "there are not 256 bytes"
paste -s -d '               \n' khazad
