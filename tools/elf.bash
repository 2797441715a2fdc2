# What the tools read of an ELF file, by readelf, dd and od. It is sourced.
# shellcheck shell=bash disable=SC2034,SC2154
export LC_ALL=C

# read_elf: sets order, size, vendor and sections from the file $file; if the file can't be used, fails with the reason
# in why.
read_elf() {
    local elf
    why=
    if [ ! -r "$file" ] || [ -d "$file" ]; then
        why="$file can't be read."
        return 1
    fi
    elf=$(readelf -hW "$file" 2> /dev/null || true)
    if [[ $elf != *Machine:* ]]; then
        why="$file is not an ELF file."
        return 1
    fi
    if [[ $elf == *'REL (Relocatable'* ]]; then
        why="$file is not linked, so its call frames have no addresses yet."
        return 1
    fi
    [[ $elf == *'big endian'* ]] && order=be || order=le
    [[ $elf == *ELF64* ]] && size=8 || size=4
    vendor=()
    [[ $elf != *AArch64* ]] || vendor=(vendor=aarch64)
    sections=$(readelf -SW "$file" 2> /dev/null || true)
}

# find_section NAME: sets type, base (its address), place (its offset in the file), length and flags, the numbers in
# hexadecimal; fails if the file has no such section.
find_section() {
    local fields
    fields=$(sed -nE "s/^ *\[ *[0-9]+\] ${1//./\\.} +([^ ].*[^ ]|[^ ]) +([0-9a-f]{8,16}) ([0-9a-f]{6,}) ([0-9a-f]{6,}) [0-9a-f]+ +([A-Za-z]*) .*/\2 \3 \4 -\5 \1/p" <<< "$sections" | head -n 1)
    read -r base place length flags type <<< "$fields"
    [ -n "$fields" ]
}

# eh_frame_bases: adds the arguments for the bases of .eh_frame, which find_section found last, to the list words.
eh_frame_bases() {
    words+=("section=0x$base")
    ! find_section .text || words+=("text=0x$base")
    if find_section .got.plt || find_section .got; then
        words+=("data=0x$base")
    fi
}

# cut_out FROM COUNT: bytes of the file.
cut_out() {
    dd if="$file" bs=65536 iflag=skip_bytes,count_bytes skip="$1" count="$2" status=none
}

# found_bytes: the bytes of the section that find_section found last, as they are in the file.
found_bytes() {
    cut_out $((16#$place)) $((16#$length))
}

hexadecimal() {
    od -An -v -tx1 | tr -d ' \n'
}
