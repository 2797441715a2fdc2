# What fuzz/run and tools/compare_with_gimli build with. It is sourced.
repository=$(cd "$(dirname "${BASH_SOURCE[0]}")/../.." && pwd)

# find_libraries CRATE..: exports CFI_LIBRARIES, the folders of the crates' static libraries and of
# liblibc_c.a with a colon between them, unless it is set. A library that isn't there is built,
# which proves it and takes long.
find_libraries() {
    local crate folders=
    [ -z "${CFI_LIBRARIES:-}" ] || return 0
    for crate in "$@"; do
        [ -f "$repository/crates/$crate/out/lib$crate.a" ] ||
            (cd "$repository/crates/$crate" && rt lib) >&2
        folders+=$repository/crates/$crate/out:
    done
    CFI_LIBRARIES=$folders$(dirname "$(rt doc)")/c
    export CFI_LIBRARIES
}

# copy_gimli WORK: copies gimli to WORK/gimli, from the folder GIMLI or, where that is not set, from
# crates.io.
copy_gimli() {
    local source=${GIMLI:-}
    if [ -z "$source" ]; then
        rm -rf "$1/source"
        cp -r "$repository/bench/driver" "$1/source"
        (cd "$1/source" && cargo vendor --quiet --respect-source-config vendor > /dev/null)
        source=$1/source/vendor/gimli
    fi
    rm -rf "$1/gimli"
    cp -r --no-preserve=mode "$source" "$1/gimli"
}
