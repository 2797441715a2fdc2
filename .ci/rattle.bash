# Builds of static libraries that rt has no command for: by the compiler that rt calls, with the words that rt would give
# it. It is sourced, at the top of the repository.

kit=$(dirname "$(rt doc)")
toolchain=$kit/toolchain

# is_newer FILE CRATE..: whether the file exists and no source of these crates is newer.
is_newer() {
    local file=$1 crate
    shift
    [ -e "$file" ] || return 1
    for crate in "$@"; do
        [ -z "$(find "crates/$crate"/{src,specs,proofs} -newer "$file" -print -quit 2> /dev/null)" ] || return 1
    done
}

# words_of NAME: puts into the array words what a check or a build of a crate needs, over the crates below it as they were last
# built.
words_of() {
    local root=src/lib.rt line crate named below
    [ ! -e "crates/$1/src/main.rt" ] || root=src/main.rt
    line=$(grep -E "^$1( staticlib)?:" crates.txt)
    read -r -a named <<< "${line#*:}"
    mapfile -t below < <(awk -v crate="$1" -f tools/crates_below.awk crates.txt)
    words=(--crate-name "$1" "$root" -L "dependency=$kit/rlibs")
    [[ ${line%%:*} != *staticlib ]] || words+=(--crate-type staticlib --links "$1=")
    for crate in std "${named[@]}"; do
        if [ -d "crates/$crate" ]; then
            words+=(--extern "$crate=../$crate/out/rlib/$crate.rlib")
        else
            words+=(--extern "$crate=$kit/rlibs/$crate.rlib")
        fi
    done
    for crate in "${below[@]:1}"; do
        words+=(-L "dependency=../$crate/out/rlib")
    done
    words+=(--antt-project "$kit/rattle/logic/antt-project.json" --logic-built "$kit/logic_built" --list-axioms)
}

# build_static NAME LIBRARY OPTION..: proves and builds the crate NAME as the static library LIBRARY, with the compiler of the
# folder $toolchain.
build_static() {
    local name=$1 library=$2 words
    shift 2
    words_of "$name"
    mkdir -p "${library%/*}"
    (cd "crates/$name" && "$kit/bin/rattle" build "${words[@]}" "$@" --backend llvm --toolchain "$toolchain" -o "$library")
}

# build_cfi_c LIBRARY OPTION..: the same for cfi_c.
build_cfi_c() {
    build_static cfi_c "$@"
}

# has_libraries NAME: whether the libraries below a crate are built of their sources, by rt ci or rt check.
has_libraries() {
    local below crate rlib
    mapfile -t below < <(awk -v crate="$1" -f tools/crates_below.awk crates.txt)
    for crate in "${below[@]:1}"; do
        rlib=crates/$crate/out/rlib
        [ -e "$rlib/$crate.rlib/format" ] || return 1
        is_newer "$rlib" "$crate" || is_newer "$rlib/stamp" "$crate" || return 1
    done
}

# build_library NAME: proves and builds crates/NAME/out/libNAME.a, and prints what the compiler says if that fails. Over libraries
# that are built the crate is built alone, and what the compiler says stays in out/built; rt lib would prove those of rt ci again,
# which are statements without proofs.
build_library() {
    local said
    if has_libraries "$1"; then
        said=$(build_static "$1" "$PWD/crates/$1/out/lib$1.a" --jobs 2 2>&1) && printf '%s\n' "$said" > "crates/$1/out/built"
    else
        rm -f "crates/$1/out/built"
        said=$(cd "crates/$1" && rt lib 2>&1)
    fi || { printf '%s\n' "$said" && return 1; }
}

# worked_rows: the worked rows of the program, a case a line.
worked_rows() {
    .ci/worked_rows.py
}
