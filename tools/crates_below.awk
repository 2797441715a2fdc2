# Prints a crate of crates.txt and the crates of this repository that it is built from, one a line.
# Usage: awk -v crate=NAME -f crates_below.awk crates.txt

/^[a-z]/ {
    sub(/#.*/, "")
    colon = index($0, ":")
    libraries[$1 ~ /:$/ ? substr($1, 1, length($1) - 1) : $1] = substr($0, colon + 1)
}

function print_with_below(name,   below, count, i) {
    if (name in printed || !(name in libraries)) return
    printed[name] = 1
    print name
    count = split(libraries[name], below, " ")
    for (i = 1; i <= count; i++) print_with_below(below[i])
}

END { print_with_below(crate) }
