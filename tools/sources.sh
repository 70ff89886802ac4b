# What tools/list, tools/make and tools/prover know of the crates. They source this file at the top of the checkout.

# What a line of crates.txt has after the colon, of the crate of this name: the libraries that it names.
named() {
    sed -nE "s/#.*//; s/^$1( +staticlib)? *:(.*)/\2/p" crates.txt
}

# The crates that rt proves for this one: itself and, directly or not, its dependencies in crates.txt. The kit's libraries have no line
# there.
needed() {
    awk -F: -v crate="$1" '
        function visit(name, names, i) {
            if (!(name in needs) || name in seen) return
            seen[name] = 1
            print name
            for (i = split(needs[name], names, " "); i > 0; i--) visit(names[i])
        }
        { sub(/#.*/, "") }
        NF > 1 { split($1, words, " "); needs[words[1]] = $2 }
        END { visit(crate) }' crates.txt
}

# The files from which rt proves a crate, each name followed by a zero byte.
proved_from() {
    find crates.txt .ci/toolchain $(needed "$1" | sed 's,^,crates/,') \( -name must-fail -o -name out \) -prune -o -type f -print0
}

# A hash of files, of their names and contents. Their names come on standard input, each followed by a zero byte.
hash_of() {
    LC_ALL=C sort -z | xargs -0 sha256sum | sha256sum | cut -d ' ' -f 1
}

# Whether `rt ci` left everything below a crate in out/: each library below it was made there since the file that PROVED_SINCE names. The
# gate sets this variable. Elsewhere there may be libraries of older sources, which rt alone can tell.
ci_left() {
    local name
    [ -n "${PROVED_SINCE:-}" ] || return 1
    for name in $(needed "$1"); do
        [ "$name" = "$1" ] || [ "crates/$name/out/rlib/$name.rlib" -nt "$PROVED_SINCE" ] || return 1
    done
}
