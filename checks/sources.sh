# What the program is built from, by name and checksum, and whether a program is of that. For m17, checks/run,
# checks/release and checks/renew-release, which read this file; the top of the tree is in $root.
# shellcheck shell=sh

# The crates that the program stands on, and itself, lowest first: the line of each in crates.txt.
program_crates() {
    awk '
        function visit(name,    parts, count, i) {
            if (!(name in below) || name in seen) return
            seen[name] = 1
            count = split(below[name], parts)
            for (i = 1; i <= count; i++) visit(parts[i])
            print line[name]
        }
        { sub(/#.*/, ""); $1 = $1 }
        /:/ { name = $1; sub(/:.*/, "", name); line[name] = $0; sub(/^[^:]*:/, ""); below[name] = $0 }
        END { visit("m17_app") }' "$root/crates.txt"
}

# The same crates by name alone.
crates_in_order() {
    program_crates | sed 's/[ :].*//'
}

# with_sources COMMAND..: the command at the top of the tree, with the folders of the sources, and HANDLES, behind it.
with_sources() {
    (
        crates=$(crates_in_order)
        CDPATH='' cd -- "$root/" || exit 1
        for crate in $crates; do
            for part in src specs proofs; do
                [ ! -d "crates/$crate/$part" ] || set -- "$@" "crates/$crate/$part"
            done
        done
        "$@" HANDLES
    )
}

files_of() {
    find "$@" -type f -exec sha256sum {} +
}

# The lines of the crates, and then the name and checksum of each file. Times do not matter, so that a tree that was
# built may be copied. Must-fail edits, and crates that the program does not stand on, are no part of it.
sources() {
    program_crates && with_sources files_of | LC_ALL=C sort -k 2
}

# What was noted when the program was built here: the sources, as they were before the first proof, and the program.
is_built() {
    [ -x "$built" ] && [ -f "$record" ] && { sources && sha256sum <"$built"; } | cmp -s - "$record"
}

# Whether release/ has a program of these sources, and just the one that its checksum names.
is_release() {
    is_whole_release && sources | cmp -s - "$release/SOURCES"
}
is_whole_release() {
    [ -x "$release/m17" ] && [ -f "$release/kit" ] && [ -f "$release/SOURCES" ] &&
        (CDPATH='' cd -- "$release/" && sha256sum m17 | cmp -s - SHA256)
}

# Whether the program that stands in out/ is of these sources. `rt ci` notes nothing, and leaves a program that is
# younger than all that it read.
newer_than_built() {
    find "$@" -newer crates/m17_app/out/m17_app
}
is_of_sources() {
    [ -x "$built" ] || return 1
    if [ -f "$record" ]; then is_built; else [ -z "$(with_sources newer_than_built)" ]; fi
}

release=$root/release out=$root/crates/m17_app/out
built=$out/m17_app record=$out/m17.sources
