# Checks of the documents: their examples, the names and paths in them. Part of checks/run.
# shellcheck shell=sh

# The commands of the blocks ```console, each after `$ `, with what they print below them; run in a tree that is built.
# A reflector runs beside what follows it, for fewer seconds and at another port than the document says.
examples_of() { # DOCUMENT
    make_tree tree && with_rt tree/m17 build 2>/dev/null || return 1
    awk '
        /^```console$/ { on = 1; next }
        /^```/ { on = 0 }
        on && /^\$ / { count++; print substr($0, 3) >(count ".command"); printf "" >(count ".wanted"); next }
        on && count { print >(count ".wanted") }' "$top/$1" || return 1
    [ -f 1.command ] || {
        echo "$1 has no example"
        return 1
    }
    if grep -q 'm17 serve' ./*.command; then
        needs python3
        port=$(free_port)
    fi
    at=0
    while [ -f $((at += 1)).command ]; do
        sed -i "s/:17000/:${port:-17000}/g; s/--for [0-9]*/--for 6/" $at.command
        if grep -q 'm17 serve' $at.command; then
            (cd tree && without_rt sh ../$at.command) >beside 2>&1 &
            mv $at.wanted beside.wanted
            sleep 1
        else
            (cd tree && without_rt sh ../$at.command) >got 2>&1
            prints_as_said "$1" $at.command got $at.wanted || return 1
        fi
    done
    [ ! -f beside ] || { wait && prints_as_said "$1" 'm17 serve' beside beside.wanted; }
}
prints_as_said() { # DOCUMENT COMMAND GOT WANTED
    cmp "$3" "$4" || {
        echo "$1 says otherwise of: $(cat "$2" 2>/dev/null || echo "$2")"
        return 1
    }
}
check "the examples of README.md print what it says" examples_of README.md
for page in operating service reference; do
    check "the examples of docs/$page.md print what it says" examples_of docs/$page.md
done

help_has_each_command() {
    "$top/m17" help >help || return 1
    grep -o '\./m17 [a-z]*' "$top/README.md" "$top/docs/operating.md" "$top/docs/service.md" \
        "$top/docs/reference.md" | sed 's/.* //' | sort -u >named
    [ -s named ] || return 1
    while read -r word; do
        grep -q "m17 $word" help || {
            echo "m17 help says nothing of $word"
            return 1
        }
    done <named
}
check "m17 help has each command that the documents name" help_has_each_command

# In the tables of docs/*.md the column `edits` names files of crates/*/must-fail and of edits/.
edits_are_named() {
    awk -F '|' '
        !/^\|/ { column = 0; next }
        !column { for (i = 2; i < NF; i++) if ($i ~ /^ *edits *$/) column = i; if (!column) column = -1; next }
        column > 0 { print $column }' "$top"/docs/*.md | grep -o '`[a-z0-9_]*`' | tr -d '`' | sort -u >named
    find "$top"/crates/*/must-fail "$top/edits" -name '*.edit' | sed 's/.*\///; s/\.edit$//' | sort -u >files
    [ -s named ] && [ -s files ] || return 1
    comm -23 named files | sed 's/$/ is named in docs\/*.md, and is no edit/' >wrong
    comm -13 named files | sed 's/$/ is an edit that docs\/*.md do not name/' >>wrong
    cat wrong
    [ ! -s wrong ]
}
check "the tables of what is proved name each edit, and no other" edits_are_named

edits_stand() {
    needs python3
    "$top/checks/edits" --standing
}
check "each edit can be applied, and the gate has no more than it should" edits_stand

crates_are_on_the_map() {
    sed 's/#.*//; /:/!d; s/[ :].*//' "$top/crates.txt" >crates
    [ -s crates ] || return 1
    while read -r name; do
        grep -q "^| .*\`$name\`" "$top/docs/architecture.md" || {
            echo "docs/architecture.md has no row for $name"
            return 1
        }
    done <crates
}
check "docs/architecture.md has each crate of crates.txt" crates_are_on_the_map

# links_of FOLDER: the relative links of its documents, as paths.
links_of() {
    find "$1" -name out -prune -o -name '*.md' -print | while read -r text; do
        grep -o '](\([^)#]*\)' "$text" | sed 's/^](//' | grep -v '^[a-z]*:' | sed "s|^|${text%/*}/|"
    done | grep -v '/NAME\|[*]'
}

# links_lead_on FOLDER: whether each of them leads to something.
links_lead_on() {
    links_of "$1" | while read -r path; do
        [ -e "$path" ] || echo "there is no ${path#"$1"/}"
    done >missing
    cat missing
    [ ! -s missing ]
}

# Paths in back quotes that begin with a folder of the tree.
paths_are_there() {
    links_lead_on "$top" || return 1
    for text in "$top"/*.md "$top"/docs/*.md "$top"/bench/*.md "$top"/contrib/*.md "$top"/conformance/*.md "$top"/edits/*.md "$top"/crates/*/CALLING.md; do
        grep -o '`\(crates\|docs\|edits\|examples\|bench\|checks\|contrib\|conformance\|release\)/[A-Za-z0-9_./-]*`' "$text" | tr -d '`' |
            grep -v '/out/\|/NAME\|[*]' | while read -r path; do
            [ -e "$top/$path" ] || echo "${text#"$top"/}: there is no $path"
        done
    done >missing
    cat missing
    [ ! -s missing ]
}
check "links and paths in the documents lead to something" paths_are_there

# What the pages CALLING.md quote as a caller stands in some crate, line by line.
callers_are_of_the_code() {
    find "$top"/crates/*/src -name '*.rt' -exec sed 's/^ *//' {} + | sort -u >lines
    for text in "$top"/crates/*/CALLING.md; do
        awk '/^```rust$/ { on = 1; next } /^```/ { on = 0 } on && NF' "$text" | sed 's/^ *//' | sort -u | comm -23 - lines |
            sed "s|^|${text#"$top"/} quotes what no crate has: |"
    done >wrong
    cat wrong
    [ -s lines ] && [ ! -s wrong ]
}
check "the callers that CALLING.md quotes stand in the crates" callers_are_of_the_code

one_version() {
    told=$("$top/m17" version | sed -n 's/^m17 //p')
    newest=$(sed -n 's/^## \([0-9][0-9.]*\).*/\1/p' "$top/CHANGELOG.md" | head -n 1)
    paged=$(sed -n 's/^\.TH .*"m17 \([0-9.]*\)".*/\1/p' "$top/docs/m17.1")
    [ -n "$told" ] && [ "$told" = "$newest" ] && [ "$told" = "$paged" ] || {
        echo "m17 version says $told, CHANGELOG.md begins with $newest, and docs/m17.1 is of $paged"
        return 1
    }
}
check "m17 version, CHANGELOG.md and the manual page name the same version" one_version

# Its commands, options and statuses are those of `m17 help`.
manual_page() {
    sed 's/\\-/-/g; s/\\f[BIR]//g' "$top/docs/m17.1" >page
    "$top/m17" help >help || return 1
    for text in help page; do
        grep -o -e '--[a-z][a-z]*' $text | sort -u >$text.options
    done
    cmp help.options page.options || return 1
    sed -n 's/^\(usage:\)\{0,1\} *\(m17 [a-z]*\) .*/\2/p' help | sort -u >commands
    sed -n 's/^\(status\)\{0,1\} *\([0-9][0-9]*\)  .*/.B \2/p' help >statuses
    [ "$(wc -l <commands)" -ge 10 ] && [ "$(wc -l <statuses)" -ge 10 ] || return 1
    while read -r line; do
        grep -qx -e "$line.*" page || {
            echo "docs/m17.1 has no line: $line"
            return 1
        }
    done <<END
$(cat commands statuses)
END
}
check "the manual page has the commands, options and statuses of m17 help" manual_page

manual_page_is_set() {
    needs groff
    groff -man -ww -z "$top/docs/m17.1" >said 2>&1
    ended=$?
    cat said
    [ $ended -eq 0 ] && [ ! -s said ]
}
check "the manual page is set without a warning" manual_page_is_set

made_examples() {
    needs python3
    cp "$top/examples/make.py" . && python3 make.py || return 1
    for made in judge.bin show.hex evening.trace talk.script evening.book disputed.book; do
        cmp $made "$top/examples/$made" || return 1
    done
}
check "examples/make.py makes the example inputs" made_examples

# The recipe of contrib/README.md, on a capture whose short Ethernet frames are filled up to 60 bytes.
capture() {
    needs tcpdump python3
    python3 "$top/checks/padded_capture.py" <"$top/examples/show.hex" >padded.pcap || return 1
    for _ in 4 6; do cat "$top/examples/show.hex"; done | prog show | sort >wanted
    tcpdump -n -r - -x 'udp port 17000' <padded.pcap 2>/dev/null | awk -f "$top/examples/tcpdump_hex.awk" >lines || return 1
    prog show <lines | sort | cmp - wanted || {
        cat lines
        return 1
    }
    grep -qF 'awk -W interactive -f examples/tcpdump_hex.awk' "$top/contrib/README.md"
}
check "the recipe for tcpdump leaves out what fills up short frames" capture
