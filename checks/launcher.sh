# Checks of the launcher `m17`, in copies of the tree outside the repository. What stands for `rt` there notes that it
# was called and puts the built program in its place, so that no check builds anything. Part of checks/run.
# shellcheck shell=sh

# copy_tree FOLDER: the tree without what rt makes and without the stored program, and of each crate one file.
copy_tree() {
    mkdir -p "$1" || return 1
    for part in "$top"/*; do
        case ${part##*/} in
        crates | release) ;;
        *) cp -R "$part" "$1/" || return 1 ;;
        esac
    done
    for part in "$top"/crates/*/src/lib.rt "$top"/crates/*/src/main.rt; do
        folder=$1/${part#"$top"/}
        mkdir -p "${folder%/*}" && cp "$part" "${folder%/*}/" || return 1
    done
}

# make_tree FOLDER: a copy of the tree that has no stored program, and beside it, in `tools`, what stands for rt.
make_tree() {
    [ -d "$scratch/tree" ] || copy_tree "$scratch/tree" || return 1
    cp -R "$scratch/tree" "$1" && mkdir tools || return 1
    # shellcheck source=checks/sources.sh
    (root=$1 && . "$1/checks/sources.sh" && crates_in_order | sed 's/^/== /') >tools/told && [ -s tools/told ] || return 1
    cat >tools/rt <<END
#!/bin/sh
case \$1 in
version)
    echo "rattle-kit-of-the-checks"
    exit
    ;;
esac
echo "\$1 \${PWD##*/}" >>"$PWD/calls"
echo "this is what rt says"
echo "this is what rt says" >&2
case \$1 in
all) cat "$PWD/tools/told" ;;
run) mkdir -p out && cp "$program" out/m17_app && exec out/m17_app judge ;;
esac
END
    chmod +x tools/rt
}

# store: puts the program into release/ of the tree, as one that was built of its sources; rt is not called for it again.
store() {
    with_rt tree/m17 build 2>/dev/null && tree/checks/renew-release >/dev/null && rm -r tree/crates/m17_app/out calls
}

# with_rt COMMAND.. and without_rt COMMAND..: the command, where rt is what stands for it, and where there is none.
with_rt() {
    PATH=$PWD/tools:/usr/bin:/bin "$@"
}
without_rt() {
    PATH=/usr/bin:/bin
    ! command -v rt >/dev/null || {
        echo "rt is in /usr/bin or /bin here, so it cannot be left out"
        exit 77
    }
    "$@"
}

# has FILE TEXT: whether the file has the text; else it is printed.
has() {
    grep -qF -- "$2" "$1" || {
        echo "$1 has no '$2':"
        cat "$1"
        return 1
    }
}

help_and_version() {
    make_tree tree || return 1
    for word in help --help; do
        without_rt tree/m17 $word >got 2>err || return 1
        has got 'm17 judge < RECORDS' && has got 'm17 show < HEX-LINES' && has got 'status  0' || return 1
        has got 'm17 make SEED COUNT' && has got 'm17 replay [OPTION].. < TRACE' && has got '        7   ' || return 1
    done
    without_rt tree/m17 version >got 2>err && has got 'no program of these sources' && has got 'rt ci' || return 1
    [ ! -s err ] && [ ! -e tree/crates/m17_app/out ] || return 1
    without_rt tree/m17 help >/dev/full
    [ $? -eq 4 ]
}
check "m17 help and m17 version need no build, and say when they cannot be written" help_and_version

no_rt() {
    make_tree tree || return 1
    { without_rt tree/m17 judge >got 2>err; echo $? >ended; cat >left; } <"$top/examples/judge.bin"
    [ "$(cat ended)" -eq 70 ] && [ ! -s got ] && has err 'rt is not in PATH' || return 1
    cmp left "$top/examples/judge.bin"
}
check "with no rt and no program the launcher ends with 70, and reads nothing" no_rt

mistyped() {
    make_tree tree || return 1
    for word in nonsense 'judge show' JUDGE x,judge ''; do
        with_rt tree/m17 "$word" >got 2>err <"$top/examples/judge.bin"
        [ $? -eq 2 ] && printf 'words refused\n' | cmp - got && [ "$(wc -l <err)" -eq 1 ] && has err 'm17 help' || return 1
        [ ! -e calls ] || return 1
    done
    for words in '' 'build more' 'install' 'help nonsense' 'nonsense --help' 'test 1 2' 'version 1' \
        'judge judge' 'judge -- --help' 'check A.book' 'migrate A.book' 'make' 'make 1' 'make --seed 1' 'replay x' 'replay --listen' \
        'talk --call AB1CD' 'talk x y z u v' 'serve' 'serve x' 'serve -x y z'; do
        # shellcheck disable=SC2086
        with_rt tree/m17 $words >got 2>err
        [ $? -eq 2 ] && printf 'words refused\n' | cmp - got && has err 'm17 help' && [ ! -e calls ] || {
            echo "m17 $words"
            return 1
        }
    done
    gives 2 'words refused\n' with_rt tree/m17 install '' 2>err && has err 'm17 help install' && [ ! -e calls ] || return 1
    with_rt tree/m17 nonsense >/dev/full 2>err
    [ $? -eq 4 ] && [ ! -e calls ] || return 1
    printf '#!/bin/sh\nexit 1\n' >tools/rt
    for words in judge show check migrate 'judge --' 'check --' 'make 1 2' 'make -- 1 2' replay 'replay --summary' 'replay --call=m17-tst' \
        'talk --call AB1CD --module A --bind x --to y' 'serve x --call M17-TST' 'serve --call=M17-TST x' test; do
        # shellcheck disable=SC2086
        with_rt tree/m17 $words </dev/null >got 2>err
        [ $? -eq 70 ] && has err 'could not be built' || {
            echo "m17 $words"
            return 1
        }
    done
}
check "words that cannot be right are refused before anything is built, and no others" mistyped

wrong_tree() {
    mkdir alone && cp "$top/m17" alone/m17 || return 1
    { with_rt alone/m17 judge >got 2>err; echo $? >ended; cat >left; } <"$top/examples/judge.bin"
    [ "$(cat ended)" -eq 70 ] && [ ! -s got ] && has err 'has neither crates.txt' || return 1
    cmp left "$top/examples/judge.bin"
}
check "where there is neither a tree nor an installed program the launcher ends with 70" wrong_tree

failed_build() {
    make_tree tree || return 1
    printf '#!/bin/sh\necho "m17_crc NOT PROVED"\nexit 1\n' >tools/rt
    with_rt tree/m17 judge <"$top/examples/judge.bin" >got 2>err
    [ $? -eq 70 ] && [ ! -s got ] && has err 'could not be built' && has err 'm17_crc NOT PROVED' || return 1
    [ ! -e tree/crates/m17_app/out/m17.sources ] || return 1
    find tree/crates/m17_app/out -type f ! -name m17.log ! -name m17.lock | grep . && return 1
    { echo 'echo "== m17_crc"; echo "goal is open"; echo "== m17_lsd"; seq 20; echo "== summary"; echo "m17_crc: failed (1)"'; echo 'exit 1'; } \
        >tools/rt
    with_rt tree/m17 judge <"$top/examples/judge.bin" >got 2>err
    [ $? -eq 70 ] && has err 'm17_crc could not be built' && has err 'goal is open' && ! grep 20 err
}
check "a build that fails ends with 70, says what rt said last, and is tried again" failed_build

# Another file of the sources changes while rt proves, which must not pass for what was built.
changed_meanwhile() {
    make_tree tree && cp tools/rt rt && sed "s|^all) |&echo '// more' >>'$PWD/tree/crates/m17_crc/src/lib.rt'; |" rt >tools/rt || return 1
    for words in judge build; do
        with_rt tree/m17 $words </dev/null >got 2>err
        [ $? -eq 70 ] && [ ! -s got ] && has err 'built ' && has err 'the sources changed meanwhile' || return 1
    done
    cp rt tools/rt && with_rt tree/m17 judge </dev/null 2>err && ! grep 'meanwhile' err && without_rt tree/m17 judge </dev/null
}
check "where the sources change during a build m17 says so, and the next use builds what changed" changed_meanwhile

unwritable_tree() {
    make_tree tree && echo >tree/crates/m17_app/out || return 1
    with_rt tree/m17 judge >got 2>err
    [ $? -eq 70 ] && [ ! -s got ] && [ ! -e calls ] && has err 'cannot write to' || return 1
    rm tree/crates/m17_app/out && mkdir -p tree/crates/m17_app/out/m17.log || return 1
    with_rt tree/m17 judge >got 2>err
    [ $? -eq 70 ] && [ ! -s got ] && [ ! -e calls ] && has err 'cannot write to'
}
check "a tree that cannot be written to ends with 70, and nothing is built" unwritable_tree

first_build() {
    make_tree tree || return 1
    with_rt tree/m17 judge <"$top/examples/judge.bin" >got 2>err || return 1
    prog judge <"$top/examples/judge.bin" | cmp - got || return 1
    number=$(wc -l <tools/told)
    has err "crate $number of $number: m17_app" || return 1
    has err ' at a time, about ' && has err 'min to go' || return 1
    grep -F 'what rt says' err >/dev/null && ! grep -F 'this is what rt says' err || return 1
    has tree/crates/m17_app/out/m17.log 'this is what rt says' || return 1
    printf 'all m17_app\nrun m17_app\n' | cmp - calls || return 1
    without_rt tree/m17 version >got && has got 'rattle-kit-of-the-checks' && has got 'built here'
}
check "a first build says how far it is, keeps what rt says in a file, and runs the command" first_build

# Each crate is named behind those that it stands on, and none that the program does not stand on.
order_of_crates() {
    make_tree tree && with_rt tree/m17 build 2>/dev/null || return 1
    sed -n '/^[^:]*:/p' tree/crates/m17_app/out/m17.sources >named
    awk '
        { sub(/#.*/, ""); name = $1; sub(/:.*/, "", name); at[name] = ++count; sub(/^[^:]*:/, ""); line[name] = $0 }
        END {
            for (name in line) {
                $0 = line[name]
                for (i = 1; i <= NF; i++) if ($i ~ /^m17_/ && !($i in at && at[$i] < at[name])) { print $i, "after", name; bad = 1 }
            }
            exit bad || at["m17_app"] != count
        }' named
}
check "the sources name each crate behind those that it stands on" order_of_crates

later_uses() {
    make_tree tree && with_rt tree/m17 build 2>err || return 1
    rm calls
    with_rt tree/m17 show <"$top/examples/show.hex" >got 2>err && [ ! -s err ] && [ ! -e calls ] || return 1
    with_rt tree/m17 build 2>err && [ ! -e calls ] || return 1
    touch tree/crates/m17_app/src/main.rt && echo more >>tree/README.md && mkdir tree/crates/m17_app/must-fail || return 1
    echo more >tree/crates/m17_app/must-fail/another.edit
    with_rt tree/m17 build 2>err && [ ! -e calls ] || return 1
    echo '// more' >>tree/crates/m17_app/src/main.rt
    with_rt tree/m17 build 2>err && has err ' crates, up to ' && [ -e calls ] && ! grep 'min to go' err || return 1
    rm calls
    with_rt tree/m17 build 2>err && [ ! -e calls ] || return 1
    echo '// more' >>tree/crates/m17_app/out/m17_app
    with_rt tree/m17 build 2>err && [ -e calls ] && rm calls || return 1
    rm tree/crates/m17_app/src/main.rt
    with_rt tree/m17 build 2>err && [ -e calls ] && rm calls || return 1
    echo 'm17_more: m17_app' >>tree/crates.txt && mkdir -p tree/crates/m17_more/src && : >tree/crates/m17_more/src/lib.rt || return 1
    with_rt tree/m17 build 2>err && [ ! -e calls ] || return 1
    sed 's/^m17_crc:/& arrayvec/' tree/crates.txt >changed && cp changed tree/crates.txt || return 1
    with_rt tree/m17 build 2>err && [ -e calls ]
}
check "a change of what the program was built from, or of the program, builds again, and no other" later_uses

copied_tree() {
    make_tree tree && with_rt tree/m17 build 2>/dev/null || return 1
    mkdir 'another place' && cp -R tree 'another place/of it' && rm -r tree || return 1
    find 'another place' -exec touch {} + || return 1
    without_rt 'another place/of it/m17' judge <"$top/examples/judge.bin" >got 2>err || return 1
    [ ! -s err ] && prog judge <"$top/examples/judge.bin" | cmp - got || return 1
    ln -s "$PWD/another place/of it/m17" linked || return 1
    (cd / && without_rt "$OLDPWD/linked" judge) <"$top/examples/judge.bin" | cmp - got || return 1
    echo '// more' >>'another place/of it/crates/m17_app/src/main.rt'
    without_rt ./linked judge <"$top/examples/judge.bin" >got 2>err
    [ $? -eq 70 ] && has err 'rt is not in PATH'
}
check "a built tree that was copied elsewhere, and a link to it, run without rt" copied_tree

own_statuses() {
    make_tree tree && with_rt tree/m17 build 2>/dev/null || return 1
    printf 4 >odd
    gives 1 'input refused at 0: odd\n' tree/m17 show <odd || return 1
    gives 2 'words refused\n' tree/m17 nonsense <odd || return 1
    gives 2 'words refused\n' tree/m17 <odd || return 1
    gives 2 'words refused\n' tree/m17 help nonsense <odd || return 1
    gives 2 'words refused\n' tree/m17 install <odd || return 1
    gives 2 'words refused\n' tree/m17 "$(printf '\377')" <odd || return 1
    gives 3 'read failed\n' tree/m17 show </ || return 1
    tree/m17 show <odd >/dev/full
    [ $? -eq 4 ]
}
check "the statuses of the program pass through the launcher" own_statuses

installed() {
    make_tree tree && with_rt tree/m17 install 'a prefix' >got 2>err || return 1
    [ ! -s got ] && has err 'installed ' && rm -r tree || return 1
    without_rt 'a prefix/bin/m17' judge <"$top/examples/judge.bin" >got 2>err || return 1
    [ ! -s err ] && prog judge <"$top/examples/judge.bin" | cmp - got || return 1
    without_rt 'a prefix/bin/m17' version >got && has got 'rattle-kit-of-the-checks' || return 1
    without_rt 'a prefix/bin/m17' help >got && has got 'm17 judge' || return 1
    for text in README.md docs/operating.md docs/service.md docs/reference.md examples/show.hex examples/m17.service LICENSE-MIT contrib/README.md; do
        cmp "$top/$text" "a prefix/share/doc/m17/$text" || return 1
    done
    for script in m17-log m17-book m17-pcap m17-page m17-why; do
        [ -x "a prefix/bin/$script" ] || return 1
    done
    if command -v python3 >/dev/null; then
        for script in m17-log m17-book m17-pcap m17-page m17-why; do
            without_rt "a prefix/bin/$script" --help >helped && has helped "$script" || return 1
        done
        # With all that it needs from lib.
        without_rt 'a prefix/bin/m17-page' --once . >shown && has shown '<h1>M17 reflector</h1>' || return 1
    fi
    cmp "$top/docs/m17.1" 'a prefix/share/man/man1/m17.1' || return 1
    find 'a prefix' -type f -name '*.[0-9]*' ! -name m17.1 | grep . && return 1
    for words in build test 'install elsewhere'; do
        # shellcheck disable=SC2086  # two words
        without_rt 'a prefix/bin/m17' $words 2>err
        [ $? -eq 70 ] && has err 'tree of the sources' || return 1
        grep -e "m17 ${words%% *}" got && return 1
    done
    return 0
}
check "m17 install PREFIX: what it puts there runs without rt and without the tree" installed

failed_install() {
    make_tree tree && with_rt tree/m17 build 2>/dev/null || return 1
    : >file
    without_rt tree/m17 install file/below 2>err
    [ $? -eq 70 ] && has err 'could not install'
}
check "an install that cannot write ends with 70" failed_install

# The highest version of the C library whose symbols the program wants is at most the one that the launcher names.
c_library() {
    needs readelf
    said=$(sed -n "s/^runs_on=.*glibc \([0-9.]*\).*/\1/p" "$top/m17")
    wants=$(readelf -W --version-info "$program" | grep -o 'GLIBC_[0-9.]*' | cut -d _ -f 2 | sort -Vu | tail -n 1)
    [ -n "$said" ] && [ -n "$wants" ] || return 1
    [ "$(printf '%s\n%s\n' "$wants" "$said" | sort -V | tail -n 1)" = "$said" ] || {
        echo "m17 says glibc $said, and the program wants $wants"
        return 1
    }
    readelf -h "$program" | grep -q 'X86-64'
}
check "the program runs with the C library that m17 version names" c_library
