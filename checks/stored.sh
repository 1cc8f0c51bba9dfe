# Checks of release/, the program that is stored with its sources, and of the scripts that look at it and renew it.
# Part of checks/run.
# shellcheck shell=sh

# stored_here: what checks/sources.sh knows of this tree. Each check has a shell of its own.
stored_here() {
    root=$top
    # shellcheck source=checks/sources.sh
    . "$top/checks/sources.sh"
}

is_what_was_built() {
    stored_here
    [ -d "$release" ] || {
        echo "there is no release/ here"
        exit 77
    }
    is_whole_release || {
        echo "release/m17 is missing, or is not what release/SHA256 names"
        return 1
    }
    is_release || {
        echo "release/ is of other sources than these; checks/renew-release renews it"
        exit 77
    }
    other=$program
    [ "$(readlink -f -- "$program")" != "$(readlink -f -- "$release/m17")" ] || other=$built
    [ "$other" != "$built" ] || [ "$program" = "$built" ] || is_of_sources || {
        echo "no program of these sources was built here; rt ci proves and builds one, which takes hours of processor time"
        exit 77
    }
    cmp "$release/m17" "$other" || {
        echo "release/m17 is said to be of these sources, and is not what they give; checks/renew-release renews it"
        return 1
    }
}
check "release/m17 is byte for byte the program that was proved and built of these sources" is_what_was_built

# Nothing says so of a tree whose sources were changed by hand; that is no failure.
says_whose_it_is() {
    stored_here
    [ -d "$release" ] || {
        echo "there is no release/ here"
        exit 77
    }
    "$top/checks/release" >got
    ended=$?
    [ "$(wc -l <got)" -eq 1 ] || return 1
    if is_release; then
        [ $ended -eq 0 ] && grep -q "these sources, proved and built with $(cat "$release/kit")" got
    else
        [ $ended -eq 1 ] && grep -q 'other sources' got
    fi
}
check "checks/release says in one line whether release/ is of these sources" says_whose_it_is
