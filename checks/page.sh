# Checks of contrib/m17-page, the page of a reflector: on what a reflector would write, against whoever means harm, and in a
# browser where one is installed. Part of checks/run.
# shellcheck shell=sh

# No wait of a try takes longer than two minutes: then it fails, or ends with 77 where the machine had no time for it.
most=900

# tries SCRIPT WORD FURTHER..: these tries of a script at once, each in a folder of its own.
tries() {
    needs python3
    script=$1 pids='' failed_tries=0 starved_tries=0
    shift
    for word; do
        mkdir "$word" && (cd "$word" && exec timeout $most python3 -B "$top/checks/$script" "$word" "$top/contrib/m17-page" \
            "$top/contrib/README.md") >"$word.said" 2>&1 &
        pids="$pids $!"
    done
    for pid in $pids; do
        wait "$pid"
        case $? in
        0) ;;
        77) starved_tries=$((starved_tries + 1)) ;;
        *) failed_tries=$((failed_tries + 1)) ;;
        esac
    done
    for word; do sed "s/^/$word: /" "$word.said"; done
    [ $failed_tries -eq 0 ] || return 1
    [ $starved_tries -eq 0 ] || { grep -h '^nothing can be said' ./*.said | tail -n 1 && exit 77; }
}

page_of_scenes() {
    tries page.py scene board forms
}
check "m17-page shows who is in, who talks and how it ended, by books and by a board, behind restarts, in each of its forms" page_of_scenes

safe_page() {
    tries page_safe.py askers files clock disk
}
check "m17-page bears bad requests, crowds, slow clients, forged files, a clock that jumps and a disk that hangs, in 64 MB" safe_page

places_of_page() {
    tries page_places.py listeners halves slow piece news error
}
check "m17-page answers others while hundreds listen, say half a line or read nothing, and holds no old page" places_of_page

lock_of_page() {
    tries page_lock.py failed both writes locked left share closed stale names
}
check "m17-page knows behind a start that failed that nobody runs, leaves out books of earlier runs, and says what it hasn't read" lock_of_page

line_between() {
    tries page_board.py between
}
check "m17-page has the right start where a line of the board comes while it reads" line_between

figures_of_page() {
    needs python3 promtool
    python3 -B "$top/checks/page.py" forms "$top/contrib/m17-page" "$top/contrib/README.md" && promtool check metrics <figures
}
check "promtool finds nothing in the figures of m17-page" figures_of_page

words_of_page() {
    needs python3
    mkdir kept && set -- timeout 300 "$top/contrib/m17-page" || return 1
    for words in '' 'kept two' '--other kept' '--port 0 kept' '--port 65536 kept' '--every 0 kept' 'kept --port' '--name a_b kept' \
        '--parrots a kept' '--json kept' '--bind here kept'; do
        # shellcheck disable=SC2086  # a word for each
        gives 2 '' "$@" $words 2>why || return 1
    done
    # A port that somebody has.
    python3 -c '
import socket, subprocess, sys
with socket.socket() as own:
    own.bind(("127.0.0.1", 0))
    own.listen()
    sys.exit(subprocess.run([*sys.argv[1:], "--port", str(own.getsockname()[1]), "kept"]).returncode != 5)' "$@" 2>why || return 1
    "$@" --once kept >page && grep -q '<h1>M17 reflector</h1>' page && "$@" --once --json no/such >data && grep -q '"no folder"' data || return 1
    [ -c /dev/full ] || return 0
    "$@" --once kept >/dev/full
    [ $? -eq 4 ] || return 1
    "$@" --help >/dev/full
    [ $? -eq 4 ]
}
check "m17-page has a status for words and outputs that are refused" words_of_page

page_in_browser() {
    needs python3
    for browser in chromium chromium-browser google-chrome; do
        command -v "$browser" >/dev/null && break
        browser=
    done
    [ -n "$browser" ] || needs chromium
    timeout $most python3 -B "$top/checks/page_browser.py" "$top/contrib/m17-page"
}
check "a browser shows the page of m17-page, narrow and wide, light and dark, by keyboard, to screen readers and without scripts" page_in_browser
