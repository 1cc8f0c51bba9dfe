# Checks of the probe (conformance/PROBE.md): that the built program keeps each rule for which it is asked, and that faults are
# found which were planted in a small reflector. Part of checks/run.
# shellcheck shell=sh

# Both side by side, since most of it is to wait.
probed() {
    needs python3
    python3 -B "$top/conformance/test_probe.py" program "$program" --few
}
check "the probe finds nothing in serve, by one link, two, [::], options, pauses, and each of twenty-four planted faults" probed

probed_pages() {
    needs python3
    python3 -B "$top/conformance/test_probe.py" pages
}
check "the sections that the probe's scenes name are there, and PROBE.md has each scene" probed_pages

# Public addresses, and words that are none. Nobody is asked.
probe_words() {
    needs python3
    for words in 8.8.8.8:17000 '[2001:4860:4860::8888]:17000' localhost:17000 127.0.0.1 '127.0.0.1:1 --modules AA' \
        '127.0.0.1:1 --modules A --parrot B' '127.0.0.1:1 --quick --full' '127.0.0.1:1 --call n0call' \
        '127.0.0.1:1 --only flor' '127.0.0.1:1 --quick --only there.kept'; do
        # shellcheck disable=SC2086  # words
        python3 -B "$top/conformance/probe" $words >said 2>&1
        [ $? -eq 2 ] || {
            echo "taken: $words"
            return 1
        }
    done
}
check "the probe refuses public addresses without --yes, and words that are none" probe_words
