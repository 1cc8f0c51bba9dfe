# Checks that no frame goes round for ever where reflectors are joined in a circle. Part of checks/run.
# shellcheck shell=sh

no_circle() {
    needs python3
    prog serve --call M17-TST --no-guard no-place </dev/null >/dev/null
    [ $? -eq 5 ] || {
        echo "this program has no guard"
        exit 77
    }
    timeout 300 python3 -B "$top/checks/circles.py" "$program"
}
check "in each circle of reflectors and bridges a frame ends, and what a guard must not keep out is heard whole" no_circle

# Frames again and again, without CRCs, and at once, beside the reference.
drawn_cases() {
    needs python3
    prog serve --call M17-TST --fill-crc --no-guard --pace 0 no-place </dev/null >/dev/null
    [ $? -eq 5 ] || {
        echo "this program has no guard"
        exit 77
    }
    timeout 120 python3 -B "$top/checks/drawn.py" "$program" 1
}
check "drawn frames are filled, kept out and paced as the reference says" drawn_cases
