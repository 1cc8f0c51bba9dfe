# Reads what `tcpdump -x` prints, and writes the bytes of each UDP datagram as a line of hex digits, which `m17 show`
# reads. The UDP header says how long a datagram is: bytes that only fill up a short Ethernet frame are not part of it.
#
#   tcpdump -l -n -i any -x 'udp port 17000' | awk -W interactive -f examples/tcpdump_hex.awk | ./m17 show
#
# A line comes out as soon as its datagram is whole. IPv4 and IPv6 (without extension headers) may be mixed.

# The number that hex digits are.
function number(digits,    i, value) {
    for (i = 1; i <= length(digits); i++) value = 16 * value + index("0123456789abcdef", substr(digits, i, 1)) - 1
    return value
}

# Where the UDP header begins, in digits of the packet `hex`; 0 for what is no UDP.
function udp_at(hex) {
    if (hex ~ /^4/ && substr(hex, 19, 2) == "11") return 8 * number(substr(hex, 2, 1)) + 1
    if (hex ~ /^6/ && substr(hex, 13, 2) == "11") return 81
    return 0
}

# Tells of a packet that the capture has cut, and begins the next one.
function begin() {
    if (hex != "" && !is_done) print "tcpdump_hex.awk: no whole UDP datagram: " hex > "/dev/stderr"
    hex = ""
    is_done = 0
}

$1 !~ /^0x[0-9a-f]+:$/ { begin(); next }

{ for (i = 2; i <= NF; i++) hex = hex $i }

!is_done && length(hex) >= 40 && (at = udp_at(hex)) && length(hex) >= at + 15 {
    size = 2 * number(substr(hex, at + 8, 4))
    if (length(hex) < at + size - 1) next
    print substr(hex, at + 16, size - 16)
    fflush()
    is_done = 1
}

END { begin() }
