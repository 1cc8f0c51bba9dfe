# Checks of the rules of examples/m17.nft, each in a network namespace of its own. Part of checks/run.
# shellcheck shell=sh

# Ends the check that calls it as skipped where it has no such namespace.
needs_network() {
    needs nft ip unshare python3
    unshare -n true 2>/dev/null || {
        echo "no network namespace may be made here"
        exit 77
    }
}

# in_network SCRIPT RULES: what the script of the shell prints there, beside these rules, is in the file got.
in_network() {
    timeout 60 unshare -n sh "$1" "$2" >got 2>&1 || {
        cat got
        grep -q 'not permitted\|not supported\|No such file' got && echo "nft may not work here" && exit 77
        return 1
    }
}

callers_and_kept_out() {
    needs_network
    cat >calls.py <<'END'
import socket, sys
host = sys.argv[1]
family = socket.AF_INET6 if ":" in host else socket.AF_INET
s = socket.socket(family, socket.SOCK_DGRAM)
r = socket.socket(family, socket.SOCK_DGRAM)
r.bind((host, 17000))
r.settimeout(1)
s.sendto(bytes.fromhex("434F4E4E0000009FDD5141"), (host, 17000))
try:
    print("heard", len(r.recv(100)))
except OSError:
    print("not heard")
END
    cat >tries.sh <<'END'
calls() {
    python3 calls.py 127.0.0.1 && python3 calls.py 2001:db8:0:7::5
}
ip link set lo up && ip -6 address add 2001:db8:0:7::5/64 dev lo nodad && nft -f "$1" && calls || exit 1
nft list set inet m17 callers4 && nft list set inet m17 callers6 || exit 1
nft add element inet m17 kept_out4 '{ 127.0.0.1 timeout 1h }' && nft add element inet m17 kept_out6 '{ 2001:db8:0:7:: timeout 1h }' &&
    calls || exit 1
nft delete element inet m17 kept_out6 '{ 2001:db8:0:7:: }' && nft add element inet m17 kept_out6 '{ 2001:db8:0:7::5 }' && calls
END
    in_network tries.sh "$top/examples/m17.nft" || return 1
    [ "$(grep -c '^heard 11$' got)" -eq 2 ] && [ "$(grep -c '^not heard$' got)" -eq 4 ] || {
        cat got
        return 1
    }
    # The callsign out of what nft shows, as docs/service.md says it.
    for caller in 127.0.0.1 2001:db8:0:7::5; do
        number=$(sed -n "s/.*$caller \\. \\(0x[0-9a-f]*\\).*/\\1/p" got)
        printf '434F4E4E%012X41\n' "$number" | prog show >shown
        [ "$(cat shown)" = 'conn AB1CD A' ] || {
            cat got shown
            return 1
        }
    done
}
check "the firewall's sets name who called, with the callsign, and keep out whom they are told" callers_and_kept_out

# beside_rules RULES: what the Python on standard input prints beside these rules, in a network whose loopback has
# addresses of ten networks /64, and whose device v0 hears what is sent by v1; it goes to the file got.
beside_rules() {
    cat >tries.py
    cat >net.py <<'END'
import socket, struct, sys
sys.dont_write_bytecode = True
CONN, PING = bytes.fromhex("434F4E4E0000009FDD5141"), bytes.fromhex("50494E470000009FDD51")
# Where it hears, and hosts that say something, of IPv4 and of IPv6.
SIDES = [("127.0.0.1", ["127.0.1.%d" % n for n in range(1, 10)]),
         ("2001:db8:0:10::1", ["2001:db8:0:1%d::1" % n for n in range(1, 10)])]

def opened(host, port=0):
    s = socket.socket(socket.AF_INET6 if ":" in host else socket.AF_INET, socket.SOCK_DGRAM)
    s.setsockopt(socket.SOL_SOCKET, socket.SO_REUSEADDR, 1)
    s.setsockopt(socket.SOL_SOCKET, 33, 1 << 24)  # SO_RCVBUFFORCE: room for all that is said here
    s.bind((host, port))
    return s

# Of which hosts something came. Each is answered, so that the system knows it from then on.
def hears(server):
    server.settimeout(0.3)
    hosts = []
    try:
        while True:
            data, peer = server.recvfrom(100)
            server.sendto(b"ACKN", peer)
            hosts.append(peer[0])
    except OSError:
        return hosts

def heard(server, peer, data=CONN):
    peer.sendto(data, server.getsockname()[:2])
    return len(hears(server))
END
    cat >tries.sh <<'END'
ip link set lo up && ip link add v0 address 02:00:00:00:00:00 type veth peer name v1 address 02:00:00:00:00:01 &&
    ip link set v0 up && ip link set v1 up && ip -6 address add 2001:db8:0:7::1/64 dev v0 nodad &&
    ip -6 address add 2001:db8:0:7::2/64 dev v0 nodad && nft -f "$1" || exit 1
for n in 0 1 2 3 4 5 6 7 8 9; do ip -6 address add "2001:db8:0:1$n::1/64" dev lo nodad || exit 1; done
python3 -B tries.py
END
    in_network tries.sh "$1"
}

# What was printed there has to be this.
printed() {
    printf '%s\n' "$@" | cmp - got || {
        cat got
        return 1
    }
}

from_that_port() {
    needs_network
    cat >port.py <<'END'
from net import *
for at, hosts in SIDES:
    server = opened(at, 17000)
    print(heard(server, opened(hosts[0], 17000)), heard(server, opened(hosts[0])))
END
    beside_rules "$top/examples/m17.nft" <port.py && printed '0 1' '0 1' || return 1
    sed '/^ *udp sport 17000 /d' "$top/examples/m17.nft" >bridged.nft
    beside_rules "$PWD/bridged.nft" <port.py && printed '1 1' '1 1'
}
check "the firewall drops what a reflector's port sent, until its line is taken out" from_that_port

own_address() {
    needs_network
    cat >own.py <<'END'
from net import *
sys.path.append(TOP)
from forger import sum_of_words
outside = socket.socket(socket.AF_PACKET, socket.SOCK_RAW)
outside.bind(("v1", 0))
server = opened("2001:db8:0:7::1", 17000)

def from_outside(host):
    hosts = socket.inet_pton(socket.AF_INET6, host) + socket.inet_pton(socket.AF_INET6, "2001:db8:0:7::1")
    udp = struct.pack("!HHH", 4000, 17000, 19)
    check = sum_of_words(hosts + struct.pack("!HH", 19, 17) + udp + CONN)
    data = struct.pack("!IHBB", 6 << 28, 19, 17, 64) + hosts + udp + struct.pack("!H", check) + CONN
    outside.send(bytes.fromhex("020000000000" "020000000001" "86DD") + data)
    return len(hears(server))

print(from_outside("2001:db8:0:7::9"), from_outside("2001:db8:0:7::1"), from_outside("2001:db8:0:7::2"))
print(heard(server, opened("2001:db8:0:7::1")), heard(server, opened("2001:db8:0:11::1")))
END
    sed -i "s|TOP|'$top/checks'|" own.py
    beside_rules "$top/examples/m17.nft" <own.py && printed '1 0 0' '1 1' || return 1
    sed '/fib saddr type local/d' "$top/examples/m17.nft" >without.nft
    beside_rules "$PWD/without.nft" <own.py && printed '1 1 1' '1 1'
}
check "the firewall drops what comes from outside in the machine's own address, and hears its clients" own_address

# Rates and newcomers have room for four: who is known and in none is heard no more, and nobody new is let in.
full_sets() {
    needs_network
    sed '/set rates\|set newcomers/,/}/s/size 65536/size 4/' "$top/examples/m17.nft" >small.nft
    beside_rules "$PWD/small.nft" <<'END' && printed '4 4 4 0 0' '4 4 4 0 0'
from net import *
import subprocess
for at, hosts in SIDES:
    server, peers = opened(at, 17000), [opened(host) for host in hosts]
    said = [sum(heard(server, peer) for peer in peers[:4])]
    subprocess.run(["nft", "flush", "set", "inet", "m17", "rates6" if ":" in at else "rates4"], check=True)
    said += [sum(heard(server, peer, data) for peer in peers[4:8]) for data in (CONN, PING)]
    print(*said, heard(server, peers[8]), sum(heard(server, peer, PING) for peer in peers[:4]))
END
}
check "behind sets of the firewall that are full members are heard, and nobody else" full_sets

# A port that says too much uses up its own share, and not that of another port of its address.
shares() {
    needs_network
    beside_rules "$top/examples/m17.nft" <<'END' && printed True True
from net import *
for at, hosts in SIDES:
    server, loud, quiet = opened(at, 17000), opened(hosts[0]), opened(hosts[0])
    heard(server, loud), heard(server, quiet)
    for number in range(1000):
        loud.sendto(PING, (at, 17000))
        if number >= 500 and number % 10 == 0:
            quiet.sendto(PING, (at, 17000))
    print(190 <= len(hears(server)) < 500)
END
}
check "the firewall counts each port of an address by itself" shares

# 2,000 addresses say one CONN each, and then one address says it from 300 ports, where another one is new.
many_newcomers() {
    needs_network
    cat >many.py <<'END'
from net import *
server = opened("127.0.0.1", 17000)
for n in range(2000):
    opened("127.2.%d.%d" % (n // 100, 1 + n % 100)).sendto(CONN, ("127.0.0.1", 17000))
print(100 <= len(hears(server)) < 2000)
END
    for size in 65536 4; do
        sed "/set newcomers/,/}/s/size 65536/size $size/" "$top/examples/m17.nft" >rules.nft
        beside_rules "$PWD/rules.nft" <many.py && printed True || return 1
    done
    beside_rules "$top/examples/m17.nft" <<'END' && printed '8 1'
from net import *
server = opened("127.0.0.1", 17000)
for peer in [opened(host) for host in ["127.0.1.1"] * 300 + ["127.0.1.2"]]:
    peer.sendto(CONN, ("127.0.0.1", 17000))
hosts = hears(server)
print(hosts.count("127.0.1.1"), hosts.count("127.0.1.2"))
END
}
check "the firewall's limit on newcomers holds for many addresses, and is not used up by one" many_newcomers
