#!/bin/sh
# Holds the library to scapy, the Linux kernel and tshark. It needs root: it installs what is missing
# from Debian, and makes four network namespaces for the kernel's packets, which it removes again.
set -eu
cd "$(dirname "$0")/../.."
x86=scripts/x86.sh out=target/interop python=/usr/bin/python3
export PYTHONDONTWRITEBYTECODE=1

fail() {
    echo "interop: $*" >&2
    exit 1
}

scripts/setup.sh
missing=
for pair in tshark:tshark dumpcap:tshark ip:iproute2 ethtool:ethtool ping:iputils-ping ip6tables:iptables; do
    command -v "${pair%:*}" >/dev/null && continue
    case "$missing " in *" ${pair#*:} "*) ;; *) missing="$missing ${pair#*:}" ;; esac
done
$python -c 'import scapy' 2>/dev/null || missing="$missing python3-scapy"
if [ -n "$missing" ]; then
    echo "interop: installing$missing"
    apt-get -qq update
    # shellcheck disable=SC2086
    DEBIAN_FRONTEND=noninteractive apt-get -qq install -y --no-install-recommends $missing >/dev/null
fi

archive=$($x86 lib)/libhifrostum.a
mkdir -p $out
for source in tests/interop/ours.c examples/status/status.c; do
    name=${source##*/}
    $x86 cc -O2 -std=c11 -Wall -Wextra -Wpedantic -Werror -Iinclude "$source" "$archive" -o "$out/${name%.c}"
done

# Two namespaces, a and b, and two ways between them: a pair of cards (net 99), and through a third namespace, m, where
# our relay takes what comes at one card to the other (net 98). All cards leave the sums to the kernel. Those of the
# first way take 4,000 bytes, so that the longest header between has room, and those of the second 1,280, as few as IPv6
# allows. Routing headers of type 4 are for kernels that are told to take them. A fourth namespace, k, forwards between
# two more cards of m: to prefixes inside by the first, and to all others by the second. And it forwards IPv4 on a third
# way between a and b (net 97): its routes take 576 bytes and the cards 4,000, so it cuts what comes, also what a kernel
# had cut before, since no end looks for a path's limit where its own route's is locked. b keeps many fragments that
# lack others.
a=hifrostum-a-$$ b=hifrostum-b-$$ m=hifrostum-m-$$ k=hifrostum-k-$$ server='' capture='' relay=''
clean() {
    for process in $server $capture $relay; do
        kill "$process" 2>/dev/null || true
    done
    for ns in $a $b $m $k; do
        ip netns del "$ns" 2>/dev/null || true
    done
}
trap clean EXIT
trap 'exit 1' INT TERM
for ns in $a $b $m $k; do
    ip netns add "$ns"
done
ip link add card netns $a type veth peer name card netns $b
ip link add far netns $a type veth peer name left netns $m
ip link add far netns $b type veth peer name right netns $m
start() { # NAMESPACE CARD
    ip netns exec "$1" ethtool -K "$2" tx off rx off tso off gso off gro off >/dev/null
    ip -n "$1" link set "$2" up
}
start $m left
start $m right
number=1
for ns in $a $b; do
    for net in 99:card 98:far; do
        ip -n "$ns" addr add 10.${net%:*}.0.$number/24 dev "${net#*:}"
        ip -n "$ns" addr add fd${net%:*}::$number/64 dev "${net#*:}" nodad
        start "$ns" "${net#*:}"
    done
    ip -n "$ns" link set card mtu 4000
    ip -n "$ns" link set far mtu 1280
    for card in all card far; do
        ip netns exec "$ns" sh -c "echo 1 >/proc/sys/net/ipv6/conf/$card/seg6_enabled"
    done
    ip link add wide mtu 4000 netns "$ns" type veth peer name wide$number mtu 4000 netns $k
    ip -n "$ns" addr add 10.97.$number.$number/24 dev wide
    ip -n $k addr add 10.97.$number.9/24 dev wide$number noprefixroute
    start "$ns" wide
    start $k wide$number
    ip -n $k route add 10.97.$number.0/24 dev wide$number mtu 576
    ip -n "$ns" route add 10.97.0.0/16 via 10.97.$number.9 mtu lock 4000
    number=$((number + 1))
done
ip netns exec $b sh -c 'echo 268435456 >/proc/sys/net/ipv4/ipfrag_high_thresh'
ip netns exec $k sh -c 'echo 1 >/proc/sys/net/ipv4/ip_forward; echo 1 >/proc/sys/net/ipv6/conf/all/forwarding'
for card in in out; do
    ip link add $card mtu 4000 netns $m type veth peer name $card mtu 4000 netns $k
    ip netns exec $m sh -c "echo 1 >/proc/sys/net/ipv6/conf/$card/disable_ipv6" # the ends themselves say nothing
    start $m $card
    start $k $card
    ip -n $k neigh add fe80::1 lladdr "$(ip netns exec $m cat /sys/class/net/$card/address)" dev $card nud permanent
done
ip -n $k -6 route add fd00::/8 via fe80::1 dev in
ip -n $k -6 route add default via fe80::1 dev out

# Has k exchange prefixes on the way, if this kernel can.
npt=none
$python tests/interop/npt.py >$out/npt.rules
for kind in nft legacy; do
    ip netns exec $k ip6tables-$kind-restore <$out/npt.rules 2>$out/npt.log && npt=$k && break
done
if [ $npt = none ] && grep -q '^SNPT$' /proc/net/ip6_tables_targets; then
    fail "this kernel can exchange prefixes, but doesn't take the rules ($out/npt.log)"
fi

# A capture ends by itself after a minute or 5,000 packets, whatever happens here, and so do server and relay.
wait_for() { # FILE
    tries=0
    until [ -s "$1" ]; do
        tries=$((tries + 1))
        if [ $tries -gt 100 ]; then
            fail "the capture, the server or the relay didn't start: $1 is empty ($out/dumpcap.log)"
        fi
        sleep 0.1
    done
}
listen() { # FILE CARD
    rm -f "$1"
    ip netns exec $b dumpcap -q -P -i "$2" -a duration:60 -c 5000 -w "$1" 2>$out/dumpcap.log &
    capture=$!
    wait_for "$1"
}
heard() {
    sleep 1
    kill -INT $capture
    wait $capture || true
    capture=
}
begin_relay() { # EDIT CAPTURES
    rm -f $out/relaying
    ip netns exec $m timeout 600 $python tests/interop/relay.py "$1" left right "$out/$2seen.pcap" "$out/$2sent.pcap" \
        $x86 run $out/ours >$out/relaying &
    relay=$!
    wait_for $out/relaying
}
end_relay() {
    kill $relay
    wait $relay 2>/dev/null || true # which says that it was ended
    relay=
}
rm -f $out/ready
ip netns exec $b timeout 300 $python tests/interop/talk.py serve >$out/ready &
server=$!
wait_for $out/ready
begin_relay lower ''

listen $out/kernel.pcap card
ip netns exec $a timeout 30 $python tests/interop/talk.py ask 10.99.0.2 fd99::2
for size in 0 1 8 55 56 57 1000 1400; do
    ip netns exec $a ping -q -n -c 2 -i 0.2 -W 2 -s $size 10.99.0.2 >/dev/null
    ip netns exec $a ping -q -n -c 2 -i 0.2 -W 2 -s $size fd99::2 >/dev/null
done
heard

# With headers between: those that the kernel lets sockets ask for, which the other kernel answers.
listen $out/between.pcap card
ip netns exec $a timeout 30 $python tests/interop/recorder.py try fd99::2
ip netns exec $a timeout 60 $python tests/interop/recorder.py send fd99::2 3000 ||
    fail "a packet with headers between was not answered"
heard

# Cut by the kernels: what is too long for a's card, and behind it what is too long for k's routes.
listen $out/cut.pcap card
ip netns exec $a timeout 30 $python tests/interop/talk.py cut 10.99.0.2 ||
    fail "a datagram in fragments with options was not answered"
for size in 4001 5000 9999 20000; do
    ip netns exec $a ping -q -n -c 2 -i 0.2 -W 2 -s $size 10.99.0.2 >/dev/null ||
        fail "a ping of $size bytes was not answered"
done
heard
listen $out/narrow.pcap wide
for what in ask large cut much; do
    ip netns exec $a timeout 60 $python tests/interop/talk.py $what 10.97.2.2 ||
        fail "what k cuts was not answered (talk.py $what)"
done
for size in 600 1400 2600 2601 4096 9999 30000; do
    ip netns exec $a ping -q -n -c 2 -i 0.2 -W 2 -s $size 10.97.2.2 >/dev/null ||
        fail "a ping of $size bytes that k cuts was not answered"
done
heard

# Through the relay goes what has headers between, and what is so long that the kernel cuts it, but nothing with a
# lifetime of 1.
ip netns exec $a timeout 60 $python tests/interop/recorder.py send fd98::2 160 ||
    fail "a packet with headers between was not answered through the relay"
ip netns exec $a timeout 60 $python tests/interop/recorder.py large fd98::2 ||
    fail "a datagram in fragments with headers between was not answered through the relay"
ip netns exec $a timeout 60 $python tests/interop/talk.py large 10.98.0.2 fd98::2 ||
    fail "a datagram in fragments was not answered through the relay"
for to in 10.98.0.2 fd98::2; do
    for size in 2600 2601 4096 9999 30000 65000; do
        ip netns exec $a ping -q -n -c 1 -W 5 -s $size $to >/dev/null ||
            fail "a ping of $size bytes to $to was not answered through the relay"
    done
    ! ip netns exec $a ping -q -n -c 1 -W 1 -t 1 -s 2600 $to >/dev/null ||
        fail "a ping with the lifetime 1 to $to was answered through the relay"
done
end_relay

# Through a relay that exchanges prefixes: a is the host of RFC 6296's example, and b knows it by its address outside.
# The cards take 1,500 bytes again. What goes in fragments isn't answered, nor what has the word FFFF behind the prefix.
host=fd01:203:405:1::1234 forbidden=fd01:203:405:ffff::1234 other=2001:db8:2::2
for ns in $a $b; do
    ip -n "$ns" link set far mtu 1500
done
for address in $host/64 $forbidden/64 fe80::1/64; do
    ip -n $a addr add "$address" dev far nodad
done
for address in $other/64 fe80::2/64; do
    ip -n $b addr add "$address" dev far nodad
done
ip -n $a -6 route add 2001:db8:2::/48 via fe80::2 dev far src $host
ip -n $b -6 route add 2001:db8:1::/48 via fe80::1 dev far
begin_relay exchange exchange-
ip netns exec $a timeout 30 $python tests/interop/talk.py ask $other ||
    fail "a datagram or a connection was not answered through the relay that exchanges prefixes"
ip netns exec $a timeout 60 $python tests/interop/talk.py much $other ||
    fail "a million bytes were not answered through the relay that exchanges prefixes"
for size in 0 1 8 55 56 57 1000 1400; do
    ip netns exec $a ping -q -n -c 2 -i 0.2 -W 2 -s $size $other >/dev/null ||
        fail "a ping of $size bytes was not answered through the relay that exchanges prefixes"
done
! ip netns exec $a ping -q -n -c 1 -W 1 -s 2600 $other >/dev/null ||
    fail "a ping in fragments was answered through the relay that exchanges prefixes"
! ip netns exec $a ping -q -n -c 1 -W 1 -I $forbidden $other >/dev/null ||
    fail "a ping with the word FFFF was answered through the relay that exchanges prefixes"
end_relay
kill $server
wait $server 2>/dev/null || true
server=

# What has a trailing area or headers between, what has its prefix exchanged, and what we build goes from a to b in
# here, by the first way, to where the server was; and some of what the relay saw goes once more through one like it.
begin_relay exchange again-
$python tests/interop/interop.py $out $a $b $m $npt $x86 run $out/ours
