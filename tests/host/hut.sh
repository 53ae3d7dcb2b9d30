#!/bin/sh
# Runs captures through the hut, and judges what comes out with the program judge_capture.
#   hut.sh HUT JUDGE_CAPTURE    two x86-64 programs
set -eu
x86=$(dirname "$0")/../../scripts/x86.sh
hut=$1 judge_capture=$2
dir=$(mktemp -d)
trap 'rm -rf "$dir"' EXIT
checks=0 failed=0

# Writes the bytes that the words say in hex.
bytes() {
    for pair in $(echo "$*" | tr -d ' ' | sed 's/../& /g'); do
        # shellcheck disable=SC2059
        printf "\\$(printf %03o "0x$pair")"
    done
}

# Counts a check, and says what was wrong if WANT and GOT differ.
same() { # WHAT WANT GOT
    checks=$((checks + 1))
    [ "$2" = "$3" ] && return
    failed=$((failed + 1))
    printf 'hut: %s: wanted\n%s\nand got\n%s\n' "$1" "$2" "$3"
}

# Runs the hut on the capture in, and leaves its output, what it said and its exit status.
relay() { # WORDS..
    status=0
    "$x86" run "$hut" "$@" <"$dir/in" >"$dir/out" 2>"$dir/said" || status=$?
}

head='474C52 0001'
echo4='4500 001C 0000 0000 40 01 66DF 0A000001 0A000002 0800 F7FD 0001 0001'
udp4='4500 001E 0000 4000 40 11 B8B6 C0A80001 C0A800C7 1388 1389 000A 0E47 4869'
one=00000000000000000000000000000001
echo6="60000000 0008 3A 40 $one $one 8000 7FB9 0001 0001"
unsummed=$(echo "$udp4" | sed 's/0E47/0000/')

# Each packet that is to pass, and what is to drop the others.
bytes "$head" \
    0000 \
    001C "$echo4" \
    001E "$udp4" \
    001E "$(echo "$udp4" | sed 's/4869/486A/')" \
    001E "$(echo "$udp4" | sed 's/B8B6/B8B7/')" \
    001E "$(echo "$udp4" | sed 's/40 11 B8B6/01 11 F7B6/')" \
    0030 "$echo6" \
    001E "$unsummed" \
    0001 50 0001 50 >"$dir/in"
relay 10.0.0.9
same 'exit status' 0 "$status"
same 'what it says' 'hut: dropped 1: cut
hut: dropped 2: version
hut: dropped 1: header sum
hut: dropped 1: message sum
hut: dropped 1: spent
hut: records 10 relayed 4 dropped 6' "$(cat "$dir/said")"
bytes "$head" \
    001C "$(echo "$echo4" | sed 's/40 01 66DF/3F 01 67D8/; s/0A000002/0A000009/')" \
    001E "$(echo "$udp4" | sed 's/40 11 B8B6/3F 11 711D/; s/C0A800C7/0A000009/; s/0E47/C5AD/')" \
    0030 "$(echo "$echo6" | sed 's/3A 40/3A 3F/')" \
    001E "$(echo "$unsummed" | sed 's/40 11 B8B6/3F 11 711D/; s/C0A800C7/0A000009/')" >"$dir/want"
same 'what it writes' "$(od -An -tx1 -v "$dir/want")" "$(od -An -tx1 -v "$dir/out")"
same 'judged' 'record 1 verdict 0
record 2 verdict 0
record 3 verdict 0
record 4 verdict 1
records 4 good 3 unsummed 1 refused 0' "$("$x86" run "$judge_capture" <"$dir/out")"

# The other family: IPv4 keeps its destination, and the IPv6 sums still pass.
relay 2001:db8::9
same 'IPv6: exit status' 0 "$status"
same 'IPv6: judged' 'record 1 verdict 0
record 2 verdict 0
record 3 verdict 0
record 4 verdict 1
records 4 good 3 unsummed 1 refused 0' "$("$x86" run "$judge_capture" <"$dir/out")"
bytes "$(echo "$echo4" | sed 's/40 01 66DF/3F 01 67DF/')" >"$dir/want"
same 'IPv6: an IPv4 packet' "$(od -An -tx1 -v "$dir/want")" "$(tail -c +8 "$dir/out" | head -c 28 | od -An -tx1 -v)"

# Fragments: a datagram of 29 bytes in three, over each family. They go on with their destination, whichever the hut
# sets, and the verdict on each stays: 6 over both.
from4='C0A80001 C0A800C7' begin='1388 1389 001D' text='616C746974756465' more='2031323030206D65' rest='7472657321'
first4="4500 0024 0007 2000 40 11 D8A9 $from4 $begin BD0C $text"
middle4="4500 001C 0007 2002 40 11 D8AF $from4 $more"
last4="4500 0019 0007 0003 40 11 F8B1 $from4 $rest"
first6="60000000 0018 2C 40 $one $one 1100 0001 00000007 $begin 3F24 $text"
middle6="60000000 0010 2C 40 $one $one 1100 0011 00000007 $more"
last6="60000000 000D 2C 40 $one $one 1100 0018 00000007 $rest"
verdicts='record 1 verdict 6
record 2 verdict 6
record 3 verdict 6
record 4 verdict 6
record 5 verdict 6
record 6 verdict 6
record 7 verdict 6
records 7 good 0 unsummed 0 refused 7'
# the last has a tail, which stays
bytes "$head" 0024 "$first4" 001C "$middle4" 0019 "$last4" 0040 "$first6" 0038 "$middle6" 0035 "$last6" \
    001B "$last4" AA55 >"$dir/in"
bytes "$head" \
    0024 "$(echo "$first4" | sed 's/40 11 D8A9/3F 11 D9A9/')" \
    001C "$(echo "$middle4" | sed 's/40 11 D8AF/3F 11 D9AF/')" \
    0019 "$(echo "$last4" | sed 's/40 11 F8B1/3F 11 F9B1/')" \
    0040 "$(echo "$first6" | sed 's/2C 40/2C 3F/')" \
    0038 "$(echo "$middle6" | sed 's/2C 40/2C 3F/')" \
    0035 "$(echo "$last6" | sed 's/2C 40/2C 3F/')" \
    001B "$(echo "$last4" | sed 's/40 11 F8B1/3F 11 F9B1/')" AA55 >"$dir/want"
same 'fragments: judged before' "$verdicts" "$("$x86" run "$judge_capture" <"$dir/in")"
for to in 10.0.0.9 2001:db8::9; do
    relay $to
    same "fragments, $to: exit status" 0 "$status"
    same "fragments, $to: what it says" 'hut: relayed 7: fragments, destination kept
hut: records 7 relayed 7 dropped 0' "$(cat "$dir/said")"
    same "fragments, $to: what it writes" "$(od -An -tx1 -v "$dir/want")" "$(od -An -tx1 -v "$dir/out")"
    same "fragments, $to: judged" "$verdicts" "$("$x86" run "$judge_capture" <"$dir/out")"
done

# What drops a fragment: bytes that are missing, lengths of the IP header, its sum, a spent lifetime. And what is none:
# protocol 44 over IPv4, and over IPv6 another number, here with segments left. A fragment behind a hop-by-hop header is
# one. A whole packet among them goes where the others go.
behind6="60000000 0018 00 40 $one $one 2C00 0104 00000000 1100 0011 00000007 $more"
bytes "$head" \
    0018 "4500 0019 0007 0003 40 11 F8B1 $from4 74726573" \
    0034 "60000000 000D 2C 40 $one $one 1100 0018 00000007 74726573" \
    0019 "$(echo "$last4" | sed 's/0019/0013/')" \
    001C "$(echo "$middle4" | sed 's/4500/4400/')" \
    0024 "$(echo "$first4" | sed 's/D8A9/D8A8/')" \
    001C "$(echo "$middle4" | sed 's/00C7/00C6/')" \
    0024 "$(echo "$first4" | sed 's/40 11 D8A9/01 11 17AA/')" \
    0019 "$(echo "$last4" | sed 's/40 11 F8B1/00 11 38B2/')" \
    0040 "$(echo "$first6" | sed 's/2C 40/2C 01/')" \
    0035 "$(echo "$last6" | sed 's/2C 40/2C 00/')" \
    0019 "$(echo "$last4" | sed 's/0003 40 11 F8B1/0000 40 2C F899/')" \
    0038 "$(echo "$middle6" | sed 's/2C 40/2B 40/')" \
    0040 "$behind6" 0024 "$first4" 001C "$echo4" >"$dir/in"
relay 10.0.0.9
same 'dropped fragments: exit status' 0 "$status"
same 'dropped fragments: what it says' 'hut: dropped 2: cut
hut: dropped 2: shape
hut: dropped 2: header sum
hut: dropped 2: uncovered
hut: dropped 4: spent
hut: relayed 2: fragments, destination kept
hut: records 15 relayed 3 dropped 12' "$(cat "$dir/said")"
bytes "$head" \
    0040 "$(echo "$behind6" | sed 's/00 40/00 3F/')" \
    0024 "$(echo "$first4" | sed 's/40 11 D8A9/3F 11 D9A9/')" \
    001C "$(echo "$echo4" | sed 's/40 01 66DF/3F 01 67D8/; s/0A000002/0A000009/')" >"$dir/want"
same 'dropped fragments: what it writes' "$(od -An -tx1 -v "$dir/want")" "$(od -An -tx1 -v "$dir/out")"

# A recorder's packets, with bytes behind the UDP datagram and inside the packet: they go on as they came. Datagrams are
# even, odd with FF behind, and empty; one has no sum, and one a tail behind the packet too.
even4="4500 0021 0000 4000 40 11 B8B3 $from4 1388 1389 000A 0E47 4869 FF0102"
odd4="4500 0021 0000 4000 40 11 B8B3 $from4 1388 1389 000B ED44 486921 FFFF"
empty4="4500 001F 0000 4000 40 11 B8B5 $from4 1388 1389 0008 56B4 486921"
odd6="60000000 000E 11 40 $one $one 1388 1389 000B 6F5C 486921 FF0055"
bytes "$head" 0021 "$even4" 0021 "$odd4" 001F "$empty4" 0036 "$odd6" \
    0021 "$(echo "$odd4" | sed 's/ED44/0000/')" 0023 "$even4" AA55 >"$dir/in"
verdicts='record 1 verdict 0
record 2 verdict 0
record 3 verdict 0
record 4 verdict 0
record 5 verdict 1
record 6 verdict 0
records 6 good 5 unsummed 1 refused 0'
same 'trailing areas: judged before' "$verdicts" "$("$x86" run "$judge_capture" <"$dir/in")"
to4='s/40 11 B8B3/3F 11 711A/; s/40 11 B8B5/3F 11 711C/; s/C0A800C7/0A000009/'
bytes "$head" \
    0021 "$(echo "$even4" | sed "$to4; s/0E47/C5AD/")" \
    0021 "$(echo "$odd4" | sed "$to4; s/ED44/A4AB/")" \
    001F "$(echo "$empty4" | sed "$to4; s/56B4/0E1B/")" \
    0036 "$(echo "$odd6" | sed 's/11 40/11 3F/')" \
    0021 "$(echo "$odd4" | sed "$to4; s/ED44/0000/")" \
    0023 "$(echo "$even4" | sed "$to4; s/0E47/C5AD/")" AA55 >"$dir/want4"
hop='s/40 11 B8B/3F 11 B9B/'
bytes "$head" \
    0021 "$(echo "$even4" | sed "$hop")" \
    0021 "$(echo "$odd4" | sed "$hop")" \
    001F "$(echo "$empty4" | sed "$hop")" \
    0036 "60000000 000E 11 3F $one 20010DB8000000000000000000000009 1388 1389 000B 419B 486921 FF0055" \
    0021 "$(echo "$odd4" | sed "$hop; s/ED44/0000/")" \
    0023 "$(echo "$even4" | sed "$hop")" AA55 >"$dir/want6"
for to in 4:10.0.0.9 6:2001:db8::9; do
    relay "${to#*:}"
    same "trailing areas, IPv${to%%:*}: exit status" 0 "$status"
    same "trailing areas, IPv${to%%:*}: what it says" 'hut: records 6 relayed 6 dropped 0' "$(cat "$dir/said")"
    same "trailing areas, IPv${to%%:*}: what it writes" \
        "$(od -An -tx1 -v "$dir/want${to%%:*}")" "$(od -An -tx1 -v "$dir/out")"
    same "trailing areas, IPv${to%%:*}: judged" "$verdicts" "$("$x86" run "$judge_capture" <"$dir/out")"
done

# What drops such a packet: a length below 8 or past the message, no sum over IPv6, a damaged datagram; and one whose sum
# would be right again if the bytes behind it were summed, with the datagram's length before it or with the message's.
bytes "$head" \
    0021 "$(echo "$even4" | sed 's/000A/0007/')" \
    0021 "$(echo "$even4" | sed 's/000A/000E/')" \
    0036 "$(echo "$odd6" | sed 's/6F5C/0000/')" \
    0036 "$(echo "$odd6" | sed 's/486921/486920/')" \
    0021 "$(echo "$even4" | sed 's/4869 FF0102/4868 000100/')" \
    0021 "$(echo "$even4" | sed 's/4869 FF0102/4868 FFFD00/')" >"$dir/in"
relay 10.0.0.9
same 'dropped trailing areas: exit status' 0 "$status"
same 'dropped trailing areas: what it says' 'hut: dropped 2: shape
hut: dropped 1: missing
hut: dropped 3: message sum
hut: records 6 relayed 0 dropped 6' "$(cat "$dir/said")"

# A recorder that puts options before UDP: hop-by-hop, destination options (also longer ones), both, or a routing header
# whose segments are done; one datagram has a trailing area, and one message is an echo. The headers go on as they came.
text6='1388 1389 000B 6F5C 486921' pad='0104 00000000' to6=20010DB8000000000000000000000009
hop6="60000000 0013 00 40 $one $one 1100 $pad $text6"
options6="60000000 0013 3C 40 $one $one 1100 $pad $text6"
longer6="60000000 001B 3C 40 $one $one 1101 010C 000000000000000000000000 $text6"
both6="60000000 001B 00 40 $one $one 3C00 $pad 1100 $pad $text6"
routed6="60000000 0023 2B 40 $one $one 1102 0400 00000000 FD000000000000000000000000000007 $text6"
trailing6="60000000 0016 00 40 $one $one 1100 $pad $text6 FF0055"
behind6="60000000 0010 3C 40 $one $one 3A00 $pad 8000 7FB9 0001 0001"
verdicts='record 1 verdict 0
record 2 verdict 0
record 3 verdict 0
record 4 verdict 0
record 5 verdict 0
record 6 verdict 0
record 7 verdict 0
records 7 good 7 unsummed 0 refused 0'
# Writes the capture of these, changed by sed.
recorded() { # SED
    for packet in 3B "$hop6" 3B "$options6" 43 "$longer6" 43 "$both6" 4B "$routed6" 3E "$trailing6" 38 "$behind6"; do
        case $packet in
        ??) bytes "00$packet" ;;
        *) bytes "$(echo "$packet" | sed "$1")" ;;
        esac
    done
}
{ bytes "$head" && recorded ''; } >"$dir/in"
{ bytes "$head" && recorded 's/ 40 / 3F /'; } >"$dir/want4"
{ bytes "$head" && recorded "s/ 40 / 3F /; s/$one $one/$one $to6/; s/6F5C/419B/; s/7FB9/51F8/"; } >"$dir/want6"
same 'headers between: judged before' "$verdicts" "$("$x86" run "$judge_capture" <"$dir/in")"
for to in 4:10.0.0.9 6:2001:db8::9; do
    relay "${to#*:}"
    same "headers between, IPv${to%%:*}: exit status" 0 "$status"
    same "headers between, IPv${to%%:*}: what it says" 'hut: records 7 relayed 7 dropped 0' "$(cat "$dir/said")"
    same "headers between, IPv${to%%:*}: what it writes" \
        "$(od -An -tx1 -v "$dir/want${to%%:*}")" "$(od -An -tx1 -v "$dir/out")"
    same "headers between, IPv${to%%:*}: judged" "$verdicts" "$("$x86" run "$judge_capture" <"$dir/out")"
done

# What drops such a packet: a header that passes the payload's end, hop-by-hop that comes late, segments left, a ninth
# header, another protocol behind them, no sum, a damaged message; and sums that would be right with the payload's length
# or with hop-by-hop as the protocol.
nine=$(for _ in 1 2 3 4 5 6 7 8; do echo "3C00 $pad"; done)
bytes "$head" \
    003B "$(echo "$hop6" | sed 's/1100 0104/1102 0104/')" \
    0043 "$(echo "$both6" | sed 's/001B 00/001B 3C/; s/3C00/0000/')" \
    004B "$(echo "$routed6" | sed 's/0400/0401/')" \
    007B "60000000 0053 3C 40 $one $one $nine 1100 $pad $text6" \
    003B "$(echo "$hop6" | sed 's/1100 0104/3B00 0104/')" \
    003B "$(echo "$options6" | sed 's/6F5C/0000/')" \
    003B "$(echo "$options6" | sed 's/486921/486920/')" \
    003B "$(echo "$hop6" | sed 's/6F5C/6F54/')" \
    003B "$(echo "$hop6" | sed 's/6F5C/6F6D/')" >"$dir/in"
relay 2001:db8::9
same 'dropped headers between: exit status' 0 "$status"
same 'dropped headers between: what it says' 'hut: dropped 1: shape
hut: dropped 4: uncovered
hut: dropped 1: missing
hut: dropped 3: message sum
hut: records 9 relayed 0 dropped 9' "$(cat "$dir/said")"

# Prefixes exchanged, by RFC 6296's example: its station's address inside and outside, and a far one. What goes out is UDP,
# TCP, an echo, UDP behind hop-by-hop options, and UDP of a subnet that comes to 0000; then one comes in, and one goes from
# inside to the station's outside address. No field changes.
inside=FD0102030405 outside=20010DB80001 station=0000000000001234 far='20010DB80009 0000 0000000000000009'
in6="$inside 0001 $station" out6="$outside D550 $station" report='1388 1389 000B'
prefixes='--prefix fd01:203:405::/48 2001:db8:1::/48'
# Writes the capture of these, changed by sed.
site() { # SED
    while read -r size packet; do
        bytes "$size" "$(echo "$packet" | sed "$1")"
    done <<END
0033 60000000 000B 11 40 $in6 $far $report 2C54 486921
003E 60000000 0016 06 40 $in6 $far 1388 1389 00000001 00000002 5010 0400 F94B 0000 4869
0030 60000000 0008 3A 40 $in6 $far 8000 3CB1 0001 0001
003B 60000000 0013 00 40 $in6 $far 1100 $pad $report 2C54 486921
0033 60000000 000B 11 40 $inside 2AB0 $station $far $report 01A5 486921
0035 60000000 000B 11 40 $far $out6 $report 2C54 486921 AA55
0033 60000000 000B 11 40 $in6 $out6 $report 44E0 486921
END
}
verdicts='record 1 verdict 0
record 2 verdict 0
record 3 verdict 0
record 4 verdict 0
record 5 verdict 0
record 6 verdict 0
record 7 verdict 0
records 7 good 7 unsummed 0 refused 0'
{ bytes "$head" && site ''; } >"$dir/in"
{ bytes "$head" && site "s/ 40 / 3F /; s/$in6 $out6/OUT IN/; s/$in6/OUT/; s/$out6/IN/; s/$inside 2AB0/$outside 0000/
    s/OUT/$out6/; s/IN/$in6/"; } >"$dir/want"
same 'prefixes: judged before' "$verdicts" "$("$x86" run "$judge_capture" <"$dir/in")"
# shellcheck disable=SC2086
relay $prefixes
same 'prefixes: exit status' 0 "$status"
same 'prefixes: what it says' 'hut: relayed 7: prefix exchanged
hut: records 7 relayed 7 dropped 0' "$(cat "$dir/said")"
same 'prefixes: what it writes' "$(od -An -tx1 -v "$dir/want")" "$(od -An -tx1 -v "$dir/out")"
same 'prefixes: judged' "$verdicts" "$("$x86" run "$judge_capture" <"$dir/out")"
# the same prefixes in other words; and without the option nothing is exchanged
relay --prefix FD01:0203:0405:0000:0000:0000:0000:0000/48 2001:DB8:1:0::/48
same 'prefixes in other words' "$(od -An -tx1 -v "$dir/want")" "$(od -An -tx1 -v "$dir/out")"
{ bytes "$head" && site 's/ 40 / 3F /'; } >"$dir/want"
relay 10.0.0.9
same 'no prefixes' "$(od -An -tx1 -v "$dir/want")" "$(od -An -tx1 -v "$dir/out")"
# and back, by a hut that takes the one for the other
{ bytes "$head" && site 's/ 40 / 3E /'; } >"$dir/want"
# shellcheck disable=SC2086
relay $prefixes
mv "$dir/out" "$dir/in"
relay --prefix 2001:db8:1::/48 fd01:203:405::/48
same 'prefixes and back' "$(od -An -tx1 -v "$dir/want")" "$(od -An -tx1 -v "$dir/out")"

# What has no prefix to exchange goes on with its addresses: a source one bit off, also of the subnet FFFF; the inside prefix
# in a destination, and the outside one in a source; a fragment between others; and IPv4, also where its bytes from 8 on,
# the lifetime lowered, are those of a prefix.
strangers() { # SED
    while read -r size packet; do
        bytes "$size" "$(echo "$packet" | sed "$1")"
    done <<END
0033 60000000 000B 11 40 FD0102030404 0001 $station $far $report 2C55 486921
0033 60000000 000B 11 40 20010DB80009 FFFF 0000000000000009 $far $report 13C8 486921
0033 60000000 000B 11 40 $far $in6 $report 2C54 486921
0033 60000000 000B 11 40 $out6 $far $report 2C54 486921
0038 60000000 0010 2C 40 $out6 $in6 1100 0011 00000007 $more
001C $echo4
END
}
{ bytes "$head" && strangers ''; } >"$dir/in"
{ bytes "$head" && strangers 's/ 40 / 3F /; s/66DF/67DF/'; } >"$dir/want"
# shellcheck disable=SC2086
relay $prefixes
same 'strangers: exit status' 0 "$status"
same 'strangers: what it says' 'hut: relayed 1: fragments, destination kept
hut: records 6 relayed 6 dropped 0' "$(cat "$dir/said")"
same 'strangers: what it writes' "$(od -An -tx1 -v "$dir/want")" "$(od -An -tx1 -v "$dir/out")"
relay --prefix 3f01:67df:a00::/48 2001:db8:1::/48
same 'strangers, IPv4 with a prefix at 8' "$(od -An -tx1 -v "$dir/want")" "$(od -An -tx1 -v "$dir/out")"

# What is dropped, since it has a prefix and can't exchange it: the subnet FFFF, of the source and of the destination, also
# where the source is exchanged; first and later fragments, also behind hop-by-hop options. And what is dropped as ever:
# spent lifetimes, a damaged message, no sum, another protocol, missing bytes.
bytes "$head" \
    0033 "60000000 000B 11 40 $inside FFFF $station $far $report 2C55 486921" \
    0033 "60000000 000B 11 40 $far $outside FFFF $station $report 01A5 486921" \
    0033 "60000000 000B 11 40 $in6 $outside FFFF $station $report 1A31 486921" \
    0040 "60000000 0018 2C 40 $in6 $far 1100 0001 00000007 $begin 0000 $text" \
    0038 "60000000 0010 2C 40 $far $out6 1100 0011 00000007 $more" \
    0040 "60000000 0018 00 40 $in6 $far 2C00 $pad 1100 0011 00000007 $more" \
    0033 "60000000 000B 11 01 $in6 $far $report 2C54 486921" \
    0038 "60000000 0010 2C 01 $in6 $far 1100 0011 00000007 $more" \
    0033 "60000000 000B 11 40 $in6 $far $report 2C54 486920" \
    0033 "60000000 000B 11 40 $in6 $far $report 0000 486921" \
    0033 "60000000 000B 3B 40 $in6 $far $report 2C54 486921" \
    0032 "60000000 000B 11 40 $in6 $far $report 2C54 4869" >"$dir/in"
# shellcheck disable=SC2086
relay $prefixes
same 'dropped prefixes: exit status' 0 "$status"
same 'dropped prefixes: what it says' 'hut: dropped 1: cut
hut: dropped 3: fragment
hut: dropped 1: uncovered
hut: dropped 1: missing
hut: dropped 1: message sum
hut: dropped 3: place
hut: dropped 2: spent
hut: records 12 relayed 0 dropped 12' "$(cat "$dir/said")"
same 'dropped prefixes: size' 5 "$(($(wc -c <"$dir/out")))"

# Words that are no prefix of 48 bits, for the one and for the other.
for word in '' / /48 fd01:203:405:: fd01:203:405::/ fd01:203:405::/4 fd01:203:405::/47 fd01:203:405::/49 fd01:203:405::/64 \
    fd01:203:405::/048 fd01:203:405::/48x 'fd01:203:405::/48 ' ' fd01:203:405::/48' fd01:203:405::/48/48 \
    fd01:203:405::1/48 fd01:203:405:1::/48 fd01:203:405:8000::/48 fd01:203:405/48 fd01:203:405::0::/48 fd01:203:10405::/48 \
    10.0.0.0/48 10.0.0.9 --help 0000:0000:0000:0000:0000:0000:0000:0000:0000:0000/48; do
    said="hut: $word is no prefix of 48 bits, such as fd01:203:405::/48"
    relay --prefix "$word" 2001:db8:1::/48
    same "inside '$word'" "2 $said" "$status $(cat "$dir/said" "$dir/out")"
    relay --prefix fd01:203:405::/48 "$word"
    same "outside '$word'" "2 $said" "$status $(cat "$dir/said" "$dir/out")"
done
usage=$("$x86" run "$hut" --help)
for words in --prefix '--prefix fd01:203:405::/48' "$prefixes ::/48" "10.0.0.9 $prefixes" "$prefixes 10.0.0.9" \
    '10.0.0.9 fd01:203:405::/48 ::/48' '10.0.0.9 10.0.0.8'; do
    # shellcheck disable=SC2086
    relay $words
    same "hut $words" "2 $usage" "$status $(cat "$dir/said" "$dir/out")"
done

# Damaged input: said in words, exit status 1, and what was relayed before is a whole capture.
damaged() { # WORDS HEX..
    words=$1
    shift
    bytes "$@" >"$dir/in"
    relay 10.0.0.9
    same "$*: exit status" 1 "$status"
    same "$*: what it says" "$words" "$(sed -n 's/^hut: damaged capture: //p' "$dir/said")"
}
mark="it doesn't begin with the mark GLR" version='its version is not 1'
damaged "$mark"
damaged "$mark" 474C
damaged "$mark" 474C53 0001
damaged "$version" 474C52
damaged "$version" 474C52 00
damaged "$version" 474C52 0002
damaged 'record 1: it is longer than 2048 bytes' "$head" 0801 00
damaged 'record 2: its length is cut' "$head" 001C "$echo4" 00
damaged 'record 2: its packet is cut' "$head" 001C "$echo4" 0002 45
same 'a damaged capture: judged' 'record 1 verdict 0
records 1 good 1 unsummed 0 refused 0' "$("$x86" run "$judge_capture" <"$dir/out")"

# The longest record, and no record.
{
    bytes "$head" 0800 "$echo4"
    head -c 2020 /dev/zero
} >"$dir/in"
relay 10.0.0.9
same 'longest: exit status' 0 "$status"
same 'longest: size' 2055 "$(($(wc -c <"$dir/out")))"
bytes "$head" >"$dir/in"
relay 10.0.0.9
same 'no record: exit status' 0 "$status"
same 'no record: what it says' 'hut: records 0 relayed 0 dropped 0' "$(cat "$dir/said")"

# Usage, and reads and writes that fail.
relay
same 'no address' 2 "$status"
relay 10.0.0.256
same 'no such address' 2 "$status"
relay --help
same 'help' 0 "$status"
same 'help: fragments' 1 "$(grep -c 'So does a fragment, of which the IP header alone is' "$dir/out")"
status=0
"$x86" run "$hut" 10.0.0.9 <"$dir" >"$dir/out" 2>"$dir/said" || status=$?
same 'a directory' '1 hut: reading failed: Is a directory' "$status $(head -n 1 "$dir/said")"
status=0
"$x86" run "$hut" 10.0.0.9 <&- >"$dir/out" 2>"$dir/said" || status=$?
same 'closed input' '1 hut: reading failed: Bad file descriptor' "$status $(head -n 1 "$dir/said")"
if [ -w /dev/full ]; then
    status=0
    "$x86" run "$hut" 10.0.0.9 <"$dir/in" >/dev/full 2>"$dir/said" || status=$?
    same 'a full disk' '1 hut: writing failed: No space left on device' "$status $(head -n 1 "$dir/said")"
fi

echo "hut: $checks checks, $failed failed"
[ "$failed" -eq 0 ]
