#!/bin/sh
# Has packets built and printed by the example status, holds them to the bytes that the RFCs give, sums them here, and
# judges them with the program judge_capture and the hut; then words that are wrong, and writes and sends that fail.
#   status.sh STATUS JUDGE_CAPTURE HUT    three x86-64 programs
set -eu
x86=$(dirname "$0")/../../scripts/x86.sh
status=$1 judge_capture=$2 hut=$3
dir=$(mktemp -d)
trap 'rm -rf "$dir"' EXIT
checks=0 failed=0

# Counts a check, and says what was wrong if WANT and GOT differ.
same() { # WHAT WANT GOT
    checks=$((checks + 1))
    [ "$2" = "$3" ] && return
    failed=$((failed + 1))
    printf 'status: %s: wanted\n%s\nand got\n%s\n' "$1" "$2" "$3"
}

# Runs the program, and leaves what it printed, what it said and its exit status.
run() { # WORDS..
    code=0
    "$x86" run "$status" "$@" >"$dir/out" 2>"$dir/said" || code=$?
}

# The hex words as one, in small letters.
hex() { echo "$*" | tr -d ' \n' | tr A-F a-f; }

# Writes the bytes that the words say in hex.
bytes() {
    # shellcheck disable=SC2059
    printf "$(hex "$@" | awk '
        function digit(at) { return index("0123456789abcdef", substr($0, at, 1)) - 1 }
        { for (i = 1; i < length($0); i += 2) printf "\\%03o", 16 * digit(i) + digit(i + 1) }')"
}

# What the printed packet's IPv4 header and its message with the pseudo-header sum to, word by word. IPv6 has no such
# header.
sums() {
    awk '
        function digit(at) { return index("0123456789abcdef", substr(all, at, 1)) - 1 }
        function byte(at) { return 16 * digit(2 * at + 1) + digit(2 * at + 2) }
        function fold(sum) { while (sum > 65535) sum = int(sum / 65536) + sum % 65536; return sum }
        { all = all $0 }
        END {
            len = length(all) / 2
            all = all "00"
            four = digit(1) == 4
            start = four ? 20 : 40
            for (i = 0; i < start && four; i += 2) header += 256 * byte(i) + byte(i + 1)
            for (i = start - (four ? 8 : 32); i < len; i += 2) message += 256 * byte(i) + byte(i + 1)
            printf "%s %04X\n", four ? sprintf("%04X", fold(header)) : "none", fold(message + 17 + len - start)
        }' "$dir/out"
}

# Judges the printed packet, as the one record of a capture, and has the hut relay it.
judged() {
    packet=$(cat "$dir/out")
    bytes 474C52 0001 "$(printf %04X $(($(hex "$packet" | tr -d '\n' | wc -c) / 2)))" "$packet" >"$dir/in"
    "$x86" run "$judge_capture" <"$dir/in"
    "$x86" run "$hut" 10.0.0.9 <"$dir/in" 2>&1 >"$dir/relayed"
    "$x86" run "$judge_capture" <"$dir/relayed"
}
good='record 1 verdict 0
records 1 good 1 unsummed 0 refused 0'
relayed="$good
hut: records 1 relayed 1 dropped 0
$good"
spent="$good
hut: dropped 1: spent
hut: records 1 relayed 0 dropped 1
records 0 good 0 unsummed 0 refused 0"

# What is printed for these words is this packet, 30 bytes on a line, and it is good. With a lifetime of 1 it isn't relayed.
prints() { # HEX WORDS..
    want=$1
    shift
    what="$1 $2 $3 $4 $5 and $(printf %s "$6" | wc -c) bytes"
    run "$@"
    same "$what: exit status" 0 "$code"
    same "$what: what it says" '' "$(cat "$dir/said")"
    same "$what: the packet" "$(hex "$want" | fold -w 60)" "$(cat "$dir/out")"
    case $1 in
    *:*) same "$what: sums" 'none FFFF' "$(sums)" ;;
    *) same "$what: sums" 'FFFF FFFF' "$(sums)" ;;
    esac
    case $5 in
    1) same "$what: judged, and spent" "$spent" "$(judged)" ;;
    *) same "$what: judged and relayed" "$relayed" "$(judged)" ;;
    esac
}

# The rules' UDP packet but for its flag, data whose sum comes to 0000, an odd text, none, and ports and lifetimes at
# their ends. Then the same over IPv6.
from4='C0A80001 C0A800C7' one=00000000000000000000000000000001
sixes='20010DB8000900000000000000000009 FD010203040500010000000000001234'
prints "4500 001E 0000 0000 40 11 F8B6 $from4 1388 1389 000A 0E47 4869" 192.168.0.1 5000 192.168.0.199 5001 64 Hi
prints "4500 001E 0000 0000 40 11 F8B6 $from4 1388 1389 000A FFFF 56B0" \
    192.168.0.1 5000 192.168.0.199 5001 64 "$(printf '\126\260')"
prints "4500 001F 0000 0000 40 11 F8B5 $from4 1388 1389 000B ED44 486921" 192.168.0.1 5000 192.168.0.199 5001 64 'Hi!'
prints "4500 001C 0000 0000 01 11 37B9 $from4 0000 FFFF 0008 7DC5" 192.168.0.1 0 192.168.0.199 65535 1 ''
prints "4500 001D 0000 0000 FF 11 39B7 $from4 FFFF 0000 0009 5DC3 20" 192.168.0.1 65535 192.168.0.199 0 255 ' '
prints "60000000 000B 11 40 $one $one 1388 1389 000B 6F5C 486921" ::1 5000 ::1 5001 64 'Hi!'
prints "60000000 000C 11 40 $one $one 1388 1389 000C FFFF 4869905A" ::1 5000 ::1 5001 64 "$(printf 'Hi\220Z')"
prints "60000000 0008 11 01 $sixes 0000 FFFF 0008 BCD4" 2001:db8:9::9 0 fd01:203:405:1::1234 65535 1 ''
prints "60000000 0009 11 FF $sixes FFFF 0000 0009 9CD2 20" 2001:DB8:9:0:0::9 65535 fd01:203:405:1::1234 00 255 ' '

# Texts of many lengths: all but the sums is known, and those are summed here.
unsummed() { # PLACES
    tr -d '\n' <"$dir/out" | awk -v places="$1" '{
        n = split(places, place, " ")
        for (i = 1; i <= n; i++) $0 = substr($0, 1, 2 * place[i]) "...." substr($0, 2 * place[i] + 5)
        print
    }'
}
for size in 0 1 2 3 10 11 29 30 31 255 256 1000 1232 1399 1400; do
    text=$(head -c $size /dev/zero | tr '\0' m) body=$(head -c $size /dev/zero | tr '\0' m | od -An -v -tx1 | tr -d ' \n')
    udp=$(printf %04x $((8 + size))) whole=$(printf %04x $((28 + size)))
    run 192.168.0.1 5000 192.168.0.199 5001 64 "$text"
    same "IPv4, $size bytes: the packet" "4500${whole}000000004011....c0a80001c0a800c713881389$udp....$body" \
        "$(unsummed '10 26')"
    same "IPv4, $size bytes: sums" 'FFFF FFFF' "$(sums)"
    same "IPv4, $size bytes: judged and relayed" "$relayed" "$(judged)"
    run ::1 5000 ::1 5001 64 "$text"
    same "IPv6, $size bytes: the packet" "60000000${udp}1140$one${one}13881389$udp....$body" "$(unsummed 46)"
    same "IPv6, $size bytes: sums" 'none FFFF' "$(sums)"
    same "IPv6, $size bytes: judged and relayed" "$relayed" "$(judged)"
    same "IPv6, $size bytes: lines" "$(((48 + size + 29) / 30)) of at most 60" \
        "$(awk 'length > most { most = length } END { print NR " of at most " most }' "$dir/out")"
done
# a text may look like an option
run 192.168.0.1 5000 192.168.0.199 5001 64 --send
same 'the text --send' '0 2d2d73656e64' "$code $(tr -d '\n' <"$dir/out" | tail -c 12)"

# Words that are wrong: exit status 2, one line that says which, and nothing printed. Also with --send, which sends nothing.
refused() { # WANT WORDS..
    want=$1
    shift
    run "$@"
    same "$*" "2 status: $want" "$code $(cat "$dir/said" "$dir/out")"
    run --send "$@"
    same "--send $*" "2 status: $want" "$code $(cat "$dir/said" "$dir/out")"
}
for word in '' 10.0.0.256 10.0.0 10.0.0.1. 10.0.0.1/24 ' 10.0.0.1' '10.0.0.1 ' 010.0.0.1 0x0a000001 1 fd01 fd01:::1 \
    fd01::1::2 fd01::10000 ::1%lo '[::1]' localhost --help; do
    want="$word is no address, such as 192.168.0.1 or 2001:db8::1"
    refused "$want" "$word" 5000 10.0.0.2 5001 64 Hi
    refused "$want" 10.0.0.1 5000 "$word" 5001 64 Hi
done
for word in '' -1 +1 65536 65546 99999 4294967376 18446744073709551696 0x50 80x ' 80' '80 ' 8.0 1e3 http; do
    want="$word is no port, which is a number up to 65535"
    refused "$want" 10.0.0.1 "$word" 10.0.0.2 5001 64 Hi
    refused "$want" 10.0.0.1 5000 10.0.0.2 "$word" 64 Hi
done
for word in '' -1 256 300 4294967297 18446744073709551617 0x40 64x ' 64' 1.5; do
    refused "$word is no lifetime, which is a number up to 255" 10.0.0.1 5000 10.0.0.2 5001 "$word" Hi
done
long=$(head -c 1401 /dev/zero | tr '\0' m)
refused 'refused: one address is IPv4 and the other IPv6' 10.0.0.1 5000 ::1 5001 64 Hi
refused 'refused: one address is IPv4 and the other IPv6' ::1 5000 10.0.0.1 5001 0 "$long"
refused 'refused: the text has more than 1400 bytes' 10.0.0.1 5000 10.0.0.2 5001 64 "$long"
refused 'refused: the text has more than 1400 bytes' ::1 5000 ::1 5001 0 "$long"
refused 'refused: a lifetime of 0 is spent' 10.0.0.1 5000 10.0.0.2 5001 0 Hi
refused 'refused: a lifetime of 0 is spent' ::1 5000 ::1 5001 000 Hi

# Usage: too few words, and too many.
run --help
same 'help: exit status' 0 "$code"
same 'help: what it says' 'usage: status [--send] SOURCE PORT DESTINATION PORT LIFETIME TEXT' "$(head -n 1 "$dir/out")"
usage=$(cat "$dir/out")
set --
for word in 10.0.0.1 5000 10.0.0.2 5001 64 Hi there; do
    if [ $# -ne 6 ]; then
        run "$@"
        same "$# words" "2 $usage" "$code $(cat "$dir/said" "$dir/out")"
        run --send "$@"
        same "--send and $# words" "2 $usage" "$code $(cat "$dir/said" "$dir/out")"
    fi
    set -- "$@" "$word"
done
run "$@"
same '7 words' "2 $usage" "$code $(cat "$dir/said" "$dir/out")"

# Writes that fail, and a send without the right to.
set -- 10.0.0.1 5000 10.0.0.2 5001 64 Hi
code=0
"$x86" run "$status" "$@" >&- 2>"$dir/said" || code=$?
same 'closed output' '1 status: writing failed: Bad file descriptor' "$code $(cat "$dir/said")"
if [ -w /dev/full ]; then
    code=0
    "$x86" run "$status" "$@" >/dev/full 2>"$dir/said" || code=$?
    same 'a full disk' '1 status: writing failed: No space left on device' "$code $(cat "$dir/said")"
fi
if [ "$(id -u)" != 0 ]; then
    plainly=
elif setpriv --bounding-set -net_raw true 2>"$dir/said"; then
    plainly='setpriv --bounding-set -net_raw'
else
    plainly=no
    echo 'status: sending without the right to is left out, since that right cannot be put aside here'
fi
if [ "$plainly" != no ]; then
    for to in 10.0.0.2 ::1; do
        code=0
        # shellcheck disable=SC2086
        $plainly "$x86" run "$status" --send $to 5000 $to 5001 64 Hi >"$dir/out" 2>"$dir/said" || code=$?
        same "sending to $to without the right to" \
            '1 status: no raw socket, which needs root or CAP_NET_RAW: Operation not permitted' \
            "$code $(cat "$dir/said" "$dir/out")"
    done
fi

echo "status: $checks checks, $failed failed"
[ "$failed" -eq 0 ]
