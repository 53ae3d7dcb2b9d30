#!/bin/sh
# Prints cycles for nine calls, the library's and those of the C that makes the same tests, as llvm-mca estimates them
# for two processors. It is given the instructions that were executed, in their order, call after call.
#
#   cycles.sh COLUMNS PROGRAM [BEFORE]   the table's columns; what run.sh made of bench.c, and the same with the
#                                        library as it was before
set -eu
cd "$(dirname "$0")/.."
out=target/bench turns=50 columns=$1
shift

if ! command -v llvm-mca >/dev/null || ! command -v llvm-objdump >/dev/null; then
    echo "Cycles aren't estimated: there is no llvm-mca here (Debian's llvm has it)."
    exit 0
fi

# A region for each call: the arguments as a caller sets them, which also part the calls from each other, then what was
# executed. Three things are put as processors do them and the model doesn't: calls and returns are left out, a push or
# a pop is a move that doesn't wait for the stack pointer, and an addition from memory is a load, which doesn't wait for
# the sum, and an addition.
regions() { # PROGRAM
    bench/count.sh "$1" nine $out/addresses >$out/counted
    sed 's/ | [0-9]*$//' $out/counted >$out/nine
    llvm-objdump -d --no-show-raw-insn "$1" >$out/listing
    awk -F '\n' '
        FILENAME == ARGV[1] {
            if (match($0, /^ *[0-9a-f]+:/)) {
                at = substr($0, 1, RLENGTH - 1)
                gsub(/ /, "", at)
                text = substr($0, RLENGTH + 1)
                gsub(/<.*>|#.*/, "", text)
                code[at] = text
            }
            next
        }
        FILENAME == ARGV[2] { name[++names] = $0; next }
        !open {
            open = 1
            gsub(/ /, "_", name[++call])
            print "# LLVM-MCA-BEGIN " name[call]
            print "movl $0, %eax\nmovl $64, %edi\nmovl $64, %esi"
            if (name[call] ~ /^set/) print "movl $64, %edx\nmovl $64, %ecx\nmovl $64, %r8d"
        }
        /^$/ { print "# LLVM-MCA-END"; open = 0; next }
        {
            sub(/^0+/, "")
            text = code[$0]
            if (text ~ /^[ \t]*(call|ret)/) next
            if (text ~ /^[ \t]*pushq[ \t]+%/) { sub(/pushq/, "movq", text); text = text ", -8(%rsp)" }
            if (text ~ /^[ \t]*popq/) sub(/popq/, "movq 8(%rsp),", text)
            if (text ~ /^[ \t]*ad[dc]q[ \t].*\), %/) {
                match(text, /\), %/)
                from = substr(text, 1, RSTART)
                sub(/ad[dc]q/, "movq", from)
                print from ", %r15"
                print substr(text, 1, index(text, "q")) "\t%r15" substr(text, RSTART + 1)
            } else
                print text
        }' $out/listing $out/nine $out/addresses
}

estimate() { # PROCESSOR
    llvm-mca -mtriple=x86_64-linux-gnu -mcpu="$1" -iterations=$turns -instruction-info=false -resource-pressure=false \
        $out/executed.s | awk -v turns=$turns '
        /Code Region - / { sub(/.*Code Region - /, ""); gsub(/_/, " "); name = $0 }
        /^Total Cycles:/ { printf "%s | %.0f\n", name, $3 / turns }'
}

regions "$1" >$out/executed.s
if [ $# -eq 2 ]; then
    regions "$2" >$out/before.s
    sed 's/^\(# LLVM-MCA-BEGIN .*\)_ours$/\1_before/' $out/before.s >>$out/executed.s
fi
model=$(llvm-mca --version | sed -n 's/.*LLVM version/LLVM/p')
echo "Cycles for each call, estimated by llvm-mca ($model). This is a model and no measurement: every load is met in"
echo "the nearest cache, every branch is foreseen, calls and returns cost nothing, and the same call is made again and"
echo "again, the next beginning before the last has ended."
for processor in skylake znver3; do
    printf '\n%s:\n\n' $processor
    estimate $processor | awk -F ' *[|] *' -v kind=same -v columns="$columns" -f bench/table.awk
done
