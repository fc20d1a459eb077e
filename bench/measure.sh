#!/bin/sh
# Times the program: asm and run on sources of several sizes, sim on objects of several sizes and on the programs in
# loops/. Each time is in seconds, the least of three.
# Usage: bench/measure.sh [PROGRAM [OTHER]]
# Where valgrind is there, the machine instructions that a step takes are counted too, which other work does not change.
# OTHER is another simulator that takes an object file; it is timed in turns with PROGRAM on the loops, and the ratio is printed.
here=$(cd "$(dirname "$0")/.." && pwd) || exit 1
program=$(realpath "${1:-$here/.built/mmixware}") || exit 1
other=${2:+$(realpath "$2")} || exit 1
folder=$(mktemp -d) || exit 1
trap 'rm -r "$folder"' EXIT
cd "$folder" || exit 1

# a source of about so many bytes: labels, references both ways, expressions, data and instructions
source_of() {
  awk -v size="$1" '
    function put(line) { printf "%s", line; total += length(line) }
    BEGIN {
      put("        LOC   #100\nMain    TRAP  0,Halt,0\n")
      while (total + 600 < size) {
        put("Loop" i "  ADDU  $1,$2,1+2*" i % 100 "      a comment\n")
        put("        BZ    $3,Done" i "\n        LDB   $4,$5," i % 256 "\n")
        for (k = 0; k < 6; k++)
          put("2H      SUBU  $1,$1,1\n        PBNZ  $1,2B\n        BZ    $2,2F\n2H      TETRA #" i % 10 "f," i * 3 \
            "\n        WYDE  " i % 65536 "\n        BYTE  \"abc\"," i % 256 "\n")
        put("Done" i "  PBNZ  $1,Loop" i++ "\n")
      }
    }'
}

# an object of so many bytes, whose tetras are loaded from #10000 on; Main leads to a TRAP 0,0,0
object_of() {
  python3 -c '
import struct, sys
size = int(sys.argv[1])
head = [0x98090101, 0, 0x98010001, 0x10000]
tail = [0x980a00ff, 0, 0x100, 0x980b0000, 0x980c0000]
count = size // 4 - len(head) - len(tail)
body = struct.pack(">I", 0x01020304) * count
sys.stdout.buffer.write(struct.pack(">4I", *head) + body + struct.pack(">5I", *tail))
' "$1"
}

# the least user seconds of three runs
least() {
  for _ in 1 2 3; do
    /usr/bin/time -o time.txt -f %U "$@" >/dev/null 2>&1
    tail -n 1 time.txt
  done | sort -n | head -n 1
}

# the machine instructions of a run
instructions() {
  valgrind --tool=callgrind --callgrind-out-file=/dev/null "$@" 2>&1 >/dev/null </dev/null | sed -n 's/.*Collected : //p'
}

# those of a step of an object that makes more than two million of them; the start is taken off by a run of one step
per_step() {
  many=$(instructions "$program" sim --steps 2000000 "$1")
  one=$(instructions "$program" sim --steps 1 "$1")
  awk -v many="$many" -v one="$one" 'BEGIN { printf "%.1f", (many - one) / 1999999 }'
}

timed() {
  printf '%-28s %8s s\n' "$*" "$(least "$program" "$@")"
}

for bits in 20 21 22; do
  source_of $((1 << bits)) >source$bits.mms
  timed asm source$bits.mms source$bits.mmo
  timed run source$bits.mms
done
for bits in 24 25 26; do
  object_of $((1 << bits)) >object$bits.mmo
  timed sim object$bits.mmo
done
timed gen 10000
for loop in "$here"/bench/loops/*.mms; do
  name=$(basename "$loop" .mms)
  "$program" asm "$loop" "$name.mmo" || exit 1
  mine=$(least "$program" sim "$name.mmo")
  if [ -n "$other" ]; then
    theirs=$(least "$other" "$name.mmo")
    echo "$mine $theirs" | awk -v name="$name" '{ printf "%-28s %8s s   other %s s, ratio %.2f\n", name, $1, $2, $2 / $1 }'
  else
    printf '%-28s %8s s\n' "$name" "$mine"
  fi
  ! command -v valgrind >/dev/null || echo "  $(per_step "$name.mmo") machine instructions a step"
done
