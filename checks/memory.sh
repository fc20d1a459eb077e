#!/bin/sh
# Refuses one allocation after another of a run of examples/hello.mms: the program has to print its text with status 0, or
# to say that it is out of memory with status 71 and a front of the text. Proves nothing; each try takes half a minute.
# Usage: checks/memory.sh [FIRST [LAST]]
#
# checks/memory.sh notes compares what a run takes at most with and without --last, by the program of ./mmixware. In a ring
# of 65,536 registers 65,024 are hidden, and 8,000 octas of the stack area are overwritten: 1,024 notes take 10 MB at most.
cd "$(dirname "$0")/../crates/mmixware" || exit 1
told=$(mktemp) || exit 1
trap 'rm "$told"' EXIT

# the most memory that a run takes, in KB; it has to stop for reason 110
most_of() {
  python3 - ../../mmixware run "$@" <<'END'
import resource, subprocess, sys
run = subprocess.run(sys.argv[1:], stdout=subprocess.DEVNULL, stderr=subprocess.PIPE)
stopped = run.returncode == 70 and b": 110 " in run.stderr
sys.exit(f"{sys.argv[1:]}: {run.stderr}") if not stopped else print(resource.getrusage(resource.RUSAGE_CHILDREN).ru_maxrss)
END
}

notes() {
  cat >"$told" <<'END'
        LOC   #100
Left    GREG  256
Main    SET   $252,0            $0 to $252 are local
        PUSHJ $253,Next         254 registers more are hidden
Next    SUB   Left,Left,1
        PBNZ  Left,Main
        SETH  $0,#6000
        INCML $0,#10            far above all of them in the stack area
        SET   $1,1000
Store   STO   $1,$0,0
        STO   $1,$0,8
        STO   $1,$0,16
        STO   $1,$0,24
        STO   $1,$0,32
        STO   $1,$0,40
        STO   $1,$0,48
        STO   $1,$0,56
        SUB   $1,$1,1
        PBNZ  $1,Store
        FADD  $0,$0,$0          here it stops
END
  without=$(most_of --ring 65536 "$told") || exit 1
  with=$(most_of --ring 65536 --last 1024 "$told") || exit 1
  echo "without --last $without KB, with it $with KB"
  [ $((with - without)) -le 10240 ]
}

if [ "$1" = notes ]; then
  notes
  exit
fi
first=${1:-1}
last=${2:-12}
bad=0
for number in $(seq "$first" "$last"); do
  rt try --data hello.mms=../../examples/hello.mms --fail-alloc "$number" -- run hello.mms >"$told" 2>&1
  status=$(sed -n 's/^run=ended status=\([0-9]*\).*/\1/p' "$told")
  case "$status" in
    0) grep -q '^Hello, reader$' "$told" || bad=1 ;;
    71) ;;
    *) bad=1 ;;
  esac
  echo "allocation $number refused: status ${status:-none}"
done
exit $bad
