#!/bin/sh
# Long schedules cost no time of their own: a program with traps, one whose other processor has halted, and one of which seven
# halt while nearly all names are left take some 30 milliseconds more by a schedule of 2^22 bytes than by a short one, and at most
# a tenth of a second on a busy machine. It prints the seconds of each, of the user and of the system, the least of nine runs, and
# proves and builds nothing.
# Usage: checks/schedules.sh [PROGRAM]
here=$(cd "$(dirname "$0")/.." && pwd) || exit 1
program=$(realpath "${1:-$here/.built/mmixware}") || exit 1
room=$(mktemp -d) || exit 1
trap 'rm -r "$room"' EXIT
cd "$room" || exit 1
cat >prints.mms <<'END'
        LOC   Data_Segment
        GREG  @
Text    BYTE  "x",#a,0
        LOC   #100
Main    SETL  $2,2000
Loop    LDA   $255,Text
        TRAP  0,Fputs,StdOut    it ends no row of turns
        SUB   $2,$2,1
        PBNZ  $2,Loop
        TRAP  0,Halt,0
END
cat >halts.mms <<'END'
        LOC   #100
Main    SUB   $2,$0,$1
        CMP   $2,$2,1
        PBNZ  $2,End            all halt at once but the last
        SETL  $2,2000
Loop    SUB   $2,$2,1
        PBNZ  $2,Loop
End     SET   $255,0
        TRAP  0,Halt,0
END
python3 - "$program" <<'END'
import resource, subprocess, sys

def seconds(schedule, source):
    open("schedule", "wb").write(schedule)
    subprocess.run([sys.argv[1], "asm", source, "object"], check=True)
    return min(run_seconds() for _ in range(9))

def used():
    usage = resource.getrusage(resource.RUSAGE_CHILDREN)
    return usage.ru_utime + usage.ru_stime

def run_seconds():
    before = used()
    subprocess.run([sys.argv[1], "multi", "schedule", "object"], check=True, stdout=subprocess.DEVNULL, timeout=60)
    return used() - before

size = 1 << 22
rows = [
    ("2,000 Fputs", b"\0", b"\0" * size, "prints.mms"),
    ("one runs, and is named once", b"\0\1", b"\0" * (size - 1) + b"\1", "halts.mms"),
    ("seven of eight halt, and the last has all names but 35", bytes(range(7)) * 5 + b"\7" * 64,
        bytes(range(7)) * 5 + b"\7" * (size - 35), "halts.mms"),
    ("one of eight runs, and is named once", bytes(range(8)), b"\0\1\2\3\4\5\6" + b"\0" * (size - 8) + b"\7", "halts.mms"),
]
bad = 0
for told, short, long, source in rows:
    first, second = seconds(short, source), seconds(long, source)
    print(f"{told}: {first:.3f} s by {len(short)} bytes, {second:.3f} s by 2^22")
    bad |= second > first + 0.1
sys.exit(bad)
END
