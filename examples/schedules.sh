#!/bin/sh
# Runs an object on two processors by each schedule of so many turns, and counts how often which octa is at
# #2000000000000000 in the end.
# Usage: examples/schedules.sh PROGRAM OBJECT TURNS, as in examples/schedules.sh ./mmixware lost.mmo 4
turns=$(mktemp) || exit 1
trap 'rm "$turns"' EXIT

# runs it by each schedule that begins with these turns, of which so many are still to be said
each() {
  if [ "$4" = 0 ]; then
    printf "$3" >"$turns"
    "$1" multi --steps 10000 --dump "$turns" "$2"
    return
  fi
  each "$1" "$2" "$3\\000" $(($4 - 1))
  each "$1" "$2" "$3\\001" $(($4 - 1))
}

each "$1" "$2" '' "$3" | grep M#2000000000000000 | sort | uniq -c | sed 's/^ *//'
