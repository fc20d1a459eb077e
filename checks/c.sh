#!/bin/sh
# Runs C programs that were compiled for MMIX on the program that is kept: sh checks/c.sh [FOLDER]. Each object *.mmo of FOLDER,
# by default of ../shared/bench/gcc, has to halt, with no message. It says on standard output what is not tried, and on standard
# error what is wrong.
here=$(cd "$(dirname "$0")/.." && pwd) || exit 1
folder=${1:-$here/../shared/bench/gcc}
program=$here/.built/mmixware
said=$(mktemp) || exit 1
trap 'rm -f "$said"' EXIT
trap 'exit 1' INT TERM
bad=0

if [ ! -x "$program" ]; then
  echo "checks/c.sh: not tried: there is no $program"
  exit 0
fi
for object in "$folder"/*.mmo; do
  if [ ! -e "$object" ]; then
    echo "checks/c.sh: not tried: there are no objects in $folder"
    break
  fi
  timeout 300 "$program" sim "$object" </dev/null >/dev/null 2>"$said"
  status=$?
  if [ -s "$said" ] || [ "$status" = 124 ]; then
    echo "checks/c.sh: $object ends with $status $(cat "$said")" >&2
    bad=1
  fi
done
exit $bad
