#!/usr/bin/env bash
# Tries the completion for bash in a folder of its own, and prints only what is wrong.
here=$(cd "$(dirname "$0")/.." && pwd) || exit 1
room=$(mktemp -d) || exit 1
trap 'rm -rf "$room"' EXIT
cd "$room" && mkdir programs && touch a.mms 'b c.mms' d.mmo notes || exit 1
. "$here/completion/mmixware.bash"
. "$here/completion/mmixview.bash"
. "$here/completion/grade.bash"
bad=0

# offers WANTED WORDS...: what the last one of the words can become, in order
offers() {
  local wanted=$1 got
  shift
  COMP_WORDS=("$@")
  COMP_CWORD=$(($# - 1))
  "_$1"
  got=$(printf '%s\n' "${COMPREPLY[@]}" | LC_ALL=C sort | paste -sd '|')
  if [ "$got" != "$wanted" ]; then
    printf 'checks/completion.bash: %s\noffers %s\nand has to offer %s\n' "$*" "$got" "$wanted" >&2
    bad=1
  fi
}

offers '--help|--version|asm|gen|help|multi|run|sim|type' mmixware ''
offers run mmixware r
offers 'a.mms|b c.mms|programs' mmixware run ''
offers 'b c.mms' mmixware run b
offers '--dump|--last|--report|--ring|--steps|-i' mmixware run -
offers '1024|16384' mmixware sim --ring 1
offers a.mms mmixware run --ring 256 --steps 9 -i a
offers 'a.mms|b c.mms|d.mmo|notes|programs' mmixware run a.mms ''
offers '' mmixware run a.mms --r
offers 'd.mmo|programs' mmixware sim --dump ''
offers 'a.mms|b c.mms|programs' mmixware asm ''
offers 'd.mmo|programs' mmixware asm a.mms ''
offers '' mmixware asm a.mms d.mmo ''
offers --ring mmixware gen -
offers --ring mmixware gen ''
offers 'd.mmo|programs' mmixware type ''
offers '' mmixware type d.mmo ''
offers '--dump|--ring|--steps' mmixware multi -
offers 'a.mms|b c.mms|d.mmo|notes|programs' mmixware multi ''
offers 'd.mmo|programs' mmixware multi --dump notes ''
offers '' mmixware multi notes d.mmo ''
offers '' mmixware run --steps ''
offers '' mmixware sim --last ''
offers a.mms mmixware run --last 5 a
offers '' mmixware other ''

offers '--help|--version|check|count|dap|debug|explain|help|list|lsp|page|where' mmixview ''
offers 'check|count' mmixview c
offers 'a.mms|b c.mms|d.mmo|programs' mmixview list ''
offers '' mmixview list a.mms ''
offers a.mms mmixview check a
offers 'a.mms|b c.mms|programs' mmixview check ''
offers --json mmixview list -
offers '--gnu|--json|--no-warnings' mmixview check -
offers --no-warnings mmixview check --gnu --n
offers a.mms mmixview list --json a
offers --json mmixview where ''
offers 'a.mms|b c.mms|d.mmo|programs' mmixview where '#100' ''
offers 'a.mms|b c.mms|d.mmo|programs' mmixview where --json '#100' ''
offers '--json|--ring|--steps' mmixview count -
offers '--ring|--steps' mmixview count --json -
offers '--ring|--steps' mmixview count --json --steps 9 -
offers '1024|16384' mmixview count --ring 1
offers '' mmixview count --steps ''
offers a.mms mmixview count --ring 256 --steps 9 a
offers d.mmo mmixview count d
offers 'a.mms|b c.mms|d.mmo|notes|programs' mmixview count a.mms ''
offers '--command|--file|--input|--ring|--steps' mmixview debug -
offers 'a.mms|b c.mms|d.mmo|programs' mmixview debug ''
offers notes mmixview debug --input n
offers '--ring' mmixview debug --file notes --file d.mmo --r
offers 'a.mms|b c.mms|d.mmo|notes|programs' mmixview debug --steps 9 a.mms ''
offers '--file|--input|--json|--ring|--steps' mmixview page -
offers 'a.mms|b c.mms|d.mmo|programs' mmixview page --json ''
offers notes mmixview page --input n
offers 'a.mms|b c.mms|d.mmo|notes|programs' mmixview page a.mms ''
offers 'check|count|dap|debug|explain|list|lsp|page|where' mmixview help ''

offers programs grade ''
offers '--shield|--show|--size|--sshlogin|--steps|--suffix' grade --s
offers 'csv|gradescope|json|junit|table|tap' grade --format ''
offers unshare grade --json --shield u
offers programs grade --json -- ''
offers 'a.mms|b c.mms|d.mmo|programs' grade programs -- ''
offers '' grade --points ''
offers 'a.mms|b c.mms|d.mmo|programs' grade --program x --show programs ''
offers 'a.mms|b c.mms|d.mmo|notes|programs' grade --program ''
offers d.mmo grade programs a.mms d
exit $bad
