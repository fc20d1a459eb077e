# Completion of the words of mmixview, for bash: the file is read by `source`, or by bash-completion under its name.

# the files whose names end so, and the folders; or all files
_mmixview_files() {
  if [ -n "$1" ]; then
    mapfile -t COMPREPLY < <(compgen -f -X "!*$1" -- "$2"; compgen -d -- "$2")
  else
    mapfile -t COMPREPLY < <(compgen -f -- "$2")
  fi
  compopt -o filenames 2>/dev/null
}

# how many words after the command are no options: options come before the file
_mmixview_given() {
  local at=2 given=0
  while [ "$at" -lt "$COMP_CWORD" ]; do
    case $given/${COMP_WORDS[at]} in
      0/--ring | 0/--steps | 0/--command | 0/--input | 0/--file) at=$((at + 1)) ;;
      0/-*) ;;
      *) given=$((given + 1)) ;;
    esac
    at=$((at + 1))
  done
  echo "$given"
}

_mmixview() {
  local word=${COMP_WORDS[COMP_CWORD]} before=${COMP_WORDS[COMP_CWORD - 1]} command=${COMP_WORDS[1]}
  local given words='' files=none
  given=$(_mmixview_given)
  case $COMP_CWORD/$command/$given/$before in
    1/*) words='list check where count debug page explain lsp dap help --help --version' ;;
    */list/0/*) words='--json' files=.mm[so] ;;
    */check/0/*) words='--json --gnu --no-warnings' files=.mms ;;
    */where/0/*) words='--json' ;;
    */where/1/*) files=.mm[so] ;;
    2/count/*) words='--json --ring --steps' files=.mm[so] ;;
    */count/0/--ring) words='256 512 1024 2048 4096 8192 16384 32768 65536' ;;
    */count/0/--steps) ;;
    */count/0/*) words='--ring --steps' files=.mm[so] ;;
    */count/*) files='' ;;
    */debug/0/--ring) words='256 512 1024 2048 4096 8192 16384 32768 65536' ;;
    */debug/0/--steps) ;;
    */debug/0/--command | */debug/0/--input | */debug/0/--file) files='' ;;
    */debug/0/*) words='--command --input --file --ring --steps' files=.mm[so] ;;
    */debug/*) files='' ;;
    */page/0/--ring) words='256 512 1024 2048 4096 8192 16384 32768 65536' ;;
    */page/0/--steps) ;;
    */page/0/--input | */page/0/--file) files='' ;;
    */page/0/*) words='--json --input --file --ring --steps' files=.mm[so] ;;
    */page/*) files='' ;;
    2/help/*) words='list check where count debug page explain lsp dap' ;;
  esac
  if [ "$files" != none ] && { [ -z "$words" ] || [ "${word#-}" = "$word" ]; }; then
    _mmixview_files "$files" "$word"
  else
    mapfile -t COMPREPLY < <(compgen -W "$words" -- "$word")
  fi
}

complete -F _mmixview mmixview
