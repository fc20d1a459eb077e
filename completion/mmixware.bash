# Completion of the words of mmixware, for bash: the file is read by `source`, or by bash-completion under its name.

# the files whose names end so, and the folders; or all files
_mmixware_files() {
  if [ -n "$1" ]; then
    mapfile -t COMPREPLY < <(compgen -f -X "!*$1" -- "$2"; compgen -d -- "$2")
  else
    mapfile -t COMPREPLY < <(compgen -f -- "$2")
  fi
  compopt -o filenames 2>/dev/null
}

# how many words after the command are no options: options come before the file
_mmixware_given() {
  local at=2 given=0
  while [ "$at" -lt "$COMP_CWORD" ]; do
    case $given/${COMP_WORDS[at]} in
      0/--ring | 0/--steps | 0/--last) at=$((at + 1)) ;;
      0/-*) ;;
      *) given=$((given + 1)) ;;
    esac
    at=$((at + 1))
  done
  echo "$given"
}

_mmixware() {
  local word=${COMP_WORDS[COMP_CWORD]} before=${COMP_WORDS[COMP_CWORD - 1]} command=${COMP_WORDS[1]}
  local given words='' files=none
  given=$(_mmixware_given)
  case $COMP_CWORD/$command/$given/$before in
    1/*) words='run sim asm gen type multi help --help --version' ;;
    */run/0/--ring | */sim/0/--ring | */gen/0/--ring | */multi/0/--ring) words='256 512 1024 2048 4096 8192 16384 32768 65536' ;;
    */run/0/--steps | */sim/0/--steps | */multi/0/--steps | */run/0/--last | */sim/0/--last) ;;
    */run/0/*) words='--ring --steps -i --dump --report --last' files=.mms ;;
    */sim/0/*) words='--ring --steps -i --dump --report --last' files=.mmo ;;
    */run/* | */sim/*) files='' ;;
    */asm/0/*) files=.mms ;;
    */asm/1/*) files=.mmo ;;
    */gen/0/*) words=--ring ;;
    */type/0/*) files=.mmo ;;
    */multi/0/*) words='--ring --steps --dump' files='' ;;
    */multi/1/*) files=.mmo ;;
  esac
  if [ "$files" != none ] && { [ -z "$words" ] || [ "${word#-}" = "$word" ]; }; then
    _mmixware_files "$files" "$word"
  else
    mapfile -t COMPREPLY < <(compgen -W "$words" -- "$word")
  fi
}

complete -F _mmixware mmixware
