# Completion of the words of grade, for bash: the file is read by `source`, or by bash-completion under its name.

# whether the task is among the words before this one
_grade_has_task() {
  local at=1
  while [ "$at" -lt "$COMP_CWORD" ]; do
    case ${COMP_WORDS[at]} in
      -- | --json | --show | --count | --forgive | --reveal) ;;
      --*) at=$((at + 1)) ;;
      *) return 0 ;;
    esac
    at=$((at + 1))
  done
  return 1
}

_grade() {
  local word=${COMP_WORDS[COMP_CWORD]} words=''
  case ${COMP_WORDS[COMP_CWORD - 1]} in
    --format) words='table csv json tap junit gradescope' ;;
    --with) words='parallel xargs' ;;
    --shield) words='unshare bwrap none' ;;
    --program)
      mapfile -t COMPREPLY < <(compgen -f -- "$word")
      compopt -o filenames 2>/dev/null
      return
      ;;
    --suffix | --ignore | --points | --steps | --time | --memory | --size | --jobs | --sshlogin) ;;
    *)
      words='--format --json --show --count --points --forgive --reveal --suffix --ignore --steps --time --memory --size --jobs
        --with --sshlogin --shield --program --help'
      if _grade_has_task; then
        mapfile -t COMPREPLY < <(compgen -f -X '!*.mm[so]' -- "$word"; compgen -d -- "$word")
        compopt -o filenames 2>/dev/null
        return
      elif [ "${word#-}" = "$word" ]; then
        mapfile -t COMPREPLY < <(compgen -d -- "$word")
        compopt -o filenames 2>/dev/null
        return
      fi
      ;;
  esac
  mapfile -t COMPREPLY < <(compgen -W "$words" -- "$word")
}

complete -F _grade grade
