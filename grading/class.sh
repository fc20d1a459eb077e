# Which solutions there are. What is wrong with one is its own row, and what is passed over is named.

# adds a solution: its name, and what is wrong with it, if it cannot be graded
add_solution() {
  count=$((count + 1))
  job=$count.failed
  if [ $# = 2 ]; then
    printf '%s\n' "$2" >"$room/solutions/$job"
  else
    case $1 in
      *.[mM][mM][oO]) job=$count.mmo ;;
      *) job=$count.mms ;;
    esac
    # more bytes than the tool takes need not be copied
    if ! head -c 67108865 <"$1" >"$room/solutions/$job"; then
      job=$count.failed
      echo 'it cannot be copied' >"$room/solutions/$job"
    fi
  fi 2>/dev/null
  shown "$1" >>"$room/names" && echo "$job" >>"$room/jobs" || fail 'no room for the solutions'
}

# whether a name says that it is a program
is_named_so() {
  if [ -z "$suffixes" ]; then
    case $1 in
      *.[mM][mM][sSoO]) return ;;
    esac
    return 1
  fi
  # the suffixes have a slash in front of each
  rest=$suffixes
  while [ -n "$rest" ]; do
    case $1 in
      *"${rest##*/}") return ;;
    esac
    rest=${rest%/*}
  done
  return 1
}

# names a file or a folder that is passed over
pass_over() {
  passed=$((passed + 1))
  say "passed over: $(shown "$1")"
}

# adds what a folder has under a name of a program
add_entry() {
  if [ -L "$1" ]; then
    add_solution "$1" 'it is a link, and may lead to what is not its own'
  elif ! [ -f "$1" ]; then
    add_solution "$1" 'it is not a regular file'
  elif ! [ -r "$1" ]; then
    add_solution "$1" 'it cannot be read'
  else
    add_solution "$1"
  fi
}

# adds the programs in a folder and below it; the number is how far it lies below the word, and then so many solutions
# there were before it
look_through() {
  set -- "$1" "$2" "$count"
  if ! ls -a "$1" >/dev/null 2>&1 || ! [ -x "$1" ]; then
    add_solution "$1" 'the folder cannot be read'
    return
  fi
  for entry in "$1"/* "$1"/.[!.]* "$1"/..?*; do
    if ! [ -e "$entry" ] && ! [ -L "$entry" ] || is_ignored "${entry##*/}"; then
      continue
    elif [ -d "$entry" ] && ! [ -L "$entry" ]; then
      look_through "$entry" $(($2 + 1))
    elif [ -d "$entry" ] && [ "$2" = 0 ]; then
      # it stands where a solution has its folder
      add_entry "$entry"
    elif is_named_so "$entry"; then
      add_entry "$entry"
    else
      pass_over "$entry"
    fi
  done
  if [ "$count" = "$3" ]; then
    # one folder for each solution is what a class has; those below may have anything
    if [ "$2" -lt 2 ]; then
      add_solution "$1" 'the folder has no program'
    else
      pass_over "$1/"
    fi
  fi
}

# copies the solutions, in the order of the arguments
add_solutions() {
  count=0 passed=0
  : >"$room/names" && : >"$room/jobs" || fail 'no room for the solutions'
  for word; do
    # to a command such a name is a path, and no option
    case $word in
      -*) word=./$word ;;
    esac
    if [ -d "$word" ]; then
      look_through "${word%/}" 0
    elif ! [ -e "$word" ]; then
      add_solution "$word" 'there is no such file'
    elif ! is_named_so "$word"; then
      add_solution "$word" 'its name is not that of a program, see --suffix'
    elif ! [ -f "$word" ] || ! [ -r "$word" ]; then
      add_solution "$word" 'it is not a regular file that can be read'
    else
      add_solution "$word"
    fi
  done
}
