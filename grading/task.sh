# What a task has to be. It is judged before anything is run.

# a number of 1 to 13 digits
is_number() {
  case $1 in
    '' | 0* | *[!0-9]* | ??????????????*) return 1 ;;
  esac
}

# refuses a file whose lines end as those of another system, since its words would differ by what cannot be seen
refuse_crlf() {
  ! grep -q "$(printf '\r')\$" "$1" || fail "$1: a line ends with CR and LF, and has to end with LF alone"
}

# takes the limits of the task, where no option gave them
read_limits() {
  if [ -f "$task/limits" ]; then
    refuse_crlf "$task/limits"
    while read -r name value more || [ -n "$name" ]; do
      [ -n "$name" ] || continue
      is_number "$value" && [ -z "$more" ] || fail "$task/limits: $name wants one whole number from 1 on"
      case $name in
        steps | time | memory | size | points) eval "$name=\${$name:-\$value}" ;;
        *) fail "$task/limits: there is no limit $name" ;;
      esac
    done <"$task/limits"
  fi
  steps=${steps:-1000000} time=${time:-10} memory=${memory:-512} size=${size:-1024}
}

# whether a name is to be passed over
is_ignored() {
  set -f
  for pattern in $ignored; do
    case $1 in
      $pattern) set +f; return ;;
    esac
  done
  set +f
  return 1
}

# takes the names to be passed over from the task, where no option gave them
read_ignored() {
  if [ -z "$ignored" ] && [ -f "$task/ignored" ]; then
    refuse_crlf "$task/ignored"
    ignored=$(cat "$task/ignored")
  fi
  ignored=${ignored:-$usual}
}

# whether a file has a number as it is wanted
has_number() {
  refuse_crlf "$1"
  printf '%s\n' "$(cat "$1")" | grep -q -x -E "$2"
}

# says of lines that end so what is legal, and hardly meant
warn_of_crlf() {
  if [ -z "$forgive" ] && [ -f "$1" ] && grep -q "$(printf '\r')\$" "$1"; then
    say "$1: a line ends with CR and LF, so LF alone is not right there; --forgive takes both"
  fi
}

# how a test wants a solution to end: a status that is neither the tool's nor the system's, any, a stop, or a refusal
check_end() {
  ends=''
  for part in status stop refusal; do
    [ ! -f "$1/$part" ] || ends="$ends $part"
  done
  case $ends in
    '') ;;
    ' status') has_number "$1/status" 'any|[0-9]|[1-5][0-9]|6[0-3]|7[7-9]|[89][0-9]|1[01][0-9]|12[0-3]' ||
      fail "$1/status: a test wants a status of 0 to 63 or 77 to 123, or the word any" ;;
    ' stop' | ' refusal') has_number "$1/${ends# }" '[1-9][0-9]{0,2}' || fail "$1/${ends# } wants the number of a message" ;;
    *) fail "$1 has more than one of status, stop and refusal" ;;
  esac
}

# the parts of a test, and those that it has to have
check_parts() {
  for part in "$1"/*; do
    ! is_ignored "${part##*/}" || continue
    case ${part##*/} in
      arguments | input | output | errors | status | stop | refusal | points | hidden) [ -f "$part" ] ;;
      files | written) [ -d "$part" ] ;;
      *) false ;;
    esac || fail "$part is no part of a test"
    case ${part##*/} in
      refusal | points | hidden) ;;
      *) [ ! -f "$1/refusal" ] || fail "$part: what is refused is not run" ;;
    esac
  done
  [ -f "$1/output" ] || [ -f "$1/refusal" ] || fail "$1 has no file output"
}

# a test that can be judged: what it wants is less than the limit of size
check_test() {
  case ${1##*/} in
    *[!A-Za-z0-9._-]*) fail "$1: names of tests have letters, digits, and . _ -" ;;
  esac
  check_parts "$1"
  check_end "$1"
  [ ! -f "$1/arguments" ] || refuse_crlf "$1/arguments"
  if [ -f "$1/points" ]; then
    has_number "$1/points" '[0-9]{1,6}([.][0-9]{1,2})?' || fail "$1/points wants a number, as 2 or 0.5"
  fi
  for wanted in "$1/output" "$1/errors" "$1/written"; do
    if [ -e "$wanted" ] && [ -n "$(find "$wanted" -type f -size +$((size * 1024 - 1))c)" ]; then
      fail "$wanted: a file that is wanted has to have less than $((size * 1024)) bytes, by the limit size $size"
    fi
  done
  warn_of_crlf "$1/output"
  warn_of_crlf "$1/errors"
}

# The tests of a folder, one a line, in the order of their names, and of numbers in these by value: a number is compared
# by how many digits it has, and then by its digits.
tests_in_order() {
  for folder in "$1"/*/; do
    folder=${folder%/}
    printf '%s\n' "${folder##*/}"
  done | awk '{
    rest = $0; key = ""
    while (match(rest, /[0-9]+/)) {
      digits = substr(rest, RSTART, RLENGTH)
      sub(/^0+/, "", digits)
      key = key substr(rest, 1, RSTART - 1) sprintf("%03d", length(digits)) digits
      rest = substr(rest, RSTART + RLENGTH)
    }
    print key rest "\t" $0 }' | sort | cut -f 2
}

# a line for each test: its name, its points, and whether it is hidden
list_tests() {
  tests_in_order "$room/task" >"$room/order" && while IFS= read -r folder; do
    hidden=''
    [ ! -f "$room/task/$folder/hidden" ] || hidden=hidden
    printf '%s\t%s\t%s\n' "$folder" "$(cat "$room/task/$folder/points" 2>/dev/null || echo 1)" "$hidden"
  done <"$room/order" >"$room/tests"
}

check_task() {
  [ -d "$task" ] || fail "$task is not a folder"
  read_limits
  read_ignored
  tests=0
  for folder in "$task"/*/; do
    [ -d "$folder" ] || continue
    name=${folder%/}
    ! is_ignored "${name##*/}" || continue
    check_test "${folder%/}"
    tests=$((tests + 1))
  done
  [ "$tests" -gt 0 ] || fail "$task has no tests"
}

# copies the task into the room, without what is to be passed over
copy_task() {
  cp -RL "$task/." "$room/task" || return 1
  set -f
  for pattern in $ignored; do
    find "$room/task" -depth -name "$pattern" -exec rm -rf {} +
  done
  set +f
  list_tests
}

# what the program says of its words is its own rule, also on how many steps there may be
check_limits() {
  said=$("$program" run --steps "$steps" "$room/nothing" 2>&1 </dev/null)
  case $? in
    66) ;;
    64) fail "steps $steps: the program refuses that: $said" ;;
    *) fail "$program does not run here: $said" ;;
  esac
  # the trial halts with 8, since it finds its own source
  said=$( (ulimit -v $((memory * 1024)) && exec "$program" run --steps 1000 "$room/solutions/trial.mms" \
    "$room/solutions/trial.mms") 2>&1 </dev/null)
  [ $? = 8 ] || fail "memory $memory: the program does not run in so many MiB"
}
