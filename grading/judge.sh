# The verdict of a run, from its status and from bytes alone.

# a text in one line of UTF-8, so that two texts stay two
shown() {
  case $1 in
    *[![:print:]]* | *\\*) printf '%s' "$1" | od -An -v -tu1 | awk -f "$room/escape.awk" ;;
    *) printf '%s\n' "$1" ;;
  esac
}

# the last line that a run wrote on standard error: for people, and no part of a verdict
last_words() {
  [ ! -s "$1" ] || tail -c 200 "$1" | tail -n 1 | tr -d '\n' | od -An -v -tu1 | awk -f "$room/escape.awk"
}

# what the last line of the run's report says goes to $status and $file
read_report() {
  [ -s "$run/report" ] || return
  while read -r first_word rest; do
    status=$first_word file=$rest
  done <"$run/report"
}

# a copy in which no line has blanks or CR at its end, and the last one has an end
even() {
  sed "s/[[:blank:]$(printf '\r')]*\$//" "$1" >"$2"
  [ -s "$2" ] && [ -z "$(tail -c 1 "$2")" ] || echo >>"$2"
}

# whether a file is as it has to be; the two that were compared are then $left and $right
is_alike() {
  left=$1 right=$2
  if [ -n "$forgive" ]; then
    left=$run/even.left right=$run/even.right
    even "$1" "$left" && even "$2" "$right" || return 1
  fi
  cmp -s "$left" "$right"
}

# how what has a name differs, in the file $left, from what is wanted of it, in $right
difference() {
  at=$(cmp "$left" "$right" 2>/dev/null | sed -n 's/.*differ: [a-z]* \([0-9]*\), line \([0-9]*\).*/byte \1 (line \2)/p')
  if ! [ -s "$left" ]; then
    echo "$1 is empty"
  elif [ -n "$at" ]; then
    echo "$1 differs at $at"
  elif [ "$(wc -c <"$left")" -lt "$(wc -c <"$right")" ]; then
    echo "$1 is too short"
  else
    echo "$1 is too long"
  fi
}

# what a status can mean that the tool has too, or the system
meaning() {
  case $1 in
    65) echo "status 65: refused, or it halted with 65" ;;
    70) echo "status 70: stopped, or it halted with 70" ;;
    71) echo "status 71: out of memory, or it halted with 71" ;;
    75) echo "status 75: it did not end within the steps, or it halted with 75" ;;
    153) echo "status 153: more than $size KiB were written, or it halted with 153" ;;
    6[4-9] | 7[0-6]) echo "status $1: the tool failed, or it halted with $1" ;;
    12[4-9] | 1[3-9]? | 2??) echo "status $1: killed, or it halted with $1" ;;
    *) echo "status $1, not $2: the low byte of \$255 at the halt" ;;
  esac
}

# the message of a stop, at the end of standard error
stop_line() {
  tail -n 1 "$run/message" | sed -n 's/.*\(#[0-9a-f]\{16\}: [0-9]* [A-Za-z]*\)$/\1/p'
}

# what the program itself wrote on standard error goes to a file
own_errors() {
  line=''
  [ ! -f "$test/stop" ] || line=$(stop_line)
  head -c $(($(wc -c <"$run/message") - ${#line} - (${#line} > 0))) "$run/message" >"$run/errors"
}

# whether it ended as the test wants it to
is_ended_so() {
  if ! [ -f "$test/stop" ]; then
    [ "$status" = "$wanted" ] && return
    if [ "$status" = 65 ] && is_refused; then
      verdict=refused detail="refused: $refused"
      return 1
    fi
    [ "$wanted" = any ] && has_halted && return
    verdict=status detail=$(meaning "$status" "$wanted")
  elif [ "$status" != 70 ]; then
    verdict=stop detail="not stopped, but $(meaning "$status" '70')"
  else
    line=$(stop_line)
    case $line in
      *": $wanted "*) return ;;
    esac
    verdict=stop detail="not stopped with $wanted, but $line"
  fi
  return 1
}

# the verdict of a run that ended
compare() {
  if [ "$(wc -c <"$run/printed")" -ge $((size * 1024)) ]; then
    verdict=size detail="printed $size KiB or more"
  elif ! is_ended_so; then
    return
  elif ! is_alike "$run/printed" "$test/output"; then
    verdict=output detail=$(difference 'the output')
  elif [ -f "$test/errors" ] && own_errors && ! is_alike "$run/errors" "$test/errors"; then
    verdict=errors detail=$(difference 'standard error')
  elif [ -n "$file" ] && ! [ -f "$run/file" ]; then
    left=''
    verdict=file detail="$(shown "$file") is missing"
  elif [ -n "$file" ]; then
    left=$run/file right=$test/written/$file
    verdict=file detail=$(difference "$(shown "$file")")
  elif [ -f "$test/stop" ]; then
    judge_stop
  else
    verdict=right
  fi
}

# the verdict of a run goes to $verdict, $status and $detail
judge() {
  status='' file='' wanted=0 detail=''
  for part in status stop; do
    [ ! -f "$test/$part" ] || wanted=$(cat "$test/$part")
  done
  # what this shell writes now is lost where the program's output was lost
  if ! head -c 65536 /dev/zero >"$run/canary" 2>/dev/null; then
    verdict=failed detail='no room for files'
  elif [ "$ended" != 0 ] && [ "$took" -ge "$time" ]; then
    verdict=time detail="the time limit of $time s was reached"
  elif [ "$ended" != 0 ] || ! read_report; then
    verdict=failed detail="not run: $(last_words "$run/shield")"
  else
    compare
  fi
}

# a piece of a file from a byte on, in one line
piece() {
  tail -c "+$2" "$1" | head -c 121 | od -An -v -tu1 | awk -v most=120 -f "$room/escape.awk"
}

# What was expected and what was printed, from the line on where they differ, or from 40 bytes before that. Where a run
# ended otherwise than it has to, it may have printed what it has to.
show_difference() {
  case $verdict in
    output | errors | file) [ -f "$left" ] || return ;;
    status | stop | size | time)
      if is_alike "$run/printed" "$test/output"; then
        detail="$detail; the output is right"
        return
      fi
      ;;
    *) return ;;
  esac
  at=$(cmp "$left" "$right" 2>/dev/null | sed -n 's/.*differ: [a-z]* \([0-9]*\),.*/\1/p')
  # one is the front of the other
  [ -n "$at" ] || at=$(($(cat "$left" "$right" | wc -c) - $(most_of "$left" "$right") + 1))
  before=$(($( (head -c $((at - 1)) "$right" | tail -c 40; echo .) | tail -n 1 | wc -c) - 2))
  expected=$(piece "$right" $((at - before))) printed=$(piece "$left" $((at - before)))
  if [ "$before" = 40 ]; then
    expected=...$expected printed=...$printed
  fi
}

most_of() {
  wc -c <"$1" | { read -r one; two=$(wc -c <"$2"); echo $((one > two ? one : two)); }
}
