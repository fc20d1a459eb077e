# What runs a solution on all tests: sh run.sh grade_solution SOLUTION, in the room, the folder of the work, which has
# the program, the task and the solutions. It makes a row for each test. A row has, with tabs between: the number of the
# solution, the test, verdict, status, detail, the last line of standard error, what was expected and what was printed,
# each from the line on where they differ, and the steps.

remove_run() {
  rm -rf "$run" "$hall" "$first"
}

# runs a command as the head of a group of processes, so that all of them can be ended; how it ended goes to $ended
run_group() {
  if [ -z "$apart" ]; then
    apart=none
    ! setsid -w true 2>/dev/null || apart=setsid
  fi
  # this leaves the terminal, too; `timeout` makes a group in any case
  [ "$apart" = none ] || set -- setsid -w "$@"
  "$@" >"$run/shield" 2>&1 </dev/null &
  running=$!
  wait "$running" 2>/dev/null
  ended=$?
  running=
}

# ends what runs, removes its folders, and ends with a status
stop_run() {
  # a second signal does not cut this short
  trap '' TERM INT HUP
  if [ -n "$running" ]; then
    # a command that has just begun is no head of a group yet
    kill -s KILL -- "-$running" 2>/dev/null || kill -s KILL "$running" 2>/dev/null
    wait "$running" 2>/dev/null
  fi
  exit "$1"
}

# how many bytes a run is given besides the files of the test
weigh() {
  weight=$(cat "$room/solutions/$solution" "$room/settings" | wc -c)
}

# runs the solution on the test, with options; how it ended goes to $ended, and what it did to the folder $run
run_test() {
  options=$1
  run=$(mktemp -d) && hall=$(mktemp -d) && box=$hall/box && mkdir "$box" || return 1
  : >"$run/report" && : >"$run/printed" && : >"$run/message" && : >"$run/input" || return 1
  [ ! -f "$test/input" ] || cp "$test/input" "$run/input" || return 1
  given=$weight
  [ ! -d "$test/files" ] || given=$((given + $(du -sk "$test/files" | cut -f 1) * 1024))
  # room for what is given, and for 8 files of the limit
  bytes=$((given * 2 + size * 1024 * 8 + 65536))
  set -- sh "$room/shield.sh" inside "$room" "$run" "$box" "$test" "$solution" "$options"
  case $shield in
    unshare) set -- unshare -r -m -n -i -u -p -f --kill-child "$@" ;;
    bwrap) set -- bwrap --dev-bind / / --die-with-parent --size "$bytes" --tmpfs "$box" -- "$@" ;;
  esac
  began=$(date +%s)
  run_group timeout -s KILL "$time" env -i PATH="$PATH" LC_ALL=C bytes="$bytes" "$@"
  took=$(($(date +%s) - began))
}

# whether a further run with options ends as the first one, whose folder is then $first
run_again() {
  was=$status
  if [ -z "$first" ]; then
    first=$run
  else
    rm -rf "$run"
  fi
  rm -rf "$hall"
  run_test "$1" && [ "$ended" = 0 ] && read_report && [ "$status" = "$was" ]
}

# whether a file has the bytes of another in front
continues() {
  head -c "$(wc -c <"$2")" "$1" | cmp -s - "$2"
}

# goes back from further runs to the first one
go_back() {
  status=$was file=$was_file
  if [ -n "$first" ]; then
    rm -rf "$run"
    run=$first first=''
  fi
}

# Whether it was refused when it was loaded, and for what. With one step, too few to write and to halt, only the tool has
# the status 65.
is_refused() {
  was_file=$file refused=''
  ! run_again '--steps 1' || refused=$(last_words "$run/message")
  go_back
  [ -n "$refused" ]
}

# Whether a run that was not refused ended by a Halt, where a test takes each status. The tool and the system have some
# of these, too: then a further run shows it. With --last a stop or spent steps have a line more, and with --report a run
# that was ended otherwise has no report.
has_halted() {
  case $status in
    65) return ;;
    70 | 75) option='--last 1' ;;
    6[4-9] | 7[0-6] | 12[4-9] | 1[3-9]? | 2??) option=--report ;;
    *) return ;;
  esac
  was_file=$file
  run_again "$option" && cmp -s "$run/printed" "$first/printed" && {
    [ "$option" != --report ] || [ -n "$(reported_steps)" ]
  }
  answer=$?
  go_back
  return "$answer"
}

# The verdict of a run that seems to be stopped. Only the tool knows: a further run with --last has a line after the
# output where the machine was stopped, and none where a solution halted. No solution sees the option, and nothing else may
# differ.
judge_stop() {
  if ! run_again '--last 1' || ! cmp -s "$run/message" "$first/message" || ! continues "$run/printed" "$first/printed"; then
    verdict=failed detail='a further run, with --last, ended in another way'
  elif [ "$(wc -c <"$run/printed")" -gt "$(wc -c <"$first/printed")" ]; then
    verdict=right
  else
    verdict=stop detail='it halted with 70, and was not stopped'
  fi
}

# the steps of a further run with --report, or nothing where it has no report: after what standard error had before comes
# the tool's report, which lacks the last step
reported_steps() {
  continues "$run/message" "$first/message" && tail -c "+$(($(wc -c <"$first/message") + 1))" "$run/message" |
    awk '$1 == "profile" { n += $4 } $1 == "cover" { is_whole = 1 } END { if (is_whole) printf "%d\n", n + 1 }'
}

# the steps of a run go to $counted, from a further one
count_steps() {
  run_again --report && cmp -s "$run/printed" "$first/printed" && counted=$(reported_steps)
}

# assembles the source, without a run: what the tool says of it comes from the tool alone
assemble() {
  run=$(mktemp -d) && : >"$run/shield" || return
  case $solution in
    *.failed) verdict=failed detail="not graded: $(cat "$room/solutions/$solution")" ;;
    *.mms)
      run_group timeout -s KILL "$time" sh "$room/shield.sh" assembling $((memory * 1024)) "$room/root/mmixware" asm \
        "$room/solutions/$solution" "$run/object"
      case $ended in
        0) ;;
        65) verdict=refused status=65 detail="refused: $(last_words "$run/shield")" ;;
        *) verdict=failed detail="not assembled: $(last_words "$run/shield")" ;;
      esac
      ;;
  esac
}

# what an object is refused for; it gets one step, too few to write and to halt
refuse_object() {
  run_test '--steps 1' && [ "$ended" = 0 ] && read_report || return
  [ "$status" != 65 ] || detail="refused: $(last_words "$run/message")"
}

# a test that wants a refusal; a source is not run
judge_refusal() {
  wanted=$(cat "$test/refusal")
  if [ "$begun" = right ] && [ "${solution##*.}" = mmo ] && ! refuse_object; then
    verdict=failed detail="not run: $(last_words "$run/shield")"
    return
  fi
  case $detail in
    "refused: "*": $wanted "*) verdict=right detail='' ;;
    "refused: "*) verdict=refusal detail="$detail, and not for $wanted" ;;
    *) verdict=refusal detail="not refused, and $wanted is wanted" ;;
  esac
}

# the row of a test
grade_test() {
  verdict=$begun status=$begun_status detail=$begun_detail words='' expected='' printed='' counted=''
  if [ "$begun" != failed ] && [ -f "$test/refusal" ]; then
    judge_refusal
    remove_run
  elif [ "$begun" = right ]; then
    verdict=failed detail='no folder for a run'
    if run_test ''; then
      judge
      # of what is refused the message is said already
      [ "$verdict" = refused ] || words=$(last_words "$run/message")
      is_kept_hidden || show_difference
      [ "$verdict" != right ] || [ -z "$count" ] || count_steps
    fi
    remove_run
    first=''
  fi
  if is_kept_hidden; then
    keep_hidden
  fi
  printf '%s\t%s\t%s\t%s\t%s\t%s\t%s\t%s\t%s\n' "${solution%.*}" "${test##*/}" "$verdict" "$status" "$detail" "$words" \
    "$expected" "$printed" "$counted"
}

is_kept_hidden() {
  [ -f "$test/hidden" ] && [ -z "$reveal" ]
}

# of a hidden test only this is shown, since a solution can put what it reads into all else
keep_hidden() {
  status='' words='' expected='' printed='' counted=''
  case $verdict:$begun in
    right:* | failed:* | time:* | refused:* | *:refused) ;;
    *) verdict=hidden detail='not right' ;;
  esac
  [ ! -f "$test/refusal" ] || [ "$verdict" = right ] || verdict=hidden detail='not right'
}

# grades one solution: a row for each test
grade_solution() {
  room=$(pwd) solution=$1 tab=$(printf '\t')
  . "$room/settings"
  . "$room/judge.sh"
  apart='' running='' run='' hall='' first=''
  trap 'remove_run; rm -f "$room/at-work/$solution"' EXIT
  trap 'stop_run 143' TERM
  trap 'stop_run 130' INT
  trap 'stop_run 129' HUP
  echo $$ >"$room/at-work/$solution"
  verdict=right status='' detail=''
  assemble
  remove_run
  if [ "$shield" = none ] && [ "$(id -u)" = 0 ]; then
    verdict=failed detail='not run: no shield, and the user is root'
  fi
  weigh
  begun=$verdict begun_status=$status begun_detail=$detail
  # a run of a test has no part of this list
  while IFS="$tab" read -r test more <&3; do
    test=$room/task/$test
    grade_test 3<&-
  done 3<"$room/tests"
}

case ${0##*/} in
  run.sh) "$@" ;;
esac
