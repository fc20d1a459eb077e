#!/bin/sh
# Tests the grader: sh checks/grade/test.sh [PROGRAM]. Each solution of solutions.txt has to get its verdict, with each
# shield that works here and with none, by GNU parallel, where it is there, and by xargs. Prints only what is wrong, builds
# nothing, and leaves nothing behind. Without a built program nothing is tested.
cd "$(dirname "$0")/../.." || exit 1
top=$(pwd)
program=${1:-$top/.built/mmixware}
[ -x "$program" ] || exit 0
room=$(mktemp -d) || exit 1
trap 'cd /; rm -rf "$room"' EXIT
trap 'exit 1' INT TERM HUP
SECRET=secret
export SECRET
bad=0

wrong() {
  echo "checks/grade/test.sh: $*" >&2
  bad=1
}

grade() {
  $as "$grade" --program "$program" "$@" 2>"$room/said"
}

# what is done without a shield is refused for root, and so it is done as another user, with copies that this user can read
as='' grade=$top/grade
become_other() {
  [ "$(id -u)" = 0 ] || return 0
  "$grade" --program "$program" --shield none "$room/tasks/hello" "$room/solutions/hello" >"$room/out" 2>"$room/said"
  [ $? = 64 ] && grep -q 'refused for root' "$room/said" || wrong "root may do without a shield: $(cat "$room/said")"
  mkdir "$room/tool" && cp -R "$top/grade" "$top/grading" "$room/tool" && cp "$program" "$room/tool/mmixware" &&
    chown -R 65534:65534 "$room" || exit 1
  grade=$room/tool/grade program=$room/tool/mmixware as='setpriv --reuid=65534 --regid=65534 --clear-groups'
}

# writes the solutions to files, and their verdicts, one line each, to two tables
make_solutions() {
  mkdir -p "$room/tasks" "$room/solutions"
  cp -R checks/grade/tasks/. "$room/tasks"
  mkdir -p "$room/tasks/fifo/1/files" && mkfifo "$room/tasks/fifo/1/files/fifo"
  for task in "$room"/tasks/*/; do
    mkdir "$room/solutions/$(basename "$task")"
  done
  : >"$room/verdicts" && : >"$room/bare"
  awk -v room="$room" '
    function put(line) {
      gsub(/@TASKS@/, room "/tasks", line); gsub(/@SOLUTIONS@/, room "/solutions", line)
      if (line == "@LONG@") line = sprintf("%5000s", "")
      print line >file
    }
    FNR == NR { if (on) alike = alike $0 "\n"; if ($0 == "== alike") on = 1; next }
    $0 == "== alike" { exit }
    /^== / {
      n = split(substr($0, 4), part, " : "); split(part[1], word, " ")
      if (file != "") close(file)
      file = room "/solutions/" word[1] "/" word[2] ".mms"; printf "" >file
      print word[1], word[2], part[2] >(room "/verdicts"); print word[1], word[2], part[n] >(room "/bare"); next
    }
    file == "" || /^\* / { next }
    $0 == "@ALIKE@" { printf "%s", alike >file; next }
    { put($0) }' checks/grade/solutions.txt checks/grade/solutions.txt
  # two objects: one that is right, and one that is none
  "$program" asm "$room/solutions/hello/right.mms" "$room/solutions/hello/object.mmo"
  echo none >"$room/solutions/hello/no-object.mmo"
  cp "$room/solutions/hello/object.mmo" "$room/solutions/hello/no-object.mmo" "$room/solutions/object"
  printf '%s\n' 'hello object right' 'hello no-object refused' 'object object refusal' 'object no-object right' |
    tee -a "$room/verdicts" >>"$room/bare"
}

# a line for each solution of a task: the task, the solution and the verdicts, from lines of JSON
verdicts_of() {
  sed -n 's/^{"solution":"[^"]*\/\([^"\/]*\)\.mm[so]","test":"[^"]*","verdict":"\([a-z]*\)","status":\([0-9a-z]*\),.*/\1 \2 \3/p' |
    awk -v task="$1" '
      { if (!($1 in got)) name[++n] = $1; got[$1] = got[$1] " " ($2 == "status" ? "status=" $3 : $2) }
      END { for (i = 1; i <= n; i++) print task, name[i] got[name[i]] }'
}

# grades the solutions of tasks under a shield, and compares with a table
compare() {
  shield=$1 with=$2 table=$3 tasks=$4
  : >"$room/wanted" && : >"$room/got"
  for task in $tasks; do
    grep "^$task .*[^-]$" "$table" >>"$room/wanted"
    awk -v task="$task" -v room="$room" '$1 == task && $3 != "-" { print room "/solutions/" task "/" $2 }' "$table" |
      while read -r path; do ls "$path".mm[so]; done >"$room/paths"
    # shellcheck disable=SC2046
    grade --json --time 5 --shield "$shield" --with "$with" "$room/tasks/$task" $(cat "$room/paths") | verdicts_of "$task" \
      >>"$room/got"
  done
  diff "$room/wanted" "$room/got" >"$room/differences" ||
    wrong "shield $shield, $with: verdicts that are wanted (<) and given (>):
$(cat "$room/differences")"
}

# whether a shield has to work here
is_there() {
  case $1 in
    unshare) unshare -r -m -n -i -u -p -f true 2>/dev/null ;;
    none) ;;
    bwrap) bwrap --dev-bind / / --size 4096 --tmpfs /tmp bwrap --unshare-all --ro-bind / / true 2>/dev/null ;;
  esac
}

# that arguments or a task are refused with the status 64
refused() {
  grade "$@" >"$room/out"
  status=$?
  [ "$status" = 64 ] && [ ! -s "$room/out" ] && [ -s "$room/said" ] || wrong "grade $*: status $status, not 64"
}

check_shields() {
  for shield in unshare bwrap; do
    if is_there "$shield"; then
      compare "$shield" xargs "$room/verdicts" "$every"
      for task in hello two given; do
        diff -r "checks/grade/tasks/$task" "$room/tasks/$task" >/dev/null || wrong "shield $shield: a solution changed $task"
      done
    fi
  done
  become_other
  # what a solution may spoil without a shield are the tasks of this room
  compare none xargs "$room/bare" "$every"
  if command -v parallel >/dev/null; then
    compare none parallel "$room/bare" 'two status'
  fi
  cp checks/grade/tasks/hello/1/output "$room/tasks/hello/1/output"
}

# that nothing is graded where no shield works, but with --shield none, which says what a solution can spoil
check_none() {
  mkdir "$room/without"
  for name in unshare bwrap; do
    printf '#!/bin/sh\nexit 1\n' >"$room/without/$name" && chmod 755 "$room/without" "$room/without/$name"
  done
  # shellcheck disable=SC2030
  (PATH=$room/without:$PATH refused "$room/tasks/hello" "$room/solutions/hello/right.mms") || bad=1
  grep -q 'no shield works here' "$room/said" || wrong "it is not said that no shield works: $(cat "$room/said")"
  grade --shield none "$room/tasks/hello" "$room/solutions/hello/right.mms" >"$room/out"
  grep -q "no shield: a solution can overwrite $room/tasks/hello\$" "$room/said" || wrong 'it is not said what can be overwritten'
}

# a shield for what is not about shields
choose_shield() {
  for shield in unshare bwrap none; do
    ! is_there "$shield" || return 0
  done
}

# the order of the arguments, the status, and the table
check_forms() {
  hello=$room/solutions/hello
  grade --shield "$shield" --json "$room/tasks/hello" "$hello/wrong.mms" "$hello/right.mms" >"$room/out"
  [ $? = 1 ] || wrong 'the status is not 1 where a solution is wrong'
  printf '%s\n' wrong.mms right.mms >"$room/wanted"
  sed 's/^{"solution":"[^"]*\///; s/".*//' "$room/out" | cmp -s - "$room/wanted" || wrong 'the order is not that of the arguments'
  grade --shield "$shield" "$room/tasks/two" "$room/solutions/two" >"$room/out"
  printf '%s  %s\n' both.mms 2/2 half.mms '1/2  2: the output differs at byte 1 (line 1)' >"$room/wanted"
  awk '{ sub(/^.*solutions\/two\//, ""); print }' "$room/out" | cmp -s - "$room/wanted" || wrong "the table is
$(cat "$room/out")"
  grade --shield "$shield" "$room/tasks/two" "$room/solutions/two/both.mms" >/dev/null || wrong 'the status is not 0 where all is right'
}

check_refusals() {
  hello=$room/solutions/hello/right.mms
  refused "$room/tasks/hello"
  refused --jobs 0 "$room/tasks/hello" "$hello"
  refused --nothing "$room/tasks/hello" "$hello"
  refused "$room/nothing" "$hello"
  refused --with xargs --sshlogin there "$room/tasks/hello" "$hello"
  for part in status/70 status/300 ouput/hello; do
    mkdir -p "$room/faulty/1"
    : >"$room/faulty/1/output" && echo "${part#*/}" >"$room/faulty/1/${part%/*}"
    refused "$room/faulty" "$hello"
    rm -r "$room/faulty"
  done
  mkdir -p "$room/faulty/1"
  refused "$room/faulty" "$hello"
  head -c 70000 /dev/zero >"$room/faulty/1/output"
  refused --size 64 "$room/faulty" "$hello"
}

every='hello memory fifo given written two status ends object'
make_solutions
check_shields
check_none
choose_shield
check_forms
check_refusals
exit $bad
