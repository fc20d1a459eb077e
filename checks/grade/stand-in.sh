# What the checks with a stand-in for the program have in common; they are begun at the top, and say in $check who they
# are. They go on in a folder of their own, which is removed at the end. Their runs have no shield, which is refused for
# root: begun by root they begin again as another user, with a copy of the grader that this user can read.
top=$(pwd)
grade=${1:-$top/grade}
if [ "$(id -u)" = 0 ]; then
  copy=$(mktemp -d) || exit 1
  trap 'cd /; rm -rf "$copy"' EXIT
  mkdir -p "$copy/checks" && cp -R checks/grade "$copy/checks" && cp "$grade" "$copy/grade" &&
    cp -R "$(dirname "$grade")/grading" "$copy" && chmod -R a+rX "$copy" || exit 1
  setpriv --reuid=65534 --regid=65534 --clear-groups sh "$copy/$check"
  exit
fi
room=$(mktemp -d) || exit 1
trap 'cd /; rm -rf "$room"' EXIT
trap 'exit 1' INT TERM HUP
mkdir "$room/temporary"
TMPDIR=$room/temporary
PARALLEL_HOME=$room/parallel
export TMPDIR PARALLEL_HOME
bad=0
as=
cp checks/grade/fake-mmixware "$room/mmixware" && chmod 755 "$room/mmixware"
cd "$room" || exit 1

wrong() {
  printf '%s: %s\n' "$check" "$*" >&2
  bad=1
}

# a file with one line
put() {
  mkdir -p "$(dirname "$1")" && printf '%s\n' "$2" >"$1"
}

grade() {
  # shellcheck disable=SC2086
  $as "$grade" --program "$room/mmixware" --shield none "$@" 2>"$room/said"
}

# what a row shows, what grade has to print, and its status; then its words
gives() {
  shows=$1 wanted=$2 status=$3
  shift 3
  grade "$@" >"$room/out"
  got=$?
  printf '%s\n' "$wanted" >"$room/wanted"
  [ "$got" = "$status" ] || wrong "$shows: the status is $got, not $status: $(cat "$room/said")"
  diff "$room/wanted" "$room/out" >"$room/differences" || wrong "$shows: wanted (<) and printed (>):
$(cat "$room/differences")"
}

# that words or a task are refused with the status 64, and a reason that has these words
refused() {
  reason=$1
  shift
  grade "$@" >"$room/out"
  got=$?
  [ "$got" = 64 ] && [ ! -s "$room/out" ] && grep -q "$reason" "$room/said" ||
    wrong "$*: status $got with '$(cat "$room/said")' and not 64 with '$reason'"
}

# waits for something, for some seconds
waits() {
  turns=0
  while [ "$turns" -lt 400 ] && ! "$@"; do
    sleep 0.05
    turns=$((turns + 1))
  done
  "$@"
}

began() {
  [ "$(ls "$room/running" | wc -l)" = "$1" ]
}

all_gone() {
  for one in "$room"/running/*; do
    # one that has ended, and was not yet waited for, is gone
    case $(ps -o stat= -p "${one##*/}") in
      [!Z]*) return 1 ;;
    esac
  done
}

is_clean() {
  [ -z "$(ls -A "$TMPDIR")" ]
}

# that a signal by its name ends all: the status that is due, what runs the solutions, how many run at once, and options
ends_by() {
  name=$1 due=$2 with=$3 many=$4
  shift 4
  rm -rf running && mkdir running
  env --default-signal=INT,TERM,HUP "$grade" --program "$room/mmixware" --shield none --with "$with" --jobs "$many" "$@" \
    task sleeping >"$room/out" 2>"$room/said" &
  grading=$!
  waits began "$many" || wrong "$name, $with: the runs did not begin: $(cat "$room/said")"
  kill -s "$name" "$grading"
  sent=$(date +%s%N)
  wait "$grading"
  got=$?
  took=$((($(date +%s%N) - sent) / 1000000))
  [ "$got" = "$due" ] || wrong "$name, $with: the status is $got, not $due"
  ! grep -q Terminated "$room/said" || wrong "$name, $with: processes are named that the signal ended"
  # another machine has its end a little later
  [ $# = 0 ] || waits is_clean
  all_gone || wrong "$name, $with: programs run on"
  is_clean || wrong "$name, $with: folders are left: $(ls -A "$TMPDIR")"
  # a busy computer is given more than the second, and another machine more than that
  [ "$took" -le $(($# > 0 ? 30000 : 4000)) ] || wrong "$name, $with: it took $took ms"
}
