# How a program is proved, built and kept. The scripts read this file after packaging/kept.sh, once `say` prints a line and
# $took says how long it takes.

# waits until no `rt ci` and no other ./mmixware or ./mmixview builds here, and keeps them waiting until this one is done
wait_for_turn() {
  open_lock || return 1
  flock -n 9 || { say 'waiting for the rt ci, ./mmixware or ./mmixview that runs here'; flock 9; }
}

# how many crates are done, and the time since the build began
progress() {
  minutes=$((($(date +%s) - began) / 60))
  [ "$minutes" = 1 ] && unit=minute || unit=minutes
  say "$checked of $crates crates, $minutes $unit"
}

# keeps what rt says in a file, and says at each crate that is done how far it is
told() {
  began=$(date +%s) crates=$(rows | wc -l) checked=0
  while IFS= read -r line; do
    printf '%s\n' "$line" >>"$1"
    case $line in
      'rt: '*' proved' | 'rt: '*' NOT PROVED' | 'rt: '*' is kept: '*) checked=$((checked + 1)); progress ;;
    esac
  done
}

# A repository of the program's crates alone, without wrong bodies and without what rt made: there the gate proves and builds
# the program, and nothing else, by as many jobs as there are processors.
copy_crates() {
  mkdir -p "$1/crates" && cp "$here/HANDLES" "$1" && rows >"$1/crates.txt" || return 1
  rows | sed 's/[ :].*//' | while IFS= read -r crate; do
    mkdir "$1/crates/$crate" || return 1
    for part in "$here/crates/$crate"/*; do
      case ${part##*/} in
        out | must-fail) ;;
        *) cp -R "$part" "$1/crates/$crate" || return 1 ;;
      esac
    done
  done
}

# what rt says of the crates that are not proved, and its last lines
tell_failure() {
  awk '/^== / { block = "" } { block = block $0 "\n" } / NOT PROVED$/ { printf "%s", block; block = "" } END { printf "%s", block }' \
    "$1" | tail -n 60 >&2
  say 'the program was not built; the lines above are the last that rt said'
}

# proves and builds in a folder
build_in() {
  copy_crates "$1/copy" || return 1
  sources=$(here=$1/copy sum_of_sources)
  { (cd "$1/copy" && rt ci 2>&1); echo $? >"$1/status"; } | told "$1/log"
  if [ "$(cat "$1/status")" != 0 ]; then
    tell_failure "$1/log"
  elif ! keep "$1/copy/crates/$tool/out/$tool" "$sources"; then
    say "the program cannot be kept in $here/.built"
  elif is_kept; then
    say 'the program is built'
    return
  else
    say 'the sources were changed while the program was built: call it again'
  fi
  return 1
}

build() {
  if ! command -v rt >/dev/null; then
    say 'the program is not built yet, and there is no rt to prove and build it (see README.md)'
    return 1
  fi
  say "proving and building the program; from nothing $took"
  room=$(mktemp -d) || return 1
  trap 'rm -r "$room"; exit 1' HUP INT TERM
  : >"$room/log"
  build_in "$room"
  status=$?
  rm -r "$room"
  trap - HUP INT TERM
  return $status
}

# makes the program that is kept that of the sources here, or fails
make_ready() {
  is_kept || {
    { wait_for_turn && { is_kept || take_over; }; } || build || return 1
    close_lock
  }
}
