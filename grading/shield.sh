# One run, within the shield: sh shield.sh inside ROOM RUN BOX TEST SOLUTION OPTIONS. The room is the folder of the work,
# RUN that for what is seen of the run, and BOX what the solution may see.

# the folders of the shield by unshare: program and libraries to be read only, and the solution's own
mount_box() {
  mount -t tmpfs -o size=256m,mode=755 grade "$box" && cp -R "$room/root/." "$box" &&
    mount -t tmpfs -o "size=$bytes,nr_inodes=8192" grade "$box/work" && mount -o remount,bind,ro "$box"
}

# puts the test's files and the solution into the solution's folder
fill_work() {
  [ ! -d "$test/files" ] || { cp -R "$test/files/." "$work" && chmod -R u+rwX "$work"; } || return 1
  cp "$room/solutions/$solution" "$work/solution.${solution##*.}" && chmod u+w "$work/solution.${solution##*.}"
}

# turns into the program, under the limits
become_program() {
  ulimit -c 0
  ulimit -f $((size * 2)) && ulimit -v $((memory * 1024)) && cd "$work" || exit 125
  if [ "$shield" = bwrap ]; then
    exec bwrap --unshare-all --die-with-parent --json-status-fd 4 --ro-bind "$room/root" / --bind "$work" /work \
      --chdir /work --clearenv -- /mmixware "$@" 4>"$run/json"
  fi
  # it starts no processes; -p is what some shells call -u
  ulimit -u 0 2>/dev/null || ulimit -p 0 2>/dev/null
  if [ "$shield" = unshare ]; then
    exec chroot "$box" /env -i -C /work /mmixware "$@"
  fi
  exec env -i "$room/root/mmixware" "$@"
}

# the first file that is not as the test wants it; a copy of it, which is no longer than the limit, goes to the folder RUN
wrong_file() {
  [ -d "$test/written" ] || return 0
  (cd "$test/written" && find . -type f) >"$run/wanted" && sort -o "$run/wanted" "$run/wanted" || return 1
  while IFS= read -r name; do
    if ! [ -f "$work/$name" ] || ! cmp -s "$work/$name" "$test/written/$name"; then
      [ ! -f "$work/$name" ] || head -c $((size * 1024)) "$work/$name" >"$run/file" || return 1
      printf '%s\n' "${name#./}"
      return
    fi
  done <"$run/wanted"
}

# runs a solution in the folder $box, and appends its status and its first wrong file to the report
inside() {
  room=$1 run=$2 box=$3 test=$4 solution=$5 options=$6 work=$3
  . "$room/settings"
  # this shell ends here if one of these files cannot be opened, and so reports nothing
  exec 3>>"$run/report" 5<"$run/input" 6>"$run/printed" 7>"$run/message"
  if [ "$shield" = unshare ]; then
    work=$box/work
    mount_box || exit 1
  fi
  fill_work || exit 1
  kind=${solution##*.} command=run
  [ "$kind" = mms ] || command=sim
  # a later --steps among the options goes before
  # shellcheck disable=SC2086
  set -- "$command" --steps "$steps" $options "solution.$kind"
  if [ -f "$test/arguments" ]; then
    while IFS= read -r word || [ -n "$word" ]; do
      set -- "$@" "$word"
    done <"$test/arguments" || exit 1
  fi
  (become_program "$@") <&5 >&6 2>&7 3>&- 5<&- 6>&- 7>&-
  status=$?
  if [ "$shield" = bwrap ]; then
    # bwrap gives the status only of a program that was started
    status=$(sed -n 's/.*"exit-code": *\([0-9]*\).*/\1/p' "$run/json")
    [ -n "$status" ] || exit 1
  fi
  file=$(wrong_file) && printf '%s %s\n' "$status" "$file" >&3
}

# turns into the assembler, which runs nothing, with so many KiB of memory
assembling() {
  ulimit -c 0
  ulimit -v "$1" || exit 125
  shift
  exec env -i "$@"
}

"$@"
