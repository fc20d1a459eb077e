# The program that is kept: where it is, and whether it was built from the sources that are here. The scripts read
# this file once $here is the top of the repository. Sums decide, and times only once, where `rt ci` has built it.
# The program is mmixware, or the one that $tool names.
kept=$here/.built/${tool:-mmixware}
# the program as `rt` builds it
built=$here/crates/${tool:-mmixware}/out/${tool:-mmixware}
# `rt ci` opens this file when it begins, and holds it until it ends
lock=$here/.git/rt-ci.lock

# the rows of crates.txt for the crates that the program is built from
rows() {
  awk -F : -v top="${tool:-mmixware}" '
    function visit(crate, below, count, at) {
      if (!(crate in row) || crate in seen) return
      seen[crate] = 1
      count = split(names[crate], below, " ")
      for (at = 1; at <= count; at++) visit(below[at])
      print row[crate]
    }
    !/^#/ && NF { split($1, words, " "); row[words[1]] = $0; names[words[1]] = $2 }
    END { visit(top) }' "$here/crates.txt"
}

# the folders of the sources, by names from the top of the repository
folders() {
  rows | sed 's/[ :].*//' | while IFS= read -r crate; do
    for part in src specs proofs; do
      [ ! -d "crates/$crate/$part" ] || echo "crates/$crate/$part"
    done
  done
}

sum_of_sources() (
  cd "$here" || exit 1
  { rows; find crates.txt $(folders) -type f ! -name crates.txt -exec sha256sum {} + | LC_ALL=C sort; } | sha256sum
)

# whether no source has been changed, moved or removed since a file was written. The time of a change is the system's:
# no command sets it, and a copy has a new one.
is_unchanged_since() (
  cd "$here" || exit 1
  found=$(find crates.txt $(folders) -newercm "$1") && [ -z "$found" ]
)

# whether the kept program was built from the sources that are here, and is as it was
is_kept() {
  [ -x "$kept" ] && [ -f "$kept.sums" ] && [ "$(cat "$kept.sums")" = "$(sum_of_sources; sha256sum <"$kept")" ]
}

# keeps a program, with the sum of the sources that it was built from
keep() {
  mkdir -p "$here/.built" && cp "$1" "$kept.$$" && { echo "$2"; sha256sum <"$kept.$$"; } >"$kept.sums.$$" &&
    mv -f "$kept.$$" "$kept" && mv -f "$kept.sums.$$" "$kept.sums" && return
  rm -f "$kept.$$" "$kept.sums.$$"
  return 1
}

# keeps the program that rt has built since a file was written, if no source has been changed since then
keep_since() {
  sources=$(sum_of_sources) && is_unchanged_since "$1" && keep "$built" "$sources"
}

# opens the lock of `rt ci`, where there can be one
open_lock() {
  [ -d "$here/.git" ] && (: >>"$lock") 2>/dev/null && exec 9<"$lock"
}

close_lock() {
  exec 9<&-
}

# Keeps the program that `rt ci` has built from the sources that are here; the lock is held. `rt ci` gives no sums. But
# it opens its lock when it begins, sets each out/ aside, and makes a new one before it reads the crate. So what it has
# read is here, if no source has been changed since the oldest of these. It links a second program once the first one is
# whole.
take_over() {
  [ -x "$built" ] && [ -n "$(find "$built.by-rattle" -newer "$built" 2>/dev/null)" ] &&
    keep_since "$(ls -dtr "$lock" "$here"/crates/*/out/.. | head -n 1)"
}

# whether the kept program was built from the sources that are here, once that of an ended `rt ci` is taken over
is_ready() {
  is_kept || {
    open_lock && flock -n 9 && take_over
    ready=$?
    close_lock
    return $ready
  }
}
