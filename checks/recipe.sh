#!/bin/sh
# Tries the recipe of CONTRIBUTING.md: checks/recipe/align.patch adds the directive ALIGN through all layers. The patch has to apply to a
# copy of the repository, and what scripts check of that copy has to hold. It prints only what is wrong.
#
# usage: checks/recipe.sh                proves nothing
#        checks/recipe.sh --prove        proves the crates that the patch changes, too, and prints the minutes of each
#        checks/recipe.sh --keep FOLDER  leaves the copy in FOLDER, with what of the patch applies; `git diff -U2` there is the new patch
here=$(cd "$(dirname "$0")/.." && pwd) || exit 1
patch=$here/checks/recipe/align.patch
bad=0

wrong() {
  echo "checks/recipe.sh: $*" >&2
  bad=1
}

# a copy of the files that git knows, as they are now, in a repository of its own
copy_to() {
  (cd "$here" && git ls-files -z | tar --null --no-recursion -T - -cf -) | tar -C "$1" -xf - || return
  git -C "$1" init -q && git -C "$1" add -A &&
    git -C "$1" -c user.name=recipe -c user.email=recipe@localhost commit -q -m 'The repository as it is'
}

# the crates that the patch changes, in the order of crates.txt
changed() {
  sed '/^#/d; s/[ :].*//' "$here/crates.txt" | while IFS= read -r crate; do
    ! grep -q "^+++ b/crates/$crate/" "$patch" || echo "$crate"
  done
}

# no file is left that the patch should have changed, too
check() {
  python3 editors/words.py --check >&2 || wrong 'the files for editors have other words'
  python3 checks/explain.py >&2 || wrong 'mmixview does not explain the directive'
  python3 checks/claims --check >&2 || wrong 'the pages of checks/claims are not in the patch'
}

# each crate, with those below it: what was proved on this machine with the same text is not proved again
prove() {
  for crate in $(changed); do
    begun=$(date +%s)
    rt ci "$crate" >../said 2>&1 || { bad=1 && cat ../said; }
    echo "$crate: $(tail -n 1 ../said), after $((($(date +%s) - begun + 30) / 60)) minutes"
  done
}

if ! command -v git >/dev/null || ! [ -e "$here/.git" ]; then
  echo 'checks/recipe.sh: nothing is tried, since there is no git or no clone' >&2
  exit 0
fi
if [ "$1" = --keep ]; then
  mkdir -p "$2" && room=$(cd "$2" && pwd) || exit 1
  copy_to "$room" && cd "$room" && git apply --reject "$patch"
  exit
fi
room=$(mktemp -d) || exit 1
trap 'rm -rf "$room"' EXIT
trap 'exit 1' INT TERM
mkdir "$room/copy" && copy_to "$room/copy" && cd "$room/copy" || exit 1
if git apply "$patch"; then
  ! command -v python3 >/dev/null || check
  [ "$1" != --prove ] || prove
else
  wrong 'the patch does not apply: checks/recipe.sh --keep FOLDER leaves a copy to mend it in'
fi
exit $bad
