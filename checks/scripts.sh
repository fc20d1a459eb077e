#!/bin/sh
# Tries ./mmixware, ./try, ./install, and what ./release refuses, in small repositories of its own, whose program and
# whose `rt` are scripts of a few lines. It prints only what is wrong.
here=$(cd "$(dirname "$0")/.." && pwd) || exit 1
room=$(mktemp -d) || exit 1
trap 'rm -rf "$room"' EXIT
trap 'exit 1' INT TERM
cd "$room" || exit 1
PATH=$room/bin:$PATH
bad=0

wrong() {
  echo "checks/scripts.sh: $*" >&2
  bad=1
}

# what a command prints, standard error among it, and its status have to be these
prints() {
  wanted=$1
  shift
  got=$("$@" 2>&1; echo "status $?")
  if [ "$got" != "$wanted" ]; then
    wrong "$(printf '%s\nprints\n%s\nand has to print\n%s' "$*" "$got" "$wanted")"
  fi
}

# makes a repository of two programs, a crate below them, and one that no program needs
make_repository() {
  for crate in mmixware mmixview mx_word test_rows; do
    mkdir -p "$1/crates/$crate/src"
    echo 'fn main() {}' >"$1/crates/$crate/src/main.rt"
  done
  mkdir "$1/.git" "$1/docs" "$1/packaging" "$1/crates/mx_word/must-fail"
  touch "$1/crates/mx_word/must-fail/wrong.edit"
  echo 'Handles allowed: none.' >"$1/HANDLES"
  printf '# Crates.\nmx_word: thiserror\nmx_rows: mx_word\nmmixware: mx_word\nmmixview: mx_word\n' >"$1/crates.txt"
  cp "$here/mmixware" "$here/mmixview" "$here/install" "$here/try" "$here/release" "$here/grade" "$1"
  cp "$here"/packaging/*.sh "$1/packaging"
  cp -R "$here/grading" "$1"
  cp "$here"/docs/*.1 "$here/docs/GRADING.md" "$1/docs"
  cp -R "$here/completion" "$here/editors" "$1"
}

# what rt does: it builds each program, in a repository under its lock, and does what $meanwhile says before that. Of the crates
# alone, which are no repository, it wants neither wrong bodies nor crates of tests
rt_builds() {
  cat >bin/rt <<'END'
#!/bin/sh
if [ -d .git ]; then
  exec 8>.git/rt-ci.lock
  flock 8
elif [ -e crates/mx_word/must-fail ] || [ -e crates/test_rows ]; then
  exit 1
fi
rm -rf crates/*/out
for crate in crates/*; do
  mkdir "$crate/out"
done
sleep 0.1
printf '== mx_word\nmx_word: all is well\nrt: mx_word proved\nrt: mmixware is kept: an earlier run proved it\n'
sh -c "$meanwhile" 8>&-
for name in mmixware mmixview; do
  program=crates/$name/out/$name
  if [ -d "crates/$name" ]; then
    printf '#!/bin/sh\necho built "$@"\n' >$program
    chmod +x $program
    sleep 0.1
    cp $program $program.by-rattle
  fi
done
END
  chmod +x bin/rt
}

# from here on nothing is built
rt_fails() {
  echo 'exit 1' >bin/rt
}

gate() (
  cd "$1" && rt ci >/dev/null
)

# begins a gate of a second, and waits until it has set each out/ aside
begin_gate() {
  rm -f begun
  meanwhile="touch $room/begun; sleep 1" sh -c 'cd "$0" && exec rt ci >/dev/null' "$1" &
  running=$!
  while [ ! -e begun ]; do
    sleep 0.05
  done
}

proving='mmixware: proving and building the program; from nothing this took 10 to 27 minutes on four processors'
progress='mmixware: 1 of 2 crates, 0 minutes
mmixware: 2 of 2 crates, 0 minutes'
building="$proving
$progress
mmixware: the program is built"
changed="$proving
$progress
mmixware: the sources were changed while the program was built: call it again"
failing="$proving
mmixware: the program was not built; the lines above are the last that rt said"
mkdir bin temporary
TMPDIR=$room/temporary
meanwhile=
export meanwhile TMPDIR

# the first command, then the gate: during it and when it is cut off the program that is kept answers at once
make_repository repo
rt_builds
prints "$building
built a b  c
status 0" repo/mmixware a 'b  c'
begin_gate repo
prints 'built a
status 0' repo/mmixware a
kill "$running"
wait "$running" 2>/dev/null
prints 'built a
status 0' repo/mmixware a
[ ! -e repo/crates/mmixware/out/mmixware ] || wrong 'the gate was not cut off'
gate repo
prints 'built a
status 0' repo/mmixware a

# the gate, then the first command, which proves nothing
make_repository gated
gate gated
rt_fails
prints 'built a
status 0' gated/mmixware a
cmp gated/.built/mmixware.sums repo/.built/mmixware.sums || bad=1

# during the gate, where no program is kept: it waits, and takes over what the gate has built
rt_builds
make_repository waiting
begin_gate waiting
prints 'mmixware: waiting for the rt ci, ./mmixware or ./mmixview that runs here
built a
status 0' waiting/mmixware a
wait "$running" 2>/dev/null

# a gate during which a source, or a folder of them, was moved away and put back; and one whose program is not whole
for moved in crates/mx_word/src/main.rt crates/mx_word/src; do
  rm -rf again
  make_repository again
  meanwhile="mv $moved away; mv away $moved"
  gate again
  meanwhile=
  rt_fails
  prints "$failing
status 1" again/mmixware a
  rt_builds
done
gate again
touch again/crates/mmixware/out/mmixware
rt_fails
prints "$failing
status 1" again/mmixware a

# a gate's repository in which a source was changed afterwards and given an old time, and copies of it
rt_builds
gate again
echo '// changed' >>again/crates/mx_word/src/main.rt
touch -d '2 days ago' again/crates/mx_word/src/main.rt
rt_fails
prints "$failing
status 1" again/mmixware a
for how in -R -a; do
  cp $how again "again$how"
  sleep 0.1
  prints "$failing
status 1" "again$how/mmixware" a
done

# a first command that is cut off leaves a part of a program, which is not run, nor is one whose sources were changed
rt_builds
make_repository cut
rm -f begun
meanwhile="echo part >crates/mmixware/out/mmixware; touch $room/begun; sleep 1"
cut/mmixware a >said 2>&1 &
running=$!
while [ ! -e begun ]; do
  sleep 0.05
done
kill "$running"
wait "$running" 2>/dev/null
[ -z "$(find temporary cut/.built -mindepth 1 2>/dev/null)" ] || wrong 'a first command that is cut off leaves something behind'
meanwhile="echo '// changed' >>$room/cut/crates/mx_word/src/main.rt"
prints "$changed
status 1" cut/mmixware a
meanwhile=
prints "$building
built a
status 0" cut/mmixware a

# ./try hands on its words, and the files that they name from the folder that it is called in
cat >bin/rt <<'END'
#!/bin/sh
basename "$PWD"
printf '<%s>' "$@"
cat
exit 7
END
touch a.mms 'b c'
told='try: this program is not proved. It has no terminal, what it writes to files is lost, and it runs for a minute at most.'
prints "$told
mmixware
<try><--data><a.mms=$room/a.mms><--data><b c=$room/b c><--><run><a.mms><b c><--dump><>in
status 7" sh -c 'printf "in\n" | repo/try run a.mms "b c" --dump ""'
prints "try: ../$(basename "$room")/a.mms cannot be handed on: it has .. or = in its name
status 64" repo/try run "../$(basename "$room")/a.mms"
prints 'try: usage: ./try WORDS...  as in ./try run examples/hello.mms
status 64' repo/try

# through links: one beside the repository, one to that one, and a folder
rt_fails
ln -s repo/mmixware link
mkdir far
ln -s ../link far/mmixware
ln -s repo folder
for name in ./link far/mmixware "$room/far/mmixware" folder/mmixware; do
  prints 'built a
status 0' "$name" a
done

# from a copy whose times are all new, without what rt made; there and back; with a change that the program does not
# depend on; with another program; and with a change that the program depends on
cp -r repo 'a copy'
rm -rf 'a copy/crates/mmixware/out'
sleep 0.1
touch 'a copy/crates.txt' 'a copy/crates/mmixware/src/main.rt'
prints 'built a
status 0' 'a copy/mmixware' a
mv 'a copy/crates/mx_word/src/main.rt' 'a copy/crates/mx_word/src/other.rt'
prints "$failing
status 1" 'a copy/mmixware' a
mv 'a copy/crates/mx_word/src/other.rt' 'a copy/crates/mx_word/src/main.rt'
prints 'built a
status 0' 'a copy/mmixware' a
echo '// changed' >>'a copy/crates/test_rows/src/main.rt'
prints 'built a
status 0' 'a copy/mmixware' a
cp 'a copy/.built/mmixware' good
echo '# changed' >>'a copy/.built/mmixware'
prints "$failing
status 1" 'a copy/mmixware' a
cp good 'a copy/.built/mmixware'
echo '// changed' >>'a copy/crates/mmixware/src/main.rt'
prints "$failing
status 1" 'a copy/mmixware' a
prints 'release: mmixware is not built from these sources: first call ./mmixware --version, or rt ci
status 1' 'a copy/release' "$room/made"

# from a copy of the script alone
cp repo/mmixware far/copy
prints "mmixware: in $room/far there are no sources: make a link to the script of the repository, or use its ./install
status 1" far/copy a

for word in '' -x; do
  prints 'install: usage: ./install [PREFIX]
status 64' repo/install "$word"
done
prints 'install: usage: ./install [PREFIX]
status 64' repo/install a b
prints "install: to/bin/mmixware
install: to/bin/mmixview
install: to/bin/grade
$(cd "$here/grading" && printf 'install: to/share/mmixware/grading/%s\n' *)
install: to/share/man/man1/mmixware.1
install: to/share/bash-completion/completions/mmixware
install: to/share/zsh/site-functions/_mmixware
install: to/share/man/man1/mmixview.1
install: to/share/bash-completion/completions/mmixview
install: to/share/zsh/site-functions/_mmixview
install: to/share/man/man1/grade.1
install: to/share/bash-completion/completions/grade
install: to/share/zsh/site-functions/_grade
install: to/share/doc/mmixware/docs/GRADING.md
install: to/share/mmixware/debug.words
install: to/share/vim/vimfiles/syntax/mmixal.vim
install: to/share/vim/vimfiles/ftdetect/mmixal.vim
install: to/share/vim/vimfiles/ftplugin/mmixal.vim
install: to/share/vim/vimfiles/compiler/mmixware.vim
install: to/share/emacs/site-lisp/mmixal-mode.el
install: to/share/emacs/site-lisp/mmixal-dap.el
install: to/share/org.kde.syntax-highlighting/syntax/mmixal.xml
install: to/share/gtksourceview-4/language-specs/mmixal.lang
install: to/share/gtksourceview-5/language-specs/mmixal.lang
install: to/share/texmf/tex/latex/mmixal/mmixal.sty
install: to/share/mmixware/pygments/mmixal.py
status 0" repo/install to
prints 'built a
status 0' to/bin/mmixware a
prints "$(repo/grade --help)
status 0" to/bin/grade --help

# the grader that is installed names the page that is; root has a refusal that does
if [ "$(id -u)" = 0 ]; then
  to/bin/grade --shield none task a.mms 2>&1 | grep -q -F "$(readlink -f to)/share/doc/mmixware/docs/GRADING.md" ||
    wrong 'grade does not name the page that is installed'
fi

# the manual page and the completion of the grader have each of its options
for option in $(repo/grade --help | grep -o -e '--[a-z]*'); do
  for file in docs/grade.1 completion/grade.bash completion/_grade; do
    if ! sed 's/\\-/-/g' "$here/$file" | grep -q -e "$option"; then
      wrong "$file has no $option"
    fi
  done
done

# the manual pages and the completion have each command and option of the programs, and README has each command
commands_of() {
  case $1 in
    mmixware) sed -n 's/^ *\(usage: \)\{0,1\}mmixware \([a-z][a-z]*\) .*/\2/p' "$here/crates/mmixware/src/help.rt" ;;
    mmixview) sed -n 's/^ *name: "\([a-z]*\)",$/\1/p' "$here/crates/mx_menu/src/table.rt" ;;
  esac
}

options_of() {
  case $1 in
    mmixware) grep -o -e '--[a-z][a-z]*' "$here/crates/mmixware/src/help.rt" ;;
    mmixview) sed -n 's/.*Form::[FV][a-z]*("\([a-z-]*\)").*/--\1/p' "$here/crates/mx_menu/src/table.rt" ;;
  esac | sort -u
}

for tool in mmixware mmixview; do
  [ -n "$(commands_of "$tool")" ] && [ -n "$(options_of "$tool")" ] || wrong "the commands or options of $tool are not found"
  for word in $(commands_of "$tool") $(options_of "$tool"); do
    for file in "docs/$tool.1" "completion/$tool.bash" "completion/_$tool"; do
      sed 's/\\-/-/g' "$here/$file" | grep -q -e "\(^\|[^a-z-]\)$word\($\|[^a-z-]\)" || wrong "$file has no $word"
    done
  done
  for word in $(commands_of "$tool"); do
    grep -q "^| .*\`$tool ${word}[ \`]" "$here/README.md" || wrong "README.md has no $tool $word in its table"
  done
done

# the manual page has each word of the debugger, and so has the list for completion, with what `info` shows
words=$(sed -n 's/^ *name: "\(.*\)",$/\1/p' "$here/crates/mx_ask/src/table.rt")
[ "$(printf '%s\n' $words breaks output registers ring symbols)" = "$(cat "$here/completion/debug.words")" ] ||
  wrong 'completion/debug.words does not have the words of the debugger'
for word in $words; do
  sed 's/\\-/-/g' "$here/docs/mmixview.1" | grep -q "^\.BR.*\b$word\b" || wrong "docs/mmixview.1 has no $word"
done

exit $bad
