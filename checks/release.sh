#!/bin/sh
# Tries ./release, where both programs are built from these sources: two releases have the same bytes; what is in them runs on a
# system that has the C library alone; and the sessions of the documents go as they say with what the package installs. It
# prints only what is wrong, and builds no program.
here=$(cd "$(dirname "$0")/.." && pwd) || exit 1
room=$(mktemp -d) || exit 1
trap 'rm -rf "$room"' EXIT
trap 'exit 1' INT TERM
bad=0
wrong() {
  echo "checks/release.sh: $*" >&2
  bad=1
}

# a command in a folder that is the whole system for it, where such a folder can be had
within() {
  if [ "$(id -u)" = 0 ]; then
    chroot "$@"
  else
    unshare -r chroot "$@"
  fi
}

# puts the program's libraries into a folder, and nothing else
make_system() {
  for file in $(ldd "$1" | grep -o '/[^ ]*'); do
    mkdir -p "$2$(dirname "$file")" && cp -L "$file" "$2$file"
  done
}

# what the programs of a folder print of a source, by their paths in that system
greets() {
  got=$(within "$room/system" "$1/mmixware" run "$2" 2>&1)
  [ "$got" = 'Hello, reader' ] || wrong "$1/mmixware run $2 prints $got"
  got=$(within "$room/system" "$1/mmixview" list "$2" 2>&1)
  [ "${got#*hello.mms: prints a text.}" != "$got" ] || wrong "$1/mmixview list $2 prints $got"
}

said=$("$here/release" "$room/one" 2>&1) || {
  case $said in
    *'is not built from these sources'*) exit 0 ;;
  esac
  wrong "$said"
  exit 1
}
(umask 077; LC_ALL=C.UTF-8 TZ=Asia/Tokyo "$here/release" "$room/two" >/dev/null 2>&1)
diff -r "$room/one" "$room/two" >&2 || wrong 'two releases differ'
(cd "$room/one" && sha256sum --quiet -c SHA256SUMS) || wrong 'a sum is not that of its file'

mkdir "$room/system" && tar -C "$room/system" -xzf "$room/one"/mmixware-*.tar.gz && cd "$room/system"/mmixware-* || exit 1
for name in mmixware mmixview; do
  [ "$(ldd $name | grep -c '=> /')" = 1 ] || wrong "$name needs more than the C library: $(ldd $name)"
  grep -q "^$name  *$(sha256sum <$name | cut -d ' ' -f 1)" MADE-FROM || wrong "MADE-FROM does not have the sum of $name"
done
for page in sort coroutines; do
  grep -q '"end":"halted"' "examples/pages/$page.html" || wrong "examples/pages/$page.html does not have the run of $page.mms"
done
folder=$(basename "$PWD")
./install "$room/there" 2>/dev/null || wrong 'the release is not installed'
for file in bin/mmixware bin/mmixview bin/grade share/man/man1/mmixware.1 share/man/man1/mmixview.1 share/man/man1/grade.1 \
  share/mmixware/grading/run.sh share/mmixware/grading/rows.awk share/mmixware/debug.words share/doc/mmixware/docs/GRADING.md share/vim/vimfiles/syntax/mmixal.vim \
  share/emacs/site-lisp/mmixal-mode.el share/texmf/tex/latex/mmixal/mmixal.sty \
  share/bash-completion/completions/grade share/bash-completion/completions/mmixview \
  share/bash-completion/completions/mmixware share/zsh/site-functions/_mmixware; do
  [ -s "$room/there/$file" ] || wrong "install puts no $file"
done

mkdir "$room/package"
if [ -e "$room"/one/mmixware_*.deb ]; then
  dpkg-deb -x "$room"/one/mmixware_*.deb "$room/package" || wrong 'the package is not unpacked'
  (cd "$room/package" && dpkg-deb --ctrl-tarfile "$room"/one/mmixware_*.deb | tar -xO ./md5sums | md5sum --quiet -c) ||
    wrong 'a sum of the package is not that of its file'
  cp -R "$room/package/usr" "$room/system"
  if command -v man >/dev/null; then
    MANPATH=$room/package/usr/share/man MANPAGER=cat man mmixware 2>&1 | grep -q 'assemble, run and step' ||
      wrong 'man does not show the page of the package'
  fi
fi

if [ -d "$room/package/usr" ] && command -v python3 >/dev/null; then
  python3 "$here/checks/documents.py" --installed "$room/package/usr" || bad=1
fi

if make_system mmixware "$room/system" && within "$room/system" "/$folder/mmixware" --version >/dev/null 2>&1; then
  greets "/$folder" "/$folder/examples/hello.mms"
  [ ! -d "$room/system/usr" ] || greets /usr/bin /usr/share/doc/mmixware/examples/hello.mms
elif [ "$(id -u)" = 0 ]; then
  wrong 'the program does not run where there is the C library alone'
fi
exit $bad
