#!/bin/sh
# Tests what the grader does with a class: which solutions it finds, what it says of those that cannot be graded, how
# names are shown, limits that are refused, and signals: sh checks/grade/class.sh [GRADE]. The program is a stand-in,
# so nothing has to be built. Prints only what is wrong, and leaves nothing behind.
cd "$(dirname "$0")/../.." || exit 1
check=checks/grade/class.sh
. checks/grade/stand-in.sh

# what grade said on standard error, besides the shield
says() {
  shows=$1 wanted=$2
  printf '%s' "$wanted" >"$room/wanted"
  grep -v '^grade: no shield' "$room/said" | diff "$room/wanted" - >"$room/differences" ||
    wrong "$shows: wanted (<) and said (>):
$(cat "$room/differences")"
}

put task/1/output hello

# ---- which solutions there are, and what is passed over
put class/ada/count.mms 'echo hello'
put class/ben/Count.MMS 'echo hallo'
put class/cleo/count.txt 'echo hello'
put class/dan/notes/page 'no program'
mkdir -p class/eve class/fay class/gus/data
mkfifo class/eve/count.mms
ln -s ../ada/count.mms class/fay/count.mms
put class/gus/count.mms 'echo hello'
put class/gus/.DS_Store 'of the system'
put class/readme 'no program'
gives 'each of a class has a row' 'class/ada/count.mms  1/1
class/ben/Count.MMS  0/1  1: the output differs at byte 2 (line 1)
class/cleo           0/1  not graded: the folder has no program
class/dan            0/1  not graded: the folder has no program
class/eve/count.mms  0/1  not graded: it is not a regular file
class/fay/count.mms  0/1  not graded: it is a link, and may lead to what is not its own
class/gus/count.mms  1/1' 1 task class
says 'what is passed over is named' 'grade: passed over: class/cleo/count.txt
grade: passed over: class/dan/notes/page
grade: passed over: class/dan/notes/
grade: passed over: class/gus/data/
grade: passed over: class/readme
'
gives 'a suffix says which names are programs' 'class/cleo/count.txt  1/1' 0 --suffix .txt task class/cleo
gives 'suffixes are taken together' 'class/ada/count.mms   1/1
class/cleo/count.txt  1/1' 0 --suffix .txt --suffix .mms task class/ada class/cleo
put half/ada/count.mms 'echo hello'
put half/ada/Makefile 'no program'
gives 'what is passed over is not right' 'half/ada/count.mms  1/1' 1 task half
gives 'names that are given are passed over in silence' 'class/gus/count.mms  1/1' 0 --ignore '.DS_* dat?' task class/gus
says 'names that are given are passed over in silence' ''

# ---- what is wrong with one solution is its own
put odd/a.mms 'echo hello'
put "$(printf 'odd/b\nc.mms')" 'echo hello'
put "$(printf 'odd/d\te.mms')" 'echo hallo'
put odd/f.mms 'REFUSED 39'
gives 'a name may have any byte' 'odd/a.mms     1/1
odd/b\nc.mms  1/1
odd/d\te.mms  0/1  1: the output differs at byte 2 (line 1)
odd/f.mms     0/1  refused: line 1: 39 UnknownOpcode
odd/none.mms  0/1  not graded: there is no such file
class/readme  0/1  not graded: its name is not that of a program, see --suffix
odd/a.mms     1/1' 1 task odd odd/none.mms class/readme odd/a.mms
put closed/a.mms 'echo hello'
put closed/b.mms 'echo hello'
put closed/c/d.mms 'echo hello'
chmod 0 closed/b.mms closed/c
# one who may read everything gives that up
if setpriv --bounding-set=-all true 2>/dev/null; then
  as='setpriv --bounding-set=-all --inh-caps=-all'
fi
if ! $as cat closed/b.mms 2>/dev/null; then
  gives 'what cannot be read is a row' 'closed/a.mms  1/1
closed/b.mms  0/1  not graded: it cannot be read
closed/c      0/1  not graded: the folder cannot be read' 1 task closed
fi
as=
chmod 700 closed/c

# ---- names
mkdir names
for name in 'x\377' 'x\376' 'x\\xff' '\303\274' '\302\233' '\355\240\200' '\n"'; do
  put "$(printf "names/$name.mms")" 'echo hello'
done
grade --json task names | sed 's/.*"solution":"names\/\(.*\)","test.*"verdict":"right".*/\1/' >"$room/out"
printf '%s\n' '\\n\".mms' 'x\\\\xff.mms' 'x\\xfe.mms' 'x\\xff.mms' '\\xc2\\x9b.mms' 'ü.mms' '\\xed\\xa0\\x80.mms' >"$room/wanted"
diff "$room/wanted" "$room/out" >&2 || wrong 'names that are no UTF-8 keep apart, and change no others'

# ---- limits are judged before the first test
put bounds/1/output hello
put bounds/limits 'steps 1000000000001'
refused 'steps 1000000000001: the program refuses that: usage fault 5 BadNumber' bounds class/ada
refused 'steps 1000000000001: the program refuses that' --steps 1000000000001 task class/ada
refused 'memory 1: the program does not run' --memory 1 task class/ada
for part in limits 1/arguments 1/status; do
  rm -f bounds/limits
  put "bounds/$part" "$(printf 'steps 1000\r')"
  refused "bounds/$part: a line ends with CR and LF" bounds class/ada
  rm "bounds/$part"
done

# ---- names that systems make
put left/1/output hello
put left/1/written/out written
put left/1/written/.DS_Store 'of the system'
put left/1/Thumbs.db 'of the system'
put left/.git/config 'of a repository'
put writes.mms 'echo written >out; echo hello'
gives 'names of systems are passed over in a task' 'writes.mms  1/1' 0 left writes.mms
put left/1/written/notes 'mine'
gives 'others are not passed over' 'writes.mms  0/1  1: notes is missing' 1 left writes.mms
put left/ignored '.DS_Store Thumbs.db .git notes'
gives 'a task says which names are passed over' 'writes.mms  1/1' 0 left writes.mms

# ---- names that begin with a dash, and -- before them
mkdir -p dashes
for name in -h12g --json; do
  put "dashes/$name/a.mms" 'echo hello'
done
put dashes/-e.mms 'echo hello'
cd dashes || exit 1
gives 'a name with a dash in front is a path' './--json/a.mms  1/1
./-e.mms        1/1
./-h12g/a.mms   1/1' 0 ../task *
gives 'what comes after -- is no option' './--json/a.mms  1/1
./-e.mms        1/1
./-h12g/a.mms   1/1' 0 -- ../task -- *
cd ..

# ---- a link to a folder, where a solution has its folder
put linked/ada/count.mms 'echo hello'
ln -s ada linked/ben
gives 'a link to a folder is a row' 'linked/ada/count.mms  1/1
linked/ben            0/1  not graded: it is a link, and may lead to what is not its own' 1 task linked

# ---- one long name leaves the others as narrow as they are
long=$(printf '%080d' 0)
put "wide/$long.mms" 'echo hello'
put wide/a.mms 'echo hello'
put wide/bcd.mms 'echo hello'
gives 'a name that is much longer than the others' "wide/$long.mms  1/1
wide/a.mms    1/1
wide/bcd.mms  1/1" 0 task wide

# ---- characters that turn the direction of a text, or are none
put "$(printf 'turned/a\342\200\256smm.mms')" 'echo hello'
gives 'a name does not turn the text' 'turned/a\xe2\x80\xaesmm.mms  1/1' 0 task turned
put "$(printf 'turned/a\342\200\256smm.mms')" 'printf "\342\201\246\330\234\342\200\257"'
gives 'nor does what is printed' 'turned/a\xe2\x80\xaesmm.mms  0/1
  1: the output differs at byte 1 (line 1)
    expected  hello\n
    printed   \xe2\x81\xa6\xd8\x9c'"$(printf '\342\200\257')" 1 --show task turned

# ---- where the work is done
mkdir here
TMPDIR=here gives 'the folder for the work may be relative' 'odd/a.mms  1/1' 0 task odd/a.mms
[ -z "$(ls here)" ] || wrong 'a relative folder for the work has something left'

# ---- signals
for name in 1 2 3 4; do
  put sleeping/$name.mms 'echo $$ >"'"$room"'/running/$$"; exec sleep 20'
done
for with in xargs parallel; do
  if [ $with = xargs ] || command -v parallel >/dev/null; then
    ends_by TERM 143 $with 3
    ends_by INT 130 $with 2
    ends_by HUP 129 $with 2
  fi
done
exit $bad
