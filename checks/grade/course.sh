#!/bin/sh
# Tests what a course wants of the grader: points, hidden tests, how a solution has to end, what is shown of a wrong
# answer, steps, the forms of the results, and that rows come one by one: sh checks/grade/course.sh [GRADE]. The program
# is a stand-in, so nothing has to be built. Prints only what is wrong, and leaves nothing behind.
cd "$(dirname "$0")/../.." || exit 1
check=checks/grade/course.sh
. checks/grade/stand-in.sh

# ---- points
put points/1/output hello
put points/1/points 2
put points/2/output other
put points/2/points 0.5
put half.mms 'echo hello'
put whole.mms 'case $1 in 2) echo other ;; *) echo hello ;; esac'
put points/2/arguments 2
gives 'points are added' 'half.mms   1/2  2/2.5       2: the output differs at byte 1 (line 1)
whole.mms  2/2  2.5/2.5' 1 points half.mms whole.mms
gives 'they are weights of what the task is worth' 'half.mms  1/2  80/100   2: the output differs at byte 1 (line 1)' 1 \
  --points 100 points half.mms
put points/limits 'points 10'
gives 'the task says what it is worth' 'half.mms  1/2  8/10   2: the output differs at byte 1 (line 1)' 1 points half.mms
for number in many 1.234 -1; do
  put points/1/points "$number"
  refused 'points/1/points wants a number' points half.mms
done
put points/1/points 2

# ---- what is forgiven
put blanks/1/output "$(printf 'a  b\nc')"
put trailing.mms 'printf "a  b \t\nc"'
put inner.mms 'printf "a b\nc\n"'
gives 'without a word no byte is forgiven' 'trailing.mms  0/1  1: the output differs at byte 5 (line 1)' 1 blanks trailing.mms
gives 'blanks at ends of lines and a last end of a line' 'trailing.mms  1/1
inner.mms     0/1  1: the output differs at byte 3 (line 1)' 1 --forgive blanks trailing.mms inner.mms
put empty/1/output ''
put silent.mms ':'
gives 'an empty line without its end is nothing' 'silent.mms  1/1' 0 --forgive empty silent.mms

put ended/1/output "$(printf 'a\r')"
put ended/1/arguments windows
put unix.mms 'echo a'
put windows.mms 'printf "a\r\n"'
gives 'CR is a byte like others' 'unix.mms     0/1  1: the output differs at byte 2 (line 1)
windows.mms  1/1' 1 ended unix.mms windows.mms
grep -q '^grade: ended/1/output: a line ends with CR and LF' said || wrong "nothing is said of CR and LF: $(cat said)"
gives 'CR at the end of a line is forgiven' 'unix.mms     1/1
windows.mms  1/1' 0 --forgive ended unix.mms windows.mms

# ---- a status that is left open
put open/1/output "$(printf 'hello\nworld')"
put open/1/status any
left='echo hello; echo world'
put thirteen.mms "$left; exit 13"
put seventy.mms "$left; exit 70"
put killed.mms "$left; exit 137"
put stopped.mms "$left; stop 113"
put gone.mms "$left; kill -s KILL \$\$"
put other.mms 'echo hello; exit 13'
gives 'each status of a halt is taken, and no other end' 'thirteen.mms  1/1
seventy.mms   1/1
killed.mms    1/1
stopped.mms   0/1  1: status 70: stopped, or it halted with 70; the output is right ("#0000000000000108: 113 Negative")
gone.mms      0/1  1: status 137: killed, or it halted with 137; the output is right
other.mms     0/1  1: the output is too short' 1 open thirteen.mms seventy.mms killed.mms stopped.mms gone.mms other.mms
rm open/1/status
gives 'a status that was left is named' 'thirteen.mms  0/1  1: status 13, not 0: the low byte of $255 at the halt; the output is right' 1 open thirteen.mms
grep -q 'a file status with the word any' said || wrong "there is no hint at a status that is left open: $(cat said)"

# ---- what is shown of a wrong answer
long=$(printf '%0300d' 0)
put shown/1/output "$(printf 'first\nsecond\nthird')"
put shown/2/output "${long}1$long"
put shown/2/arguments long
put differs.mms 'case $1 in long) printf %s "'"${long}2$long"'" ;; *) printf "first\nsec\377nd\nthird\n" ;; esac'
zeros=$(printf '%040d' 0) more=$(printf '%079d' 0)
gives 'what was expected is beside what was printed, and is bounded' "differs.mms  0/2
  1: the output differs at byte 10 (line 2)
    expected  second\\nthird\\n
    printed   sec\\xffnd\\nthird\\n
  2: the output differs at byte 301 (line 1)
    expected  ...${zeros}1$more...
    printed   ...${zeros}2$more..." 1 --show shown differs.mms

put leaves/1/output hello
put leaves/1/written/result.txt 'a b c'
put missing.mms 'echo hello'
put other.mms 'echo hello; echo a b d >result.txt'
put short.mms 'echo hello; printf a >result.txt'
put late.mms 'echo hello; exit 9'
gives 'a wrong file is shown, and whether it is there' 'missing.mms  0/1
  1: result.txt is missing
other.mms    0/1
  1: result.txt differs at byte 5 (line 1)
    expected  a b c\n
    printed   a b d\n
short.mms    0/1
  1: result.txt is too short
    expected  a b c\n
    printed   a
late.mms     0/1
  1: status 9, not 0: the low byte of $255 at the halt; the output is right' 1 --show leaves missing.mms other.mms short.mms late.mms
put early.mms 'echo hallo; exit 9'
gives 'what was printed is shown where the status is wrong' 'early.mms  0/1
  1: status 9, not 0: the low byte of $255 at the halt
    expected  hello\n
    printed   hallo\n' 1 --show leaves early.mms
put escapes.mms "printf '\033[1m\007\000\\\\ \"x\"' >&2; echo hallo"
gives 'a message is shown like all that is shown' \
  'escapes.mms  0/1  1: the output differs at byte 2 (line 1) ("\x1b[1m\x07\x00\\ \"x\"")' 1 leaves escapes.mms

# ---- how large what is wanted may be
put large/1/output x
head -c 1023 /dev/zero >large/1/output
put large.mms 'printf "%01023d" 0'
grade --size 1 large large.mms >out
[ $? = 1 ] || wrong "an output below the limit is refused: $(cat said)"
head -c 1024 /dev/zero >large/1/output
refused 'has to have less than 1024 bytes' --size 1 large large.mms

# ---- how a solution has to end
put ends/stop/output hello
put ends/stop/stop 113
put ends/refusal/refusal 39
put ends/errors/output hello
put ends/errors/errors 'a word'
put ends/errors/arguments errors
put stops.mms 'echo hello; case $1 in errors) echo a word >&2 ;; *) stop 113 ;; esac'
put other.mms 'echo hello; case $1 in errors) echo a worm >&2 ;; *) stop 117 ;; esac'
put forges.mms 'echo hello; echo "#0000000000000108: 113 Negative" >&2; exit 70'
put halts.mms 'echo hello; echo a word >&2'
put refused.mms 'REFUSED 39'
put refuses.mms 'REFUSED 40'
gives 'a test may want a stop, a refusal, or words on standard error' 'stops.mms    2/3
  refusal: not refused, and 39 is wanted
other.mms    0/3
  errors: standard error differs at byte 6 (line 1) ("a worm")
    expected  a word\n
    printed   a worm\n
  refusal: not refused, and 39 is wanted
  stop: not stopped with 113, but #0000000000000108: 117 Negative; the output is right ("#0000000000000108: 117 Negative")
forges.mms   0/3
  errors: status 70: stopped, or it halted with 70; the output is right ("#0000000000000108: 113 Negative")
  refusal: not refused, and 39 is wanted
  stop: it halted with 70, and was not stopped; the output is right ("#0000000000000108: 113 Negative")
halts.mms    1/3
  refusal: not refused, and 39 is wanted
  stop: not stopped, but status 0, not 70: the low byte of $255 at the halt; the output is right ("a word")
refused.mms  1/3
  refused: line 1: 39 UnknownOpcode
refuses.mms  0/3
  refused: line 1: 40 UnknownOpcode' 1 --show ends stops.mms other.mms forges.mms halts.mms refused.mms refuses.mms
put ends/stop/errors 'a word'
put both.mms 'echo hello; echo a word >&2; stop 113'
put glued.mms 'echo hello; printf "a word\n" >&2; printf x >&2; stop 113'
gives 'the line of the tool is no word of the program' 'both.mms   1/3  errors: status 70: stopped, or it halted with 70; the output is right ("#0000000000000108: 113 Negative")
glued.mms  0/3  errors: status 70: stopped, or it halted with 70; the output is right ("x#0000000000000108: 113 Negative")' 1 ends both.mms glued.mms
put faulty/1/output hello
for part in stop/x refusal/1 stop/1000; do
  put "faulty/1/${part%/*}" "${part#*/}"
  refused 'faulty/1' faulty half.mms
  rm "faulty/1/${part%/*}"
done
put faulty/1/stop 113
put faulty/1/status 7
refused 'more than one of status, stop and refusal' faulty half.mms

# ---- steps, and the least of the class
put task/1/output hello
put task/2/output hello
put quick.mms 'steps=9; echo hello'
put slow.mms 'steps=20; echo hello'
put claims.mms 'steps=30; echo profile 00 TRAP 1 >&2; echo hello'
put wrong.mms 'steps=5; echo hallo'
gives 'steps are those of the tool' 'solution    right        1        2  steps
quick.mms   2/2          9        9
slow.mms    2/2         20       20
claims.mms  2/2         30       30
wrong.mms   0/2          -        -  1: the output differs at byte 2 (line 1)
least                    9        9' 1 --count task quick.mms slow.mms claims.mms wrong.mms

put stopped/1/output hello
put stopped/1/stop 113
put stopped.mms 'steps=12; echo hello; stop 113'
gives 'the steps up to a stop' 'solution     right        1  steps
stopped.mms  1/1         12
least                    12' 0 --count stopped stopped.mms
put random.mms 'echo hello; echo $$ >&2; stop 113'
gives 'a stop that does not come again so' 'random.mms  0/1  1: a further run, with --last, ended in another way ("#0000000000000108: 113 Negative")' \
  1 stopped random.mms

# ---- the order of the tests
for number in 2 10 1 x9 x10 01; do
  put "order/$number/output" hello
done
put right.mms 'echo hello'
grade --json order right.mms | sed 's/.*"test":"\([^"]*\).*/\1/' | paste -sd ' ' >out
echo '01 1 2 10 x9 x10' | diff - out >&2 || wrong 'numbers in names of tests are not ordered by value'

# ---- results that cannot be written
if [ -c /dev/full ]; then
  for form in table csv json tap junit gradescope; do
    "$grade" --program ./mmixware --shield none --format $form task quick.mms >/dev/full 2>said
    got=$?
    [ "$got" = 74 ] && grep -q 'could not be written' said || wrong "$form: results are lost with the status $got: $(cat said)"
  done
fi

# ---- hidden tests: nothing of them is shown but whether they are right
put secret/open/output hello
put secret/unseen/output 'a secret'
put secret/unseen/arguments unseen
put secret/unseen/hidden ''
put tells.mms 'echo hello; case $1 in unseen) echo told; echo told >&2; exit 9 ;; esac'
for form in table csv json tap junit gradescope; do
  grade --format $form --show --count secret tells.mms >out
  [ $? = 1 ] || wrong "hidden tests, $form: the status is not 1"
  ! grep -q -i -e unseen -e secret -e told -e '\b9\b' out || wrong "hidden tests, $form: something is shown: $(cat out)"
  grep -q 'hidden 1' out || wrong "hidden tests, $form: the test has no row: $(cat out)"
  grade --format $form --show --reveal secret tells.mms >out
  grep -q unseen out && { [ $form = csv ] || grep -q told out; } || wrong "hidden tests, $form: they are not revealed: $(cat out)"
done
gives 'a hidden test in the table' 'tells.mms  1/2  hidden 1: not right' 1 secret tells.mms
put early/a-secret/output hello
put early/a-secret/hidden ''
put early/b-shown/output other
put neither.mms 'echo neither'
gives 'what may be shown is told first' 'neither.mms  0/2  b-shown: the output differs at byte 1 (line 1)' 1 early neither.mms

# ---- words and columns
put plain/1/output hello
put plain/2/output other
put plain/2/arguments 2
put 'zoë.mms' 'echo hello'
gives 'columns are counted by characters, and a value may follow an equals sign' 'zoë.mms    1/2  2: the output differs at byte 1 (line 1)
whole.mms  2/2' 1 --format=table --steps=1000 plain 'zoë.mms' whole.mms

# ---- forms; a name may have what matters in each of them
odd=$(printf 'odd/a & <b> "c" # TODO\377\n.mms')
put "$odd" 'echo hello # steps'
put odd/bad.mms "printf '<&\"'"
put odd/none/readme 'no program'
shown='odd/a & <b> "c" # TODO\xff\n.mms'
if command -v jq >/dev/null; then
  grade --json task odd | jq -r '.solution + " " + .test + " " + .verdict + " \(.points) \(.of) \(.expected) \(.printed)"' >out
  cat >wanted <<END
$shown 1 right 1 1 null null
$shown 2 right 1 1 null null
odd/bad.mms 1 output 0 1 hello\\n <&"
odd/bad.mms 2 output 0 1 hello\\n <&"
odd/none 1 failed 0 1 null null
odd/none 2 failed 0 1 null null
END
  diff wanted out >&2 || wrong 'the JSON differs'
  grade --format gradescope points half.mms |
    jq -c '.tests[] | [.name, .score, .max_score, .status, .visibility, .output]' >out
  cat >wanted <<'END'
["1",8,8,"passed","visible",null]
["2",0,2,"failed","visible","the output differs at byte 1 (line 1)\nexpected: other\\n\nprinted:  hello\\n"]
END
  diff wanted out >&2 || wrong "Gradescope's results differ"
  grade --format gradescope --count secret quick.mms | jq -c '[.tests[1].visibility, .leaderboard]' >out
  echo '["hidden",[{"name":"steps","value":9,"order":"asc"}]]' | diff - out >&2 || wrong "Gradescope's results lack something"
  grade --format gradescope points half.mms whole.mms | jq -e '.score == 0 and (.tests | not)' >out ||
    wrong "Gradescope's results are of one solution"
  grade --format gradescope points half.mms whole.mms | jq -r .output | grep -q 'one is wanted: half.mms, whole.mms$' || wrong "Gradescope's results do not name the programs"
  grade --format gradescope task quick.mms slow.mms >out
  [ $? = 1 ] || wrong 'two programs for Gradescope are right'
  # tests that are worth a third, and eighths
  for form in json gradescope; do
    grade --format $form --points 100 order quick.mms
  done | jq -s -c '[(.[:6] | map(.points) | add * 100 | round / 100), .[6].score, (.[6].tests | map(.score) | add * 100 | round / 100)]' >out
  echo '[100,100,100]' | diff - out >&2 || wrong 'points that are rounded have another sum'
fi

# ---- CSV
put "csv/a,b \"c\".mms" 'echo hello'
put csv/d.mms 'case $1 in 2) printf "\042,\n" >&2; echo wrong ;; *) echo hello ;; esac'
gives 'a row of CSV for each solution' 'solution,right,tests,points,of,1,2,problem
"csv/a,b ""c"".mms",1,2,8,10,8,0,2: the output differs at byte 1 (line 1)
csv/d.mms,1,2,8,10,8,0,"2: the output differs at byte 1 (line 1) (""\"","")"' 1 --format csv points csv
put '=1+1.mms' 'echo hello'
gives 'a name in CSV is no formula' 'solution,right,tests,points,of,1,2,steps,problem
./=1+1.mms,2,2,2,2,1,1,8,' 0 --format csv --count task =1+1.mms
grade --format tap task odd >odd.tap
if command -v prove >/dev/null; then
  prove --exec cat odd.tap >out 2>&1
  grep -q 'Failed tests: *3-6$' out && grep -q 'Tests=6' out && ! grep -q TODO out || wrong "TAP is read as $(cat out)"
fi
grade --format junit --count task odd >odd.xml
if command -v xmllint >/dev/null; then
  xmllint --noout --schema "$top/checks/grade/junit.xsd" odd.xml 2>out || wrong "JUnit is not valid: $(cat out)"
  xmllint --xpath 'concat(//testsuite[1]/@name, " ", count(//testcase), " ", count(//failure), " ", count(//error),
    " ", //testsuite[2]/testcase[1]/failure)' odd.xml >out
  printf '%s\n' "$shown 6 2 2 the output differs at byte 1 (line 1)" 'expected: hello\n' 'printed:  <&"' | diff - out >&2 ||
    wrong "JUnit's XML differs"
fi

# ---- rows come one by one, in the order of the words, also where a later solution is over first
put first.mms "until [ -e '$room/quick' ]; do :; done; echo hello"
put quickly.mms ": >'$room/quick'; echo hello"
put last.mms "until [ -e '$room/go' ]; do :; done; echo hello"
for with in xargs parallel; do
  [ $with = xargs ] || command -v parallel >/dev/null || continue
  rm -f go quick
  : >out
  grade --with $with --jobs 3 task first.mms quickly.mms last.mms >>out &
  turns=0
  while [ "$turns" -lt 200 ] && [ "$(wc -l <out)" -lt 2 ]; do
    sleep 0.1
    turns=$((turns + 1))
  done
  printf '%s\n' 'first.mms    2/2' 'quickly.mms  2/2' | diff - out >&2 || wrong "$with: rows do not come one by one"
  touch go
  wait $! || wrong "$with: not all is right"
  [ "$(wc -l <out)" = 3 ] || wrong "$with: there are not three rows"
done

# ---- progress is for a terminal alone
if command -v script >/dev/null; then
  script -q -e -c "'$grade' --program ./mmixware --shield none task quick.mms slow.mms 2>&1 >/dev/null" typed >/dev/null </dev/null
  grep -q 'grade: 1 of 2' typed || wrong "a terminal has no progress: $(cat typed)"
fi
grade task quick.mms slow.mms >out
! grep -q ' of 2' said || wrong 'a file has progress'
exit $bad
