# Shows the rows of runs in a form: awk -v form=FORM -v rows=ROWS .. -f rows.awk. In the room are the names of the
# solutions and the tests, each with its points; run.sh says what a row has.
#   form      table, csv, json, tap, junit or gradescope
#   points    what all tests together are worth, if not the sum of theirs
#   detailed  expected beside printed, in the table
#   counting  the steps that were used
#   revealed  hidden tests are shown as others are
#   progress  how many solutions are over, on standard error

BEGIN {
  FS = "\t"
  while ((getline line <"names") > 0) name[++names] = line
  while ((getline line <"tests") > 0) add_test(line)
  while ((getline line <"settings") > 0) if (line ~ /^steps=/) most_steps = substr(line, 7)
  if (points != "" && sum) for (i = 1; i <= tests; i++) worth[i] = worth[i] * points / sum
  has_points = has_points || points != ""
  wide = width_of_names()
  if (form == "tap") printf "TAP version 13\n1..%d\n", names * tests
  else if (form == "csv") show_csv_head()
  else if (form == "table" && counting) show_head()
  else if (form == "junit") print "<?xml version=\"1.0\" encoding=\"UTF-8\"?>\n<testsuites>"
  show_progress()
}

function add_test(line,    part) {
  split(line, part, "\t")
  tests++
  worth[tests] = part[2]
  sum += part[2]
  if (part[2] != 1) has_points = 1
  label[tests] = part[3] != "" && !revealed ? "hidden " ++hidden : part[1]
  is_hidden[tests] = part[3] != ""
}

{ take_row() }

END {
  clear_progress()
  if (form == "junit") print "</testsuites>"
  else if (counting) show_least()
}

# keeps a row, and shows the solution once it has all of its rows
function take_row() {
  at++
  verdict[at] = $3; status[at] = $4; detail[at] = $5; message[at] = $6; expected[at] = $7; printed[at] = $8; steps[at] = $9
  earned[at] = $3 == "right" ? worth[at] : 0
  if ($9 != "" && (!(at in least) || $9 < least[at])) {
    least[at] = $9
    by[at] = name[$1]
  }
  if (form == "json") show_json_row()
  if (at < tests) return
  clear_progress()
  if (form == "table") show_in_table()
  else if (form == "csv") show_in_csv()
  else if (form == "tap") show_tap()
  else if (form == "junit") show_suite()
  else if (form == "gradescope") show_results()
  at = 0
  over++
  show_progress()
  fflush()
}

function show_progress() {
  if (progress && over < names) {
    printf "\rgrade: %d of %d", over, names >"/dev/stderr"
    fflush("/dev/stderr")
  }
}

function clear_progress() {
  if (progress) {
    printf "\r\033[K" >"/dev/stderr"
    fflush("/dev/stderr")
  }
}

# ---- what a solution comes to

function total(what,    i, n) {
  for (i = 1; i <= tests; i++) n += what[i]
  return n + 0
}

function how_many(which,    i, n) {
  for (i = 1; i <= tests; i++) n += verdict[i] == which
  return n + 0
}

# a number with so many digits that a sum of such numbers, to two digits after the point, is right
function exact(n) {
  return sprintf("%.13g", n)
}

# a number with two digits after the point at most
function number(n,    text) {
  text = sprintf("%.2f", n)
  sub(/[.]?0+$/, "", text)
  return text
}

# what is so of the whole solution
function is_whole(i) {
  return verdict[i] == "refused" && detail[i] ~ /^refused: / || detail[i] ~ /^not graded: /
}

# the steps of all tests, or nothing where one has none
function all_steps(    i) {
  for (i = 1; i <= tests; i++) if (steps[i] == "" && !is_hidden[i]) return ""
  return total(steps)
}

# ---- the table

# what is said of a test that is not right
function complaint(i,    text) {
  text = message[i]
  gsub(/"/, "\\\"", text)
  return (is_whole(i) ? "" : label[i] ": ") detail[i] (text == "" ? "" : " (\"" text "\")")
}

# the first test that is not right, where one that may be shown goes before a hidden one; or 0
function first_wrong(    i, first) {
  for (i = 1; i <= tests; i++)
    if (verdict[i] != "right" && (!first || is_hidden[first] && !is_hidden[i] && !revealed)) first = i
  return first + 0
}

# the columns that a text in UTF-8 takes: its bytes, but for those that go on with a character
function columns(text) {
  gsub(/[\200-\277]/, "", text)
  return length(text)
}

# the width of the widest name, but that of no name which is much longer than the shortest one
function width_of_names(    i, n, least, most) {
  for (i = 1; i <= names; i++) {
    n = columns(name[i])
    if (i == 1 || n < least) least = n
  }
  for (i = 1; i <= names; i++) {
    n = columns(name[i])
    if (n <= least + 40 && n > most) most = n
  }
  return counting && form == "table" && most < 8 ? 8 : most
}

# a text with blanks after it, up to a width; with a width below 0 they are in front of it
function padded(text, width,    n) {
  n = (width < 0 ? -width : width) - columns(text)
  if (n <= 0) return text
  return width < 0 ? sprintf("%" n "s%s", "", text) : sprintf("%s%" n "s", text, "")
}

# the head of the columns, with the name of each test where its steps are
function show_head(    i, listed) {
  for (i = 1; i <= tests; i++) listed = listed "  " padded(label[i], -width_of_steps(i))
  printf "%s  %s%s%s  steps\n", padded("solution", wide), padded("right", width_of_right()),
    has_points ? "  " padded("points", width_of_points()) : "", listed
}

function width_of_right() {
  return counting && length(tests) < 3 ? 5 : 2 * length(tests) + 1
}

# the points of some tests may have two digits after a point
function width_of_points(    i, n) {
  n = 2 * length(number(total(worth))) + 1
  for (i = 1; i <= tests; i++)
    if (worth[i] != int(worth[i])) {
      n += 3
      break
    }
  return counting && n < 6 ? 6 : n
}

# no run has more steps than the limit
function width_of_steps(i) {
  return length(label[i]) > length(most_steps) ? length(label[i]) : length(most_steps)
}

# the steps of all tests, each in its column
function columns_of_steps(of,    i, listed) {
  for (i = 1; i <= tests; i++) listed = listed "  " padded((i in of) && of[i] != "" ? of[i] : "-", -width_of_steps(i))
  return listed
}

function show_in_table(    first, row) {
  first = first_wrong()
  row = padded(name[$1], wide) "  " padded(how_many("right") "/" tests, width_of_right())
  if (has_points) row = row "  " padded(number(total(earned)) "/" number(total(worth)), width_of_points())
  if (counting) row = row columns_of_steps(steps)
  if (first && !detailed) row = row "  " complaint(first)
  sub(/ +$/, "", row)
  print row
  if (detailed && first) show_details()
}

function show_details(    i) {
  for (i = 1; i <= tests; i++) {
    if (verdict[i] == "right") continue
    print "  " complaint(i)
    if (is_whole(i)) return
    if (expected[i] != "" || printed[i] != "") printf "    expected  %s\n    printed   %s\n", expected[i], printed[i]
  }
}

function show_least(    i, listed) {
  for (i = 1; i <= tests; i++)
    if (form == "json")
      printf "{\"test\":%s,\"least\":%s,\"solution\":%s}\n", quoted(label[i]), or_null(least[i]), i in by ? quoted(by[i]) : "null"
    else listed = listed " " (i in least ? least[i] : "-")
  if (form == "tap") print "# least steps:" listed
  else if (form == "table")
    print padded("least", wide) "  " padded("", width_of_right()) (has_points ? "  " padded("", width_of_points()) : "") \
      columns_of_steps(least)
}

# ---- CSV, a row for each solution

# A field. In a spreadsheet what begins with one of some characters is no text; in front of a name a path stays the same.
function field(text, front) {
  if (text ~ /^[=+@-]/) text = front text
  if (text ~ /[",]/) {
    gsub(/"/, "\"\"", text)
    text = "\"" text "\""
  }
  return text
}

function show_csv_head(    i, listed) {
  for (i = 1; i <= tests; i++) listed = listed "," field(label[i], "'")
  print "solution,right,tests,points,of" listed (counting ? ",steps" : "") ",problem"
}

# the points of each test are between those of all tests and the first problem
function show_in_csv(    i, first, listed) {
  first = first_wrong()
  for (i = 1; i <= tests; i++) listed = listed "," exact(earned[i])
  print field(name[$1], "./") "," how_many("right") "," tests "," exact(total(earned)) "," exact(total(worth)) listed \
    (counting ? "," all_steps() : "") "," (first ? field(complaint(first), "'") : "")
}

# ---- JSON

function quoted(text) {
  gsub(/[\\"]/, "\\\\&", text)
  return "\"" text "\""
}

function or_null(text) {
  return text == "" ? "null" : text
}

function show_json_row(    differs) {
  differs = expected[at] != "" || printed[at] != ""
  printf "{\"solution\":%s,\"test\":%s,\"verdict\":\"%s\",\"status\":%s,\"detail\":%s,\"message\":%s,\"points\":%s,\"of\":%s," \
    "\"expected\":%s,\"printed\":%s,\"steps\":%s}\n", quoted(name[$1]), quoted(label[at]), verdict[at], or_null(status[at]),
    quoted(detail[at]), quoted(message[at]), exact(earned[at]), exact(worth[at]), differs ? quoted(expected[at]) : "null",
    differs ? quoted(printed[at]) : "null", or_null(steps[at])
}

# ---- TAP, version 13

# a hash sign begins what could make a test one that counts for nothing
function plain(text) {
  gsub(/#/, "\\x23", text)
  return text
}

function yaml(key, text) {
  if (text == "") return
  gsub(/'/, "''", text)
  printf "  %s: '%s'\n", key, text
}

function show_tap(    i) {
  for (i = 1; i <= tests; i++) {
    printf "%s %d - %s\n", (verdict[i] == "right" ? "ok" : "not ok"), ++number_of, plain(name[$1] ": " label[i])
    print "  ---"
    yaml("verdict", verdict[i])
    yaml("detail", detail[i])
    yaml("message", message[i])
    yaml("expected", expected[i])
    yaml("printed", printed[i])
    yaml("points", exact(earned[i]) " of " exact(worth[i]))
    yaml("steps", steps[i])
    print "  ..."
  }
}

# ---- JUnit

function xml(text) {
  gsub(/&/, "\\&amp;", text)
  gsub(/</, "\\&lt;", text)
  gsub(/>/, "\\&gt;", text)
  gsub(/"/, "\\&quot;", text)
  return text
}

function property(key, value) {
  if (value != "") printf "<property name=\"%s\" value=\"%s\"/>", key, value
}

function show_suite(    i) {
  printf "<testsuite name=\"%s\" tests=\"%d\" failures=\"%d\" errors=\"%d\" skipped=\"0\">\n", xml(name[$1]), tests,
    tests - how_many("right") - how_many("failed"), how_many("failed")
  printf "<properties>"
  property("points", exact(total(earned)))
  property("of", exact(total(worth)))
  if (counting) property("steps", all_steps())
  print "</properties>"
  for (i = 1; i <= tests; i++) show_case(i)
  print "</testsuite>"
}

function show_case(i,    kind) {
  printf "<testcase classname=\"%s\" name=\"%s\"", xml(name[$1]), xml(label[i])
  if (verdict[i] == "right") {
    print "/>"
    return
  }
  kind = verdict[i] == "failed" ? "error" : "failure"
  printf "><%s type=\"%s\" message=\"%s\">%s</%s></testcase>\n", kind, verdict[i], xml(detail[i]), xml(explained(i)), kind
}

# what is said of a test in lines
function explained(i,    text) {
  text = detail[i]
  if (expected[i] != "" || printed[i] != "") text = text "\nexpected: " expected[i] "\nprinted:  " printed[i]
  if (message[i] != "") text = text "\nstandard error ends with: " message[i]
  return text
}

# ---- results.json of Gradescope

# the score of all overrides the sum of those of the tests, which are rounded one by one
function show_results(    i) {
  if (names > 1) {
    if (over == 0) printf "{\"score\":0,\"output\":%s}\n", quoted(names " programs are there, and one is wanted: " all_names())
    return
  }
  printf "{\"score\":%s,%s\"tests\":[", exact(total(earned)), is_whole(1) ? "\"output\":" quoted(detail[1]) "," : ""
  for (i = 1; i <= tests; i++) show_result(i)
  printf "]"
  if (counting && all_steps() != "") printf ",\"leaderboard\":[{\"name\":\"steps\",\"value\":%s,\"order\":\"asc\"}]", all_steps()
  print "}"
}

# the names of the first solutions
function all_names(    i, listed) {
  for (i = 1; i <= names && i <= 20; i++) listed = listed (i == 1 ? "" : ", ") name[i]
  return listed (names > 20 ? ", ..." : "")
}

function show_result(i,    text) {
  text = verdict[i] == "right" ? "" : quoted(explained(i))
  gsub(/\n/, "\\n", text)
  printf "%s{\"name\":%s,\"score\":%s,\"max_score\":%s,\"status\":\"%s\"%s,\"visibility\":\"%s\"}", (i == 1 ? "" : ","),
    quoted(label[i]), exact(earned[i]), exact(worth[i]), (verdict[i] == "right" ? "passed" : "failed"),
    (text == "" ? "" : ",\"output\":" text), (is_hidden[i] ? "hidden" : "visible")
}
