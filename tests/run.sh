#!/bin/sh
# Runs a built program, whose path is the first word, over all cases beside this file: see README.md. The second word, which
# may be left out, is the path of the program that searches again what a report says, and it runs over the wanted reports.
# Prints a line for each case that fails, then 'N passed, M failed', and ends with status 0 only if M is 0.
set -u
LC_ALL=C
export LC_ALL

if [ $# -lt 1 ] || [ $# -gt 2 ] || [ ! -x "$1" ] || [ ! -x "${2-$1}" ]; then
    echo "usage: sh tests/run.sh PROGRAM [CHECKER]" >&2
    exit 2
fi
program=$(CDPATH='' cd -- "$(dirname -- "$1")" && pwd)/$(basename -- "$1")
checker=
[ $# -lt 2 ] || checker=$(CDPATH='' cd -- "$(dirname -- "$2")" && pwd)/$(basename -- "$2")
cd -- "$(dirname -- "$0")" || exit 2
dir=$(mktemp -d) || exit 2
trap 'rm -rf "$dir"' EXIT
trap 'exit 2' HUP INT TERM
: >"$dir/nothing"
passed=0
failed=0

# Whether the last run ended with one of the statuses $2, wrote the file $3 on its output ('-': anything), and the line
# $4 on the error stream (empty: nothing). $1 names the case.
judge() {
    printf '%s\n' "$1" >>"$dir/judged"
    why=
    case " $2 " in
        *" $status "*) ;;
        *) why="status $status, wanted $2" ;;
    esac
    [ "$3" = - ] || cmp -s "$3" "$dir/output" || why="$why; another output"
    if [ -n "$4" ]; then printf '%s\n' "$4"; fi >"$dir/line"
    cmp -s "$dir/line" "$dir/error" || why="$why; on the error stream: $(head -n 1 "$dir/error")"
    if [ -z "$why" ]; then
        passed=$((passed + 1))
    else
        failed=$((failed + 1))
        echo "failed: $1: ${why#; }"
    fi
}

# Runs the program on the file $1 with the other words.
run() {
    input=$1
    shift
    status=0
    "$program" "$@" <"$input" >"$dir/output" 2>"$dir/error" || status=$?
}

# $2 as often as $1 says.
copies() {
    awk -v n="$1" -v text="$2" 'BEGIN { while (n-- > 0) printf "%s", text }' </dev/null
}

# The line of the file, or $2 if there is no such file.
line_of() {
    if [ -f "$1" ]; then cat "$1"; else printf '%s' "$2"; fi
}

# Runs the program on the file $1 with the words of the file $2, one a line, or, if it is not there, with those after it.
run_words() {
    input=$1
    words=$2
    shift 2
    if [ -f "$words" ]; then
        set --
        while IFS= read -r word; do set -- "$@" "$word"; done <"$words"
    fi
    run "$input" "$@"
}

for case in reports/*/; do
    run_words "${case}input.scm" "${case}words" analyse --limit 0
    judge "${case%/}" "$(line_of "${case}status" 0)" "${case}output.scm" "$(line_of "${case}error" '')"
done

for wanted in examples/*.scm; do
    case=${wanted%.scm}
    run_words "../$wanted" "$case.words" analyse
    judge "$wanted" "$(line_of "$case.status" 0)" "$wanted" ''
done

for input in ../examples/*.scm; do
    [ -f "${input#../}" ] || {
        failed=$((failed + 1))
        echo "failed: ${input#../}: no report of it"
    }
done

# The table of the examples has one row for each of them, and no other that names such a file; labels and shapes in it are
# those of the report, of each problem in order.
awk -F ' *[|] *' '/^[|] `[^`]*[.]scm`/ { split($2, cell, "`"); print cell[2] "|" $5 "|" $6 }' ../examples/README.md >"$dir/rows"
{
    cut -d '|' -f 1 "$dir/rows"
    for input in ../examples/*.scm; do basename "$input"; done
} | sort -u >"$dir/names"
while IFS= read -r name; do
    status=0
    awk -F '|' -v name="$name" '$1 == name' "$dir/rows" >"$dir/output" 2>"$dir/error" || status=$?
    awk -v name="$name" '/^[(]status / { gsub(/[^0-9]+/, " "); labels = labels comma $1; shapes = shapes comma $3; comma = ", " }
        END { print name "|" labels "|" shapes }' "examples/$name" >"$dir/row" 2>>"$dir/error"
    judge "the row of examples/$name" 0 "$dir/row" ''
done <"$dir/names"

tab=$(printf '\t')
while IFS="$tab" read -r name line column code; do
    run "refusals/$name.scm" analyse --limit 0
    judge "refusals/$name" 3 "$dir/nothing" "refused $line:$column $code"
done <refusals.tsv

for input in refusals/*.scm; do
    name=$(basename "$input" .scm)
    grep -q "^$name$tab" refusals.tsv || {
        failed=$((failed + 1))
        echo "failed: $input: no line of refusals.tsv"
    }
done

for input in accepted/*.scm; do
    run "$input" analyse --limit 0
    judge "$input" '0 1' - ''
done

# A problem of $1 listeners on a text that nobody says: its one label is expanded and dead, where the limits allow it.
listeners() {
    {
        echo '(defprotocol p basic (defrole r (vars (a name)) (trace (send a))))'
        printf '(defskeleton p (vars (n text))'
        copies "$1" ' (deflistener n)'
        echo ' (pen-non-orig n))'
    } >"$dir/input"
}

# A problem of eight strands that any partition may identify: of its 4,140 labels those of at most $1 strands, as many as
# $allowed says, are expanded and dead, where the step limit allows it.
strands() {
    {
        echo '(defprotocol p basic (defrole r (vars (x text) (k skey)) (trace (recv (enc x k)))))'
        printf '(defskeleton p (vars (k skey))'
        copies 8 ' (defstrand r 1 (k k))'
        echo ' (non-orig k))'
    } >"$dir/input"
    case $1 in
        1) allowed=1 ;;
        2) allowed=128 ;;
        3) allowed=1094 ;;
        4) allowed=2795 ;;
        5) allowed=3845 ;;
        6) allowed=4111 ;;
        7) allowed=4139 ;;
        *) allowed=4140 ;;
    esac
}

# The last line of the last run is the status form of $3 labels, of which the limits of $1 steps and of strands allow to
# expand $2. $4 names the case.
counts() {
    expanded=$2
    outcome=complete
    code=0
    [ "$2" -eq "$3" ] || outcome='limit strands'
    [ "$2" -le "$1" ] || { outcome='limit steps' expanded=$1; }
    [ "$outcome" = complete ] || code=1
    tail -n 1 "$dir/output" >"$dir/last" && mv "$dir/last" "$dir/output"
    echo "(status $outcome labels $3 expanded $expanded shapes 0)" >"$dir/status"
    judge "$4" "$code" "$dir/status" ''
}

# Each command's limits: as many listeners as the bound are not above it, and one more is; and of a problem of many labels
# as many are expanded as the limits allow.
while IFS="$tab" read -r limit bound words; do
    # shellcheck disable=SC2086
    set -- $words
    for word; do
        shift
        [ "$word" = '""' ] && word=
        set -- "$@" "$word"
    done
    if [ "$limit" = - ]; then
        run /dev/null "$@"
        judge "no command: ${words:-no words}" 2 "$dir/nothing" 'usage: cpsa COMMAND [--limit N] [--bound N]'
        continue
    fi
    for more in 0 1; do
        listeners $((bound + more))
        run "$dir/input" "$@"
        counts "$limit" $((1 - more)) 1 "command with $((bound + more)) listeners: $words"
    done
    strands "$bound"
    run "$dir/input" "$@"
    counts "$limit" "$allowed" 4140 "command with eight strands: $words"
done <commands.tsv

# The input of $1 problems that `gen` prints: the protocol of generated_two and its two problems in turn.
generated() {
    awk -v count="$1" 'NR > 3 { problem[NR > 8] = problem[NR > 8] $0 "\n"; next } { print }
        END { for (i = 0; i < count; i++) printf "%s", problem[i % 2] }' reports/generated_two/output.scm
}

# Commands that read nothing, whatever their input is.
while read -r number count; do
    run / gen "$number"
    generated "$count" >"$dir/wanted"
    judge "gen $number" 0 "$dir/wanted" ''
done <<END
+3 3
007 7
500 500
END
mv "$dir/output" "$dir/input"
run "$dir/input" analyse
grep '^(status ' "$dir/output" | sort | uniq -c | sed 's/^ *//' >"$dir/last"
mv "$dir/last" "$dir/output"
cat >"$dir/wanted" <<END
250 (status complete labels 5 expanded 4 shapes 1)
250 (status complete labels 9 expanded 4 shapes 1)
END
judge 'gen 500, analysed' 0 "$dir/wanted" ''
run reports/generated_one/output.scm analyse
judge 'gen 1, analysed' 0 reports/nonces_agreed_analysed/output.scm ''
echo '(bench 500 labels 3500 expanded 2000 shapes 500 complete 500)' >"$dir/wanted"
run / bench +0500
judge 'bench 500' 0 "$dir/wanted" ''

# A text that three roles say, each of which has to hear another one first, which needs them again: each label that is
# expanded has three children, no two labels are alike, and there is no end.
{
    echo '(defprotocol p basic'
    for role in r s t; do
        echo "(defrole $role (vars (n m text)) (trace (recv m) (send n)) (pen-non-orig m))"
    done
    echo ') (defskeleton p (vars (n text)) (deflistener n) (pen-non-orig n))'
} >"$dir/endless"
for limit in 1 2 13 50 200; do
    run "$dir/endless" analyse --limit "$limit"
    counts "$limit" $((3 * limit + 1)) $((3 * limit + 1)) "a search without end, at the limit $limit"
done

# Within a bound of three strands that search ends: 13 labels have at most three strands, and 27 have four.
run "$dir/endless" analyse --bound 3
counts 2000 13 40 'a search without end, at the bound 3'

# $2 bytes $3 end with the status $4 and the line $5.
bytes() {
    copies "$2" "$3" >"$dir/input"
    run "$dir/input" analyse --limit 0
    judge "$1" "$4" "$dir/nothing" "$5"
}
bytes 'as many spaces as may be read' 1048576 ' ' 0 ''
bytes 'one space more' 1048577 ' ' 7 'too long'
bytes 'as many parentheses as may be read' 1048576 '(' 3 'refused 1:201 TooDeep'
bytes 'one parenthesis more' 1048577 '(' 7 'too long'

# A message of 300,000 items: no deep stack is needed for it.
{
    echo '(defprotocol p basic (defrole r (vars (n text) (k skey)) (trace (send n))))'
    printf '(defskeleton p (vars (n text) (k skey)) (deflistener (enc'
    copies 300000 ' n'
    echo ' k)))'
} >"$dir/input"
run "$dir/input" analyse --limit 0
tail -n 1 "$dir/output" >"$dir/last" && mv "$dir/last" "$dir/output"
echo '(status complete labels 1 expanded 0 shapes 1)' >"$dir/status"
judge 'a message of 300,000 items' 0 "$dir/status" ''

# A role whose message has as many items, with a value that originates there.
{
    printf '(defprotocol p basic (defrole r (vars (n text)) (trace (send (cat'
    copies 300000 ' n'
    echo ')))))'
    echo '(defskeleton p (vars (t text)) (defstrand r 1 (n t)) (uniq-orig t))'
} >"$dir/input"
run "$dir/input" analyse --limit 0
tail -n 1 "$dir/output" >"$dir/last" && mv "$dir/last" "$dir/output"
judge "a role's message of 300,000 items" 0 "$dir/status" ''

# The last run wrote, after the forms of its input, the lines of $dir/wanted. $1 names the case.
labels() {
    sed -n '/^(label 0$/,$p' "$dir/output" >"$dir/last" && mv "$dir/last" "$dir/output"
    judge "$1" 0 "$dir/wanted" ''
}

# A role that sends such a message and then hears its last item, which no penetrator says: the message is taken apart to
# its end.
{
    printf '(defprotocol p basic (defrole r (vars (n m text)) (trace (send (cat'
    copies 300000 ' n'
    echo ' m)) (recv m))))'
    echo '(defskeleton p (vars (t text)) (defstrand r 2 (m t)) (pen-non-orig t))'
} >"$dir/input"
cat >"$dir/wanted" <<END
(label 0
  (by problem)
  (vars (t text) (n text))
  (defstrand r 2 (n n) (m t))
  (pen-non-orig t)
  (map (0) (t t) (n n))
  (shape))
(status complete labels 1 expanded 0 shapes 1)
END
run "$dir/input" analyse --limit 0
labels 'a message of 300,000 items that is taken apart'

# One whose last item originates there, and so is looked for to the end.
{
    printf '(defprotocol p basic (defrole r (vars (n m text)) (trace (send (cat'
    copies 300000 ' n'
    echo ' m)))))'
    echo '(defskeleton p (vars (t text)) (defstrand r 1 (m t)) (uniq-orig t))'
} >"$dir/input"
cat >"$dir/wanted" <<END
(label 0
  (by problem)
  (vars (t text) (n text))
  (defstrand r 1 (n n) (m t))
  (uniq-orig (t (0 0)))
  (map (0) (t t) (n n))
  (shape))
(status complete labels 1 expanded 0 shapes 1)
END
run "$dir/input" analyse --limit 0
labels 'a message of 300,000 items, whose last originates there'

# One that is received, and shows in the test as what its items become.
{
    printf '(defprotocol p basic (defrole r (vars (n text) (k skey)) (trace (recv (enc'
    copies 300000 ' n'
    echo ' k)))))'
    echo '(defskeleton p (vars (t text) (j skey)) (defstrand r 1 (n t) (k j)) (non-orig j))'
} >"$dir/input"
{
    cat <<END
(label 0
  (by problem)
  (vars (t text) (j skey))
  (defstrand r 1 (n t) (k j))
  (non-orig j)
  (map (0) (t t) (j j))
  (unrealised (0 0))
END
    printf '  (test (0 0) (enc'
    copies 300000 ' t'
    echo ' j))'
    echo '  (dead))'
    echo '(status complete labels 1 expanded 1 shapes 0)'
} >"$dir/wanted"
run "$dir/input" analyse
labels 'a message of 300,000 items under values'

# Inputs of a kind and size, or of the folder measured where the size is '-': within the seconds of the table, by the clock,
# the program ends with this status form.
while IFS="$tab" read -r kind size words seconds form; do
    input=$dir/input
    if [ "$size" = - ]; then input=measured/$kind.scm; else sh sizes.sh "$kind" "$size" >"$input"; fi
    status=0
    # shellcheck disable=SC2086
    timeout "$seconds" "$program" $words <"$input" >"$dir/output" 2>"$dir/error" || status=$?
    tail -n 1 "$dir/output" >"$dir/last" && mv "$dir/last" "$dir/output"
    echo "$form" >"$dir/wanted"
    judge "size $size of $kind: $words" "$(case $form in *' limit '*) echo 1 ;; *) echo 0 ;; esac)" "$dir/wanted" ''
done <sizes.tsv

# The program may have any name.
ln -s "$program" "$dir/any"
status=0
"$dir/any" analyse --limit 0 <reports/whole_session/input.scm >"$dir/output" 2>"$dir/error" || status=$?
judge 'a program of another name' 0 reports/whole_session/output.scm ''

# Streams that fail: a folder cannot be read, and a full device takes nothing.
run / analyse --limit 0
judge 'a folder is read' 4 "$dir/nothing" 'read fault'
status=0
"$program" analyse --limit 0 <../examples/two-initiators.scm 2>"$dir/error" >/dev/full || status=$?
judge 'a full device' 5 - 'write fault'

# Runs a tool of the folder tools with these words, and the file $dir/input on its input.
tool() {
    name=$1
    shift
    status=0
    "../tools/$name" "$@" <"$dir/input" >"$dir/output" 2>"$dir/error" || status=$?
}

# The charts of the examples' reports, and of a report with each form of a term and a listener that sends on; and what is
# said if there is nothing to draw.
draws() {
    : >"$dir/input"
    for wanted in drawn/*.txt; do
        report=examples/$(basename "$wanted" .txt).scm
        tool draw "$report"
        judge "draw: $report" 0 "$wanted" ''
    done
    for report in examples/*.scm; do
        [ -f "drawn/$(basename "$report" .scm).txt" ] || {
            failed=$((failed + 1))
            echo "failed: $report: no chart of it"
        }
    done

    run ../examples/yahalom.scm shapes
    mv "$dir/output" "$dir/input"
    tool draw
    judge 'draw: a report of shapes alone' 0 drawn/yahalom.txt ''

    cat >"$dir/problems" <<'END'
(defprotocol p basic
  (defrole says (vars (a b name) (k j akey) (n text)) (trace
    (send (cat (cat a "to") (cat b (enc n (cat "x  y" (cat n a)) (invk k)))))
    (recv (enc n (pubk "sign" a) (invk (invk j))))
    (send (invk (pubk "sign" b)))
    (recv (invk (privk a)))) (uniq-orig n)))
(defskeleton p (vars (a b name) (i akey) (m text))
  (defstrand says 4 (a a) (b b) (k (privk a)) (j (invk i)) (n m))
  (deflistener (cat "heard" (cat m a)))
  (precedes ((0 0) (1 0)) ((1 1) (0 1)))
  (pen-non-orig (privk "sign" b)))
(defskeleton p (vars (a name) (k skey)) (deflistener (enc a k)) (non-orig k))
END
    cat >"$dir/wanted" <<'END'
Problem 1, protocol p: complete, 1 shape
========================================

Shape 1 of 1: label 0

    strand 0
    says, height 4
    --------------------------------------------------------
1.  0 send (cat (cat a "to") b (enc m "x  y" m a (pubk a)))
    |   m fresh
4.  1 recv (enc m (pubk "sign" a) (invk i))
    |   made by the penetrator
5.  2 send (privk "sign" b)
6.  3 recv (pubk a)
        made by the penetrator

    strand 1
    listener
    --------------------------------------------------------
2.  0 hears (cat "heard" m a)
    |   made by the penetrator
3.  1 sends it on

order         0 0 before 1 0, 1 1 before 0 1
pen-non-orig  (privk "sign" b)
uniq-orig     m at 0 0


Problem 2, protocol p: complete, no shapes
==========================================
END
    run "$dir/problems" analyse
    mv "$dir/output" "$dir/input"
    tool draw --width 60
    judge 'draw: each form of a term' 0 "$dir/wanted" ''

    : >"$dir/input"
    tool draw
    judge 'draw: nothing' 1 "$dir/nothing" 'draw: standard input: there is no problem to draw'
    tool draw ../examples/challenge.scm
    judge 'draw: an input' 1 "$dir/nothing" 'draw: ../examples/challenge.scm: no report: a problem without a status form'
    printf '(label 0\n (shape' >"$dir/input"
    tool draw
    judge 'draw: half a report' 1 "$dir/nothing" "draw: standard input: 2:2: this '(' is not closed"
    tool draw "$dir/none"
    judge 'draw: no file' 2 "$dir/nothing" "draw: $dir/none: No such file or directory"
    status=0
    ../tools/draw examples/otway-rees.scm 2>"$dir/error" | true
    judge 'draw: a reader that is gone' 0 - ''
    ../tools/draw examples/challenge.scm 2>"$dir/error" >/dev/full || status=$?
    judge 'draw: a full device' 2 - 'draw: standard output: No space left on device'
}

# What is said of inputs that the program refuses here, or refused in a line, and of others. The table of codes has those of
# the tables in docs/LANGUAGE.md.
tells_why() {
    : >"$dir/input"
    cat >"$dir/wanted" <<'END'
refusals/atom_uniq_tag_problem.scm:2:107: NotAtom
  .. (vars (a b name) (n m text) (k skey) (e akey) (d data)) (defstrand r 1 (n n)) (uniq-orig n "n" zz))
                                                                                                ^
Assumptions are about values of an atom sort (text, data, name, skey, akey), and this is a pair, a tag or an encryption.
END
    tool why --program "$program" refusals/atom_uniq_tag_problem.scm
    judge 'why: a refused input' 3 "$dir/wanted" ''
    echo 'refused 2:107 NotAtom' >"$dir/input"
    tool why --line - refusals/atom_uniq_tag_problem.scm
    judge 'why: the line on the input' 3 "$dir/wanted" ''

    {
        printf ';\n(herald\t'
        copies 50 'ten bytes '
        printf '1x '
        copies 50 'ten bytes '
    } >"$dir/long.scm"
    cat >"$dir/wanted" <<END
$dir/long.scm:2:509: BadNumber
  ..ten bytes ten bytes ten bytes ten bytes ten bytes 1x ten bytes ten bytes ten bytes ten bytes ten byt..
                                                      ^
What begins with a digit must be a number of at most nine digits.
END
    tool why --line 'refused 2:509 BadNumber' "$dir/long.scm"
    judge 'why: a long line' 3 "$dir/wanted" ''
    cat >"$dir/wanted" <<END
$dir/long.scm:2:8: BadByte
  (herald ten bytes ten bytes ten bytes ten bytes ten bytes ten bytes ten bytes ten bytes ten bytes te..
         ^
$(../tools/why --codes | sed -n 's/^BadByte //p')
END
    tool why --line 'refused 2:8 BadByte' "$dir/long.scm"
    judge 'why: a tab' 3 "$dir/wanted" ''

    echo "../examples/challenge.scm: accepted" >"$dir/wanted"
    tool why --program "$program" ../examples/challenge.scm
    judge 'why: an accepted input' 0 "$dir/wanted" ''
    echo '../examples/challenge.scm: The words after FILE are no command of the program.' >"$dir/wanted"
    tool why --program "$program" ../examples/challenge.scm analyse --limit
    judge 'why: no command' 2 "$dir/wanted" ''
    copies 1048577 ' ' >"$dir/long.scm"
    echo "$dir/long.scm: The input is longer than 1,048,576 bytes, the most that the program reads." >"$dir/wanted"
    tool why --program "$program" "$dir/long.scm"
    judge 'why: too long' 7 "$dir/wanted" ''

    tool why --line 'refused 9:1 BadByte' ../examples/challenge.scm
    judge 'why: no such place' 1 "$dir/nothing" 'why: ../examples/challenge.scm has no place 9:1'
    tool why --line 'refused' ../examples/challenge.scm
    judge 'why: no refusal' 1 "$dir/nothing" 'why: no refusal: refused'
    cp ../examples/challenge.scm "$dir/$(printf '\303\274').scm"
    printf '%s\n' "$dir/\\xfc.scm: accepted" >"$dir/wanted"
    PYTHONIOENCODING=ascii
    export PYTHONIOENCODING
    tool why --program "$program" "$dir/$(printf '\303\274').scm"
    unset PYTHONIOENCODING
    judge 'why: a name that cannot be printed' 0 "$dir/wanted" ''
    tool why "$dir/none"
    judge 'why: no file' 1 "$dir/nothing" "why: $dir/none: No such file or directory"

    awk -F ' *[|] *' '
        /^\| *code *\|/ { on = 1; next }
        !/^\|/ { on = 0 }
        on && !/^\|-/ { count = split($2, codes, ", *"); for (i = 1; i <= count; i++) print codes[i] }
    ' ../docs/LANGUAGE.md | sort >"$dir/wanted"
    tool why --codes
    sed 's/ .*//' "$dir/output" | sort >"$dir/last" && mv "$dir/last" "$dir/output"
    judge 'why: the codes' 0 "$dir/wanted" ''
}

# The label forms and status forms of a report.
answers() {
    awk '/^\(/ { on = /^\((label|status) / } on' "$1"
}

# What the files of a folder hold, each with its name before it.
files_of() {
    (cd "$1" && for file in *; do echo "== $file" && cat "$file"; done) >"$dir/output"
}

# A file of two protocols and three problems is cut, and the reports of its parts are made.
splits() {
    cat >"$dir/many.scm" <<'END'
(herald "many") ; problems
(defprotocol one basic ; "
  (defrole r (vars (n text)) (trace (send n))))
(comment ")" left out)
(defprotocol two basic (defrole r (vars (n text) (k skey)) (trace (send (enc n k)) (recv n))))
(defskeleton two (vars (n text) (k skey)) (defstrand r 2 (n n) (k k)) (non-orig k) (uniq-orig n)) ; )
(defskeleton one (vars (n text)) (defstrand r 1 (n n))
  ; kept
  (uniq-orig n)) (defskeleton two (vars (n text)) (deflistener n))
END
    cat >"$dir/wanted" <<'END'
== many-1.scm
(herald "many")
(defprotocol two basic (defrole r (vars (n text) (k skey)) (trace (send (enc n k)) (recv n))))
(defskeleton two (vars (n text) (k skey)) (defstrand r 2 (n n) (k k)) (non-orig k) (uniq-orig n))
== many-2.scm
(herald "many")
(defprotocol one basic ; "
  (defrole r (vars (n text)) (trace (send n))))
(defskeleton one (vars (n text)) (defstrand r 1 (n n))
  ; kept
  (uniq-orig n))
== many-3.scm
(herald "many")
(defprotocol two basic (defrole r (vars (n text) (k skey)) (trace (send (enc n k)) (recv n))))
(defskeleton two (vars (n text)) (deflistener n))
END
    : >"$dir/input"
    tool split -o "$dir/parts" "$dir/many.scm"
    judge 'split: what it says' 0 "$dir/nothing" ''
    files_of "$dir/parts"
    judge 'split: its files' 0 "$dir/wanted" ''

    run "$dir/many.scm" analyse
    answers "$dir/output" >"$dir/wanted"
    for part in "$dir"/parts/*.scm; do
        run "$part" analyse
        answers "$dir/output"
    done >"$dir/last"
    mv "$dir/last" "$dir/output"
    judge 'split: the answers' 0 "$dir/wanted" ''

    echo >>"$dir/parts/many-2.scm"
    touch -t 200101010000 "$dir"/parts/*.scm
    touch -t 200201010000 "$dir/old"
    tool split -o "$dir/parts" "$dir/many.scm"
    find "$dir/parts" -type f -newer "$dir/old" >"$dir/output"
    echo "$dir/parts/many-2.scm" >"$dir/wanted"
    judge 'split: only what changed' 0 "$dir/wanted" ''

    sed -n '1,3p' "$dir/many.scm" >"$dir/ten.scm"
    copies 10 '(defskeleton one (vars) (defstrand r 1))' >>"$dir/ten.scm"
    tool split -o "$dir/ten" "$dir/ten.scm"
    ls "$dir/ten" >"$dir/output"
    for number in 01 02 03 04 05 06 07 08 09 10; do echo "ten-$number.scm"; done >"$dir/wanted"
    judge 'split: ten problems' 0 "$dir/wanted" ''

    while IFS="$tab" read -r case input why; do
        # shellcheck disable=SC2059
        printf "$input" >"$dir/bad.scm"
        tool split -o "$dir/none" "$dir/bad.scm"
        [ ! -e "$dir/none" ] || echo 'something is written' >>"$dir/error"
        judge "split: $case" 1 "$dir/nothing" "split: $dir/bad.scm: $why"
    done <<END
no problem${tab}(herald "x")${tab}there is no problem
an open list${tab}(a\\n (b (c)${tab}2:2: this '(' is not closed
a list too many${tab}(a ; (\\n))${tab}2:2: this ')' closes no list
an open string${tab}(a "b\\n")${tab}1:4: this string is not closed on its line
a byte${tab}(a \\200)${tab}1:4: this byte may not stand here
a byte in a string${tab}(a "\\t")${tab}1:5: this byte may not stand here
END
    tool split "$dir/none"
    judge 'split: no file' 2 "$dir/nothing" "split: $dir/none: No such file or directory"
}

# Makes the reports of the folder $dir/parts, with these words, and leaves out what make says of its own.
makes() {
    status=0
    make -k -j 2 -f ../tools/reports.mk "CPSA=$program" "PROBLEMS=$dir/parts" "$@" >"$dir/output" 2>"$dir/last" || status=$?
    grep -v '^make' "$dir/last" >"$dir/error"
}

# The reports of those parts and of a refused input: what is refused is named, and what is there is not made again.
makes_reports() {
    cp refusals/algebra_diffie_hellman.scm "$dir/parts/bad.scm"
    makes
    judge 'reports.mk: a refused input' 2 - "$dir/parts/bad.scm: refused 1:16 OutOfProfile"
    status=0
    : >"$dir/error"
    ls "$dir/parts" >"$dir/output"
    printf '%s\n' bad.scm many-1.report many-1.scm many-2.report many-2.scm many-3.report many-3.scm >"$dir/wanted"
    judge 'reports.mk: its files' 0 "$dir/wanted" ''
    run "$dir/parts/many-2.scm" shapes
    judge 'reports.mk: a report' 0 "$dir/parts/many-2.report" ''

    rm "$dir/parts/bad.scm" "$dir/parts/many-1.report"
    echo kept >"$dir/parts/many-2.report"
    echo kept >"$dir/wanted"
    makes
    mv "$dir/parts/many-2.report" "$dir/output"
    judge 'reports.mk: again' 0 "$dir/wanted" ''
    run "$dir/parts/many-1.scm" shapes
    judge 'reports.mk: a report that was lost' 0 "$dir/parts/many-1.report" ''

    cp "$dir/endless" "$dir/parts/endless.scm"
    makes 'WORDS=analyse --limit 1'
    judge 'reports.mk: a limit' 0 "$dir/nothing" ''
    run "$dir/endless" analyse --limit 1
    judge 'reports.mk: the report at a limit' 1 "$dir/parts/endless.report" ''
    makes "PROBLEMS=$dir/none"
    judge 'reports.mk: no inputs' 2 "$dir/nothing" "no inputs: $dir/none/*.scm"
}

if command -v python3 >/dev/null 2>&1; then
    draws
    tells_why
    splits
    if command -v make >/dev/null 2>&1; then
        makes_reports
    else
        echo 'skipped: tools/reports.mk, as there is no make'
    fi
else
    echo 'skipped: the tools, as there is no python3'
fi

# The report $1 is what the search answers, with the words of the file $2 or, if it is not there, those after it.
searched() {
    run_words "$@"
    echo "as searched: $(grep -c '^(label ' "$1") labels" >"$dir/wanted"
    judge "searched again: $1" 0 "$dir/wanted" ''
}

# The report $1 is the same when what was read of it is printed again; of one in the list renamed.txt, whose names are given
# anew then, what is printed is what the search answers, as in searched.
comes_back() {
    run "$1" print
    if grep -qxF "$1" renamed.txt; then
        judge "printed again: $1" 0 - ''
        mv "$dir/output" "$dir/report"
        shift
        searched "$dir/report" "$@"
    else
        judge "printed again: $1" 0 "$1" ''
    fi
}

# The report $1 is another than what the search answers: the line $2 says where.
differs() {
    run "$1" analyse
    echo "$2" >"$dir/wanted"
    judge "searched again: $3" 1 "$dir/wanted" ''
}

# The report of the challenge, changed so: the line $2 says where it differs.
changed() {
    sed "$1" examples/challenge.scm >"$dir/report"
    differs "$dir/report" "$2" "the challenge, $1"
}

# The checker on the wanted reports, except those of shapes alone, and then on reports that the search does not answer.
if [ -n "$checker" ]; then
    program=$checker
    for report in examples/*.scm; do
        searched "$report" "${report%.scm}.words" analyse
        comes_back "$report" "${report%.scm}.words" analyse
    done
    for case in reports/*/; do
        if [ ! -s "${case}output.scm" ] || [ -f "${case}error" ]; then continue; fi
        [ "$(line_of "${case}words" analyse | head -n 1)" = analyse ] || continue
        searched "${case}output.scm" "${case}words" analyse --limit 0
        comes_back "${case}output.scm" "${case}words" analyse --limit 0
    done

    # Reports in which one line, or several together, are another text: the place at which that is no report, or '-' if it is one.
    while IFS="$tab" read -r report number text place; do
        [ "$text" != '""' ] || text=
        awk -v first="${number%-*}" -v last="${number#*-}" -v text="$text" \
            'NR == first + 0 { print text } NR >= first + 0 && NR <= last + 0 { next } { print } END { if (first + 0 > NR) print text }' "$report" >"$dir/report"
        run "$dir/report" analyse
        case=$(printf '%s' "$report, line $number: $text")
        if [ "$place" = - ]; then
            judge "$case" '0 1' - ''
        else
            judge "$case" 3 "$dir/nothing" "no report $place"
        fi
    done <bent.tsv

    changed 's/added-strand 1/added-strand 0/' 'problem 0 label 1 differs'
    changed 's/(shape)/(dead)/; s/shapes 1/shapes 0/' 'problem 0 label 1 differs'
    changed 's/(unrealised (0 1))/(unrealised (0 0))/' 'problem 0 label 0 differs'
    changed '/(escape /d' 'problem 0 label 0 differs'
    changed 's/(test (0 1) n)/(test (0 1) k)/' 'problem 0 label 0 differs'
    changed 's/(escape (enc n k))/(escape (enc k k))/' 'problem 0 label 0 differs'
    changed 's/ ((1 1) (0 1))//' 'problem 0 label 1 differs'
    differs reports/nonces_agreed_at_limit_1/output.scm 'problem 0 differs' 'a report at a lower limit'

    sed 's/labels 2/labels 3/' examples/challenge.scm >"$dir/report"
    run "$dir/report" analyse
    judge 'searched again: another number of labels' 3 "$dir/nothing" 'no report 31:25'
    run ../examples/challenge.scm analyse
    judge 'searched again: no tree behind a problem' 3 "$dir/nothing" 'no report 1:1'
    run examples/challenge.scm shapes
    judge 'searched again: no command' 2 "$dir/nothing" 'usage: cpsa_check print, or cpsa_check analyse [--limit N] [--bound N]'
fi

# Whether a case with the name $1 has been judged above; of those that the checker answers this is not asked where there is
# none.
is_judged() {
    case $1 in
        'searched again: '* | 'printed again: '* | *', line '*) [ -n "$checker" ] || return 0 ;;
    esac
    grep -qxF -e "$1" "$dir/judged"
}

# Whether $1, as CRATE::FILE::TEST, is a test of that crate.
is_test() {
    sources=../crates/${1%%::*}/src
    tested=${1#*::}
    [ -f "$sources/${tested%%::*}.rt" ] && grep -qx "mod ${tested%%::*};" "$sources/lib.rt" &&
        awk -v text="fn ${tested#*::}(" 'marked && index($0, text) == 1 { found = 1 } { marked = ($0 == "#[test]") } END { exit !found }' "$sources/${tested%%::*}.rt"
}

# Whether $1 is the name of a case or of a test.
stands() {
    case $1 in
        cp_tests::* | cp_input_tests::*) is_test "$1" ;;
        *) is_judged "$1" ;;
    esac
}

# Each row of the table has what is asked, what is wanted, and then names: of cases, as they are judged above, and of tests.
while IFS="$tab" read -r asked wanted places; do
    if [ -z "$wanted" ] || [ -z "$places" ]; then
        failed=$((failed + 1))
        echo "failed: rows.tsv: $asked: no place"
        continue
    fi
    printf '%s\n' "$places" | tr '\t' '\n' >"$dir/places"
    while IFS= read -r place; do
        if stands "$place"; then
            passed=$((passed + 1))
        else
            failed=$((failed + 1))
            echo "failed: rows.tsv: $asked: no $place"
        fi
    done <"$dir/places"
done <rows.tsv

echo "$passed passed, $failed failed"
[ "$failed" -eq 0 ]
