#!/bin/sh
# Runs the script `cpsa` of the checkout above this file, in a small checkout of its own in which a stand-in for the
# toolchain's command `rt` builds a stand-in for the program, so that nothing is proved. Prints a line for each case that
# fails, then 'N passed, M failed', and ends with status 0 only if M is 0.
set -u
LC_ALL=C
export LC_ALL
cd -- "$(dirname -- "$0")/.." || exit 2
dir=$(mktemp -d) || exit 2
trap 'rm -rf "$dir"' EXIT
trap 'exit 2' HUP INT TERM
passed=0
failed=0
kit=$(sed -n 's/^\(rattle-kit-[^ ]* logic [^ ]*\)$/\1/p' README.md)

# A checkout of three crates, two of which the program is made of.
mkdir -p "$dir/checkout/crates/low/src" "$dir/checkout/crates/cpsa/src" "$dir/checkout/crates/beside/src" "$dir/bin" || exit 2
cp cpsa README.md "$dir/checkout/" || exit 2
cat >"$dir/checkout/crates.txt" <<'END'
# NAME: the libraries it stands on
low:
cpsa: low
beside: low
END
for name in low cpsa beside; do echo "// $name" >"$dir/checkout/crates/$name/src/lib.rt"; done

# The stand-in for rt writes what it is asked to the file `asked`, and fails at what the file `fails` names.
cat >"$dir/bin/rt" <<END
#!/bin/sh
case "\$1" in
    version) cat "$dir/kit"; exit ;;
esac
echo "\$*" >>"$dir/asked"
case "\$1" in
    all)
        if grep -qx slow "$dir/fails"; then echo \$\$ >"$dir/slow"; exec sleep 60; fi
        echo "== low"
        echo "statements low"
        if grep -qx library "$dir/fails"; then echo "the goal of low is open"; echo "== summary"; exit 1; fi
        mkdir -p ../low/out/rlib/low.rlib
        echo "== cpsa"
        echo "== summary"
        if grep -qx check "$dir/fails"; then exit 1; fi
        sleep 1 ;;
    run)
        if grep -qx link "$dir/fails"; then echo "no linker"; exit 1; fi
        mkdir -p out
        printf '#!/bin/sh\necho "words: \$*"\ncat\nexit 3\n' >out/cpsa
        chmod +x out/cpsa ;;
esac
END
chmod +x "$dir/bin/rt"
echo "$kit" >"$dir/kit"
: >"$dir/fails"
: >"$dir/asked"

# Runs the script $1 with the other words.
run() {
    script=$1
    shift
    status=0
    echo input | PATH="$path" TMPDIR="$tmpdir" "$script" "$@" >"$dir/output" 2>"$dir/error" || status=$?
}

# Whether the last run ended with the status $2, the text $3 on its output, and $4 on the error stream, where a text that
# ends in a star says how it begins. $1 names the case.
judge() {
    why=
    [ "$status" = "$2" ] || why="status $status, wanted $2"
    [ "$(cat "$dir/output")" = "$3" ] || why="$why; another output"
    case $(cat "$dir/error") in
        "${4%\*}"*) [ "$4" != "${4%\*}" ] || [ "$(cat "$dir/error")" = "$4" ] || why="$why; on the error stream: $(cat "$dir/error")" ;;
        *) why="$why; on the error stream: $(cat "$dir/error")" ;;
    esac
    if [ -z "$why" ]; then
        passed=$((passed + 1))
    else
        failed=$((failed + 1))
        echo "failed: $1: ${why#; }"
    fi
}

# Whether rt was asked for $2 builds since the last call of this function. $1 names the case.
builds() {
    if [ "$(grep -c '^all' "$dir/asked")" = "$2" ]; then
        passed=$((passed + 1))
    else
        failed=$((failed + 1))
        echo "failed: $1: $(grep -c '^all' "$dir/asked") builds, wanted $2"
    fi
    : >"$dir/asked"
}

# Whether the last run said one line on the error stream. $1 names the case.
one_line() {
    if [ "$(grep -c '' "$dir/error")" = 1 ]; then
        passed=$((passed + 1))
    else
        failed=$((failed + 1))
        echo "failed: $1: not one line on the error stream"
    fi
}

# Runs the script with each line of words of the table commands.tsv: with '-' those that are no command, with '+' the others,
# which the stand-in for the program has to be given as they are.
commands() {
    while IFS="$tab" read -r limit _ words; do
        case $1$limit in -- | +[0-9]*) ;; *) continue ;; esac
        # shellcheck disable=SC2086
        set -- "$1" $words
        for word; do
            shift
            [ "$word" = '""' ] && word=
            set -- "$@" "$word"
        done
        sign=$1
        shift
        run "$checkout/cpsa" "$@"
        case $sign in
            -) judge "no command: ${words:-no words}" 2 '' "$usage" ;;
            +) judge "a command: $words" 3 "words: $words${newline}input" '' ;;
        esac
        set -- "$sign"
    done <tests/commands.tsv
}

tab=$(printf '\t')
newline='
'
checkout=$dir/checkout
path=$dir/bin:$PATH
tmpdir=$dir
answer='words: analyse --limit 3
input'
usage='usage: cpsa COMMAND [--limit N] [--bound N]'

# Words that are no command, before there is a program.
for word in --help -h help --version analyze 'analyse shapes' --limit; do
    run "$checkout/cpsa" "$word"
    judge "no command: $word" 2 '' "$usage"
done
for word in --help -h help shapes '' '--limit 3' --limit=3=3 --bound=33; do
    run "$checkout/cpsa" analyse "$word"
    judge "no command: analyse '$word'" 2 '' "$usage"
done
commands -
builds 'no command' 0

# What keeps it from being built, each in one line.
without=$dir/without
mkdir "$without"
for name in sh dirname readlink sed awk find cksum sort grep mktemp mkdir rm cat nproc touch; do
    ln -s "$(command -v "$name")" "$without/$name"
done
path=$without
run "$checkout/cpsa" analyse --limit 3
judge 'no toolchain' 70 '' 'cpsa: not built: the command rt of the toolchain is not on the path*'
one_line 'no toolchain'
path=$dir/bin:$PATH
echo 'another kit' >"$dir/kit"
run "$checkout/cpsa" analyse --limit 3
judge 'another toolchain' 70 '' "cpsa: not built: rt version says 'another kit', which is not the toolchain of README.md"
echo "$kit" >"$dir/kit"
tmpdir=$dir/none
run "$checkout/cpsa" analyse --limit 3
judge 'no temporary folder' 70 '' "cpsa: not built: no temporary file in $dir/none*"
one_line 'no temporary folder'
tmpdir=$dir
rm -rf "$checkout/crates/cpsa/out"
: >"$checkout/crates/cpsa/out"
run "$checkout/cpsa" analyse --limit 3
judge 'nothing can be written' 70 '' "cpsa: not built: cannot write to $checkout/crates/cpsa/out"
rm "$checkout/crates/cpsa/out"
builds 'what keeps it from being built' 0

# Builds that fail.
echo library >"$dir/fails"
run "$checkout/cpsa" analyse --limit 3
judge 'a library fails' 70 '' 'cpsa: the program is proved and built first, 2 crates*'
case $(cat "$dir/error") in
    *'the goal of low is open
cpsa: not built: the library low failed') judge 'a library fails: why' 70 '' 'cpsa*' ;;
    *) judge 'a library fails: why' 70 '' 'the goal of low is open' ;;
esac
for what in check link; do
    echo "$what" >"$dir/fails"
    run "$checkout/cpsa" analyse --limit 3
    judge "the program fails: $what" 70 '' 'cpsa: the program is proved and built first, 2 crates*'
done
builds 'builds that fail' 3

# A build that is interrupted: what it began is ended, and its temporary file removed.
echo slow >"$dir/fails"
mkdir "$dir/temporary"
PATH="$path" TMPDIR="$dir/temporary" "$checkout/cpsa" analyse </dev/null >"$dir/output" 2>"$dir/error" &
script=$!
for _ in 1 2 3 4 5 6 7 8 9 10; do
    [ -s "$dir/slow" ] || sleep 1
done
status=0
kill "$script"
wait "$script" || status=$?
judge 'an interrupt' 70 '' 'cpsa: the program is proved and built first, 2 crates*'
if [ ! -s "$dir/slow" ] || kill -0 "$(cat "$dir/slow")" 2>"$dir/output"; then echo 'rt is still at work' >"$dir/output"; else ls "$dir/temporary" >"$dir/output"; fi
judge 'an interrupt: what is left' 70 '' 'cpsa*'
: >"$dir/fails"
builds 'an interrupt' 1

# A build, through a link from another folder, and what wants another one.
ln -s "$checkout/cpsa" "$dir/link"
run "$dir/link" analyse --limit 3
judge 'a first run' 3 "$answer" 'cpsa: the program is proved and built first, 2 crates*'
builds 'a first run' 1
run "$dir/link" analyse --limit 3
judge 'a second run' 3 "$answer" ''
sleep 1
echo '// beside, changed' >"$checkout/crates/beside/src/lib.rt"
echo 'another: low' >>"$checkout/crates.txt"
run "$checkout/cpsa" analyse --limit 3
judge 'another crate has changed' 3 "$answer" ''
touch "$checkout/crates/low/src/lib.rt"
run "$checkout/cpsa" analyse --limit 3
judge 'a file was written again' 3 "$answer" ''
builds 'nothing has changed' 0
sleep 1
echo '// low, changed' >"$checkout/crates/low/src/lib.rt"
run "$checkout/cpsa" analyse --limit 3
judge 'a file has changed' 3 "$answer" 'cpsa: the program is proved and built first, 2 crates*'
builds 'a file has changed' 1
sleep 1
echo '// low, changed again' >"$checkout/crates/low/src/lib.rt"
echo "another kit logic ${kit##* logic }" >"$dir/kit"
run "$checkout/cpsa" analyse --limit 3
judge 'another toolchain of the same logic' 3 "$answer" "cpsa: rt version says 'another kit logic ${kit##* logic }'; README.md names '$kit', which has the same logic*"
builds 'another toolchain of the same logic' 1
echo "$kit" >"$dir/kit"
run "$checkout/cpsa" shapes
judge 'the other command' 3 'words: shapes
input' ''
run "$checkout/cpsa" --help
judge 'no command, once there is a program' 2 '' "$usage"
commands +
for word in gen bench; do
    for number in 1 500 +3 007; do
        run "$checkout/cpsa" "$word" "$number"
        judge "a command: $word $number" 3 "words: $word $number${newline}input" ''
    done
done
builds 'no more' 0

# A program that is at work for as many seconds as its limit says, then puts its words and its input and, with shapes,
# ends as one that has no memory left.
cat >"$checkout/crates/cpsa/out/cpsa" <<END
#!/bin/sh
echo \$\$ >"$dir/at_work"
input=\$(cat)
answer() {
    if [ "\$1" = shapes ]; then echo memory >&2; exit 6; fi
    printf 'words: %s\n%s\n' "\$*" "\$input"
    exit 3
}
if [ "\$3" = 0 ]; then answer "\$@"; fi
trap 'answer "\$@"' USR1
trap 'kill "\$!"; exit' TERM
sleep "\$3" && kill -s USR1 \$\$ &
while :; do :; done
END
echo input >"$dir/input"
mkdir "$tmpdir/at_terminal"

# An interrupt is ignored by what a shell starts in the background, and by all that this starts; these words undo that.
heeded=
if env --default-signal=INT true 2>"$dir/nothing"; then heeded='env --default-signal=INT'; fi

# Runs the script with these words at a terminal, where after $1 seconds an interrupt is typed if $1 is not 0. What is left
# on the screen is the output, and of what was there what says that the search goes on. The terminal is left a second later,
# since `script` may lose what comes to it just before the end.
at_terminal() {
    typed=$1
    shift
    status=0
    # shellcheck disable=SC2086
    if [ "$typed" != 0 ]; then sleep "$typed" && printf '\003'; fi |
        TMPDIR="$tmpdir/at_terminal" $heeded script -q -e -c "trap : INT; $checkout/cpsa $* <$dir/input; ended=\$?; sleep 1; exit \$ended" /dev/null >"$dir/screen" || status=$?
    awk '{
        sub(/\r$/, "")
        count = split($0, parts, "\r")
        line = ""
        for (i = 1; i <= count; i++) line = parts[i] substr(line, length(parts[i]) + 1)
        sub(/ +$/, "", line)
        print line
    }' "$dir/screen" >"$dir/output"
    tr '\r' '\n' <"$dir/screen" | sed -n 's/^\(cpsa: still searching after 0 min [0-9]* s\) *$/\1/p' >"$dir/error"
}

# Searches that are long enough, at a terminal, for a line that says so, and others.
searches() {
    at_terminal 0 analyse --limit 0
    judge 'at a terminal, a short search' 3 "words: analyse --limit 0${newline}input" ''
    at_terminal 0 analyse --limit 3
    judge 'at a terminal, a long search' 3 "words: analyse --limit 3${newline}input" 'cpsa: still searching after 0 min 2 s*'
    at_terminal 0 shapes --limit 3
    judge 'at a terminal, a long search that fails' 6 memory 'cpsa: still searching after 0 min 2 s*'
    at_terminal 0 "analyse --limit 3 >$dir/report"
    judge 'at a terminal, a long search whose report goes elsewhere' 3 '' 'cpsa: still searching after 0 min 2 s*'
    mv "$dir/report" "$dir/output"
    judge 'at a terminal, a report that goes elsewhere' 3 "words: analyse --limit 3${newline}input" 'cpsa: still searching after 0 min 2 s*'
    if [ -z "$heeded" ]; then
        echo 'skipped: an interrupt at a terminal, as env cannot make one heeded'
        return
    fi
    at_terminal 3 analyse --limit 30
    judge 'at a terminal, an interrupt' 130 '' 'cpsa: still searching after 0 min 2 s*'
    if kill -0 "$(cat "$dir/at_work")" 2>"$dir/output"; then echo 'the program is still at work' >"$dir/output"; else ls "$tmpdir/at_terminal" >"$dir/output"; fi
    judge 'at a terminal, an interrupt: what is left' 130 '' 'cpsa: still searching after 0 min 2 s*'
}

run "$checkout/cpsa" shapes --limit 3
judge 'a long search elsewhere' 6 '' memory
if script -q -e -c true /dev/null </dev/null >"$dir/screen" 2>&1; then
    searches
else
    echo 'skipped: searches at a terminal, as there is no script'
fi

echo "$passed passed, $failed failed"
[ "$failed" -eq 0 ]
