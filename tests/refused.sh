#!/bin/sh
# Runs a built program, whose path is the first word, over the whole initiator of the Needham-Schroeder protocol, and refuses it
# memory: at its first growth, in the next run at its second, and so on until a run has no more growths. Each answer has to be
# status 6 with nothing put, or status 0 with the whole report. Prints a line for each other answer, then 'N growths, M other
# answers', and ends with status 0 only if M is 0 and the last run gave the report. It needs a C compiler and glibc; the gate does
# not call it.
set -u
LC_ALL=C
export LC_ALL

if [ $# -ne 1 ] || [ ! -x "$1" ]; then
    echo "usage: sh tests/refused.sh PROGRAM" >&2
    exit 2
fi
program=$(CDPATH='' cd -- "$(dirname -- "$1")" && pwd)/$(basename -- "$1")
cd -- "$(dirname -- "$0")/reports/nonces_agreed_analysed" || exit 2
dir=$(mktemp -d) || exit 2
trap 'rm -rf "$dir"' EXIT
trap 'exit 2' HUP INT TERM
: >"$dir/nothing"

# Stands before the calls that take memory. The one with the number in REFUSE, from 1, is refused, and the file named in
# REFUSED shows that it came.
cat >"$dir/refuse.c" <<'EOF'
#include <fcntl.h>
#include <stddef.h>
#include <stdlib.h>
#include <unistd.h>

extern void *__libc_malloc(size_t size);
extern void *__libc_realloc(void *old, size_t size);

static long left;

__attribute__((constructor)) static void begin(void) {
    const char *number = getenv("REFUSE");
    left = number ? atol(number) : 0;
}

static int is_refused(void) {
    if (left == 0 || --left > 0)
        return 0;
    const char *name = getenv("REFUSED");
    if (name)
        close(open(name, O_CREAT | O_WRONLY, 0600));
    return 1;
}

void *malloc(size_t size) { return is_refused() ? NULL : __libc_malloc(size); }

void *realloc(void *old, size_t size) { return is_refused() ? NULL : __libc_realloc(old, size); }
EOF
"${CC:-cc}" -O1 -fPIC -shared -fno-builtin -o "$dir/refuse.so" "$dir/refuse.c" || exit 2

number=0
others=0
while :; do
    rm -f "$dir/refused"
    status=0
    env LD_PRELOAD="$dir/refuse.so" REFUSE=$((number + 1)) REFUSED="$dir/refused" "$program" analyse <input.scm >"$dir/output" 2>"$dir/error" || status=$?
    wanted=output.scm
    [ "$status" -ne 6 ] || wanted=$dir/nothing
    case $status in
        0 | 6) cmp -s "$wanted" "$dir/output" || status="$status, another output" ;;
    esac
    case $status in
        0 | 6) ;;
        *)
            others=$((others + 1))
            echo "growth $((number + 1)): status $status"
            ;;
    esac
    [ -e "$dir/refused" ] || break
    number=$((number + 1))
done
echo "$number growths, $others other answers"
[ "$others" -eq 0 ] && [ "$status" = 0 ]
