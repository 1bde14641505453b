#!/bin/sh
# Tries the edits of edits/CRATE, for each crate that is named, in a temporary copy of the checkout: see README.md. Prints what
# 'rt must-fail CRATE..' says, and ends with its status, or with status 1 if an edit could not be applied or read. Ends with status 2 if
# no crate is named, or one without edits here.
set -u
LC_ALL=C
export LC_ALL
unset GIT_DIR GIT_WORK_TREE GIT_INDEX_FILE

if [ $# -lt 1 ]; then
    echo "usage: sh edits/run.sh CRATE.." >&2
    exit 2
fi
cd -- "$(dirname -- "$0")/.." || exit 2

# Whether the crate $1 is there.
is_crate() {
    case $1 in
        '' | *[!a-z0-9_]*) return 1 ;;
    esac
    [ -d "crates/$1" ]
}

# Whether there are edits of the crate $1.
has_edits() {
    for edit in "edits/$1"/*.edit; do
        if [ -f "$edit" ]; then return 0; fi
    done
    return 1
}

for crate; do
    is_crate "$crate" || {
        echo "edits/run.sh: no crate $crate" >&2
        exit 2
    }
    has_edits "$crate" || {
        echo "edits/run.sh: no edits of $crate" >&2
        exit 2
    }
done

dir=$(mktemp -d) || exit 2
trap 'rm -rf "$dir"' EXIT
trap 'exit 2' HUP INT TERM

# All files of the checkout as they stand, changed and new ones too, but no ignored ones.
git clone -q --no-checkout . "$dir/copy" || exit 2
git --git-dir="$dir/copy/.git" --work-tree=. add --all || exit 2
git -C "$dir/copy" checkout-index --all || exit 2

for crate; do
    rm -rf "$dir/copy/crates/$crate/must-fail"
    mkdir "$dir/copy/crates/$crate/must-fail" || exit 2
    cp "edits/$crate"/*.edit "$dir/copy/crates/$crate/must-fail" || exit 2
done

cd -- "$dir/copy" || exit 2
{
    status=0
    rt must-fail "$@" 2>&1 || status=$?
    echo "$status" >"$dir/status"
} | tee "$dir/said"
status=$(cat "$dir/status")
if [ "$status" -eq 0 ] && grep -q 'BAD EDIT' "$dir/said"; then status=1; fi
exit "$status"
