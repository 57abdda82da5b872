#!/bin/sh
# Misuses that the compiler must refuse, ahead of any proof.
#
# Each edit of refused/ is made in a copy of the repository, where the edited crate is then checked. It counts as
# refused only if the compiler names the edited file and the error that the edit expects.
#
# An edit has these lines:
#   crate: NAME         the crate to edit and to check
#   file: src/lib.rt    a file of that crate
#   old: TEXT           what stands there, on one line and only once
#   new: TEXT           what takes its place
#   error: CODE         the error, as in 'error[CODE]'; or one of several, where builds of the toolchain name it differently
#   in: CRATE/FILE      the file that keeps a name for its crate; asked for where there are several errors
#   hidden: TEXT        what stands in that file, so that the name isn't refused for being misspelt
#
# Usage: tools/refused.sh [EDIT...]     without EDIT: all of refused/
# The copy has no out/: the crates below an edited one are proved there first, unless a check on this machine kept them.
set -u
root=$(cd "$(dirname "$0")/.." && pwd) || exit 2
[ $# -gt 0 ] || set -- "$root"/refused/*.edit
work=$(mktemp -d) || exit 2
trap 'rm -rf "$work"' EXIT
trap 'exit 2' HUP INT TERM
tar -C "$root" --exclude=out -cf - crates crates.txt | tar -C "$work" -xf - || exit 2

field() { sed -n "s/^$1: \{0,1\}//p" "$2"; }

# Writes FILE with the one place of OLD replaced by NEW; fails unless there is just one.
replace() { # FILE, with OLD and NEW in the environment
    awk '
        BEGIN { old = ENVIRON["OLD"]; new = ENVIRON["NEW"]; found = 0 }
        {
            at = index($0, old)
            if (at) {
                found++
                rest = substr($0, at + length(old))
                if (index(rest, old)) found++
                $0 = substr($0, 1, at - 1) new rest
            }
            print
        }
        END { exit found != 1 || old == "" || old == new }' "$1"
}

refused=0
failed=0
for edit in "$@"; do
    name=$(basename "$edit" .edit)
    crate=$(field crate "$edit")
    file=$(field file "$edit")
    codes=$(field error "$edit")
    within=$(field in "$edit")
    hidden=$(field hidden "$edit")
    case $codes in
        *" "*) several=yes ;;
        *) several= ;;
    esac
    from=$root/crates/$crate/$file
    to=$work/crates/$crate/$file
    if ! OLD=$(field old "$edit") NEW=$(field new "$edit") replace "$from" >"$to"; then
        echo "BAD EDIT: $name"
        failed=$((failed + 1))
    elif [ -n "$several$within" ] && ! { [ -n "$hidden" ] && grep -qF -e "$hidden" "$root/crates/$within"; }; then
        echo "NOTHING HIDDEN: $name ($within)"
        failed=$((failed + 1))
    else
        said=$(cd "$work/crates/$crate" && rt check 2>&1)
        status=$?
        found=
        for code in $codes; do
            if printf '%s\n' "$said" | grep -F "$file:" | grep -qF "error[$code]"; then
                found=$code
            fi
        done
        if [ "$status" -eq 1 ] && [ -n "$found" ]; then
            echo "refused: $name ($found)"
            refused=$((refused + 1))
        else
            echo "NOT REFUSED AS EXPECTED: $name (status $status, expected error[$codes])"
            printf '%s\n' "$said" | grep -E 'error|proved|PROVED|no proof' | head -n 5
            failed=$((failed + 1))
        fi
    fi
    cp "$from" "$to" || exit 2
done
echo "$refused refused, $failed failed"
[ "$failed" -eq 0 ]
