#!/bin/sh
# Words that no source may have: `unsafe`, and calls of an engine's `begin` and `finish` outside crates `engine` and
# `core_first`, which would work an engine without a trial's token.
set -u
cd "$(dirname "$0")/.." || exit 2
found=0
if grep -rnE '\bunsafe\b' crates/*/src; then
    echo "unsafe code"
    found=1
fi
if grep -rnE '(\.|::)(begin|finish)\([^)]' crates/*/src | grep -vE '^crates/(engine|core_first)/'; then
    echo "begin or finish of an engine called outside crates engine and core_first"
    found=1
fi
[ "$found" -eq 0 ] && echo "no forbidden word"
[ "$found" -eq 0 ]
