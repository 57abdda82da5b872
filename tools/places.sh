#!/bin/sh
# Lists the places in src/ where an older form may stand, point by point, and counts them: tools/places.sh [FOLDER]
# The counts are of lines to look at, not of faults; docs/DESIGN-PASS.md says what each one is.
cd "${1:-.}" || exit 1
show() {
    title=$1
    lines=$(cat)
    if [ -z "$lines" ]; then count=0; else count=$(printf '%s\n' "$lines" | wc -l); fi
    printf '== %s: %s\n' "$title" "$count"
    if [ -n "$lines" ]; then printf '%s\n' "$lines" | cut -c1-150; fi
}
src=$(find crates -path '*/src/*' -name '*.rt' -not -path '*/out/*' | sort)
find_in_src() { grep -nE "$1" $src; }

find_in_src '^\s*(pub(\(crate\))? )?enum ' | show '1a enums'
find_in_src '^\s*(pub )?[a-z_]+: bool,' | show '1b flags in structs'
find_in_src '//.*(, (or|else) 0\b|\b0 (if|where|for)\b)' | show '1c comments that give 0 a meaning'
find_in_src '^\s*0$' | show '1d functions that give the number 0'
find_in_src '^\s*while |for \w+ in .*\.\.' | show '3a loops over an index or a range'
find_in_src 'enumerate\(\)' | show '3b indices beside the elements'
find_in_src 'fn (is_)?same_|fn is_before|fn is_equal' | show '4a equality and order by hand'
find_in_src '\bas (u8|u16|u32|u64|usize)\b' | show '4b casts'
find_in_src '^impl.* (From|TryFrom|Display|Error|PartialEq|Ord|PartialOrd|TotalOrder)\b.* for ' | show '4c conversions, order and printing by an impl'
find_in_src 'fn (put|write)_' | grep lines/ | show '4d writers of bytes'
find_in_src '(requires|ensures) .*\b(sound|Sound|ScanSound|CoreSound|BothSound|Shaped)\b' | show '5a clauses that say that a value is sound'
find_in_src 'SameLent|Tidy' | grep -E 'requires|ensures' | show '5b clauses that say what stays or is tidy'
find_in_src '(text_limit: u16, *$|text_limit: u16,|places: usize,|records: &|out: &mut \[u8\])' | grep -v 'ensures\|requires' | show '5c parameters and fields that travel together'
find_in_src '^\s*(pub )?[a-z]+: \[[A-Za-z0-9]+; (512|513|[A-Z_]+)\]' | show '6a fixed buffers'
find_in_src '^\s*(pub )?(start|len|length): (usize|u16),' | show '6b places and lengths into a list'
find_in_src '^\s*match ' | show '7 switches'
