#!/usr/bin/env bash
# Lists, point by point, the lines of crates/*/src where an older form may stand, and counts them.
# Usage: tools/forms.sh [COMMIT] [POINT]     (COMMIT "now" or none: the files as they are)
# A line found is a line to read: docs/DESIGN-PASS.md says which of them are such places.
set -euo pipefail
cd "$(git rev-parse --show-toplevel)"
commit=${1:-now}
only=${2:-}
tree=()
if [ "$commit" != now ]; then tree=("$commit"); fi

find_lines() { # POINT WHAT PATTERN
    if [ -n "$only" ] && [ "$only" != "$1" ]; then return; fi
    local lines
    lines=$(git grep -nE "$3" ${tree[@]+"${tree[@]}"} -- 'crates/*/src/*.rt' | grep -vE '/tests\.rt:|_tests/' || true)
    if [ -z "$lines" ]; then
        echo "point $1: $2: 0"
    else
        echo "point $1: $2: $(wc -l <<<"$lines")"
        if [ -n "$only" ]; then echo "$lines"; fi
    fi
}

find_lines 1 'enums, numeric constants, flags, numbers taken for kinds' \
    '^\s*(pub(\(crate\))? )?(enum |const [A-Z0-9_]+: u(8|32|size))|\bbool\b|\b(kind|class|end): u(8|32)'
find_lines 3 'loops' '^\s*(for|while|loop)\b'
find_lines 4 'comparisons and conversions by hand, types that derive no comparison' \
    '\.index\(\) ==|fn (numbered|index|holding|octets_of|error_cause|capped|[a-z]+_of|reference)\(|self\.0 (>=|<=)|derive\(Clone, Copy\)\]|=> (Ok\()?[0-9]+,'
find_lines 5 'clauses that ask something' '^\s*requires'
find_lines 6 'places, sizes and arrays beside what they are of' \
    '^\s*(pub(\(crate\))? )?[a-z]+: (u16|usize|\[(u8|usize); [0-9]+\]),|-> usize'
find_lines 7 'matches on what to do, calls through values' 'match (kind|step|message|self\.0) \{|dyn |fn\('
