#!/usr/bin/env bash
# Lists places of src/ to look at, for each point of docs/DESIGN-PASS.md: tools/places.sh [POINT]..
# Each line is a place to look at and no verdict; the page says which lines are places of the point.
set -uo pipefail
cd "$(dirname "$0")/.." || exit 1

list() { # list PATTERN: the lines of src/ with it, but for those of tests
    grep -rnE "$1" crates/*/src --include='*.rt' | grep -v '/tests.rt:'
}

point_1() { # none-cases and errors of own enums, flags, numbers for kinds, matches on None and Err
    list '^    (Broken|Nothing|Blank|Bad|TooLarge|End),'
    list '\bNone => |\bErr\([a-z_]+\) => |Some\(_\) => '
    list '^\s+(pub )?[a-z_]+: bool,|Result<bool>'
    list '=> [0-9]+,$|else \{ 0 \}'
    list 'Option<Refusal>|return Err\((why|refusal)\)'
    list '^\s+None$|\} else \{ None \}'
}

point_2() { # the same lines, or lines of one shape, twice
    local copy
    copy=$(mktemp -d)
    for file in crates/*/src/*.rt; do
        mkdir -p "$copy/$(dirname "$file")"
        cp "$file" "$copy/${file%.rt}.rs"
    done
    duplicates --repo "$copy" --min-lines 4 --most 200 --seconds 60 | grep -E '^D[0-9]+ '
    rm -r "$copy"
    list ': \[[^;]+; [0-9]+\],|ArrayVec<' # types that are a stack of a fixed size
}

point_3() { # loops that are no plain `for`, counted loops, and slices cut by numbers
    list '^\s*(while|loop)\b|for .* in .*\.\.|\.enumerate\(\)'
    list '\[[^]"]*( - 1|\bn\b|count|used|last|height|\bplace|\bat\b|\bi\b|fresh|\br\b)[^];"]*\]' | grep -vE '\]( |,|\))*(->|\{|,? *[a-z_]+:)|: &|//!'
}

point_4() { # equality, conversion and printing by hand
    list '^impl(<.*>)? [A-Za-z:]+(<.*>)? for |matches!|fn (name|bytes|same|argument|put_[a-z]+|is_[a-z]+)\('
    list '#\[derive\(Clone, Copy\)\]'
}

point_5() { # clauses that three or more functions have
    grep -rhE '^\s+(requires|ensures)' crates/*/src --include='*.rt' | sed -E 's/.*(requires|ensures)[^{]*\{/\1 {/' | sort | uniq -c | awk '$1 >= 3'
}

point_6() { # arrays of a fixed size in types and locals
    list ': \[[^;]+; [0-9]+\]|= \[[^]]*; [0-9]+\]'
}

point_7() { # enums that say which step to run
    list 'enum (Class|Operation|Opening|Sequel|Turn)|match (class|operation|opening|sequel)'
}

point_8() { # files and lines of proofs, by crate
    for crate in crates/*/; do
        [ -d "$crate/proofs" ] && [ -f "$crate/src/lib.rt" ] || continue
        find "$crate/proofs" -name '*.antt' -print0 | xargs -0 cat | wc -l | sed "s|^|$(basename "$crate") |"
    done
}

for point in "${@:-1 2 3 4 5 6 7 8}"; do
    for one in $point; do
        echo "point $one"
        "point_$one"
    done
done
