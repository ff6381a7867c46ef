#!/bin/sh
# Counts the places in crates/*/src that docs/DESIGN-PASS.md speaks of, a heading for each of its points: sh tools/places.sh
# [-l], in the repository's root. With -l it prints the lines that it counts. What they hold has to be read: not every line
# is a place, and the table of that page says which are.
set -eu

lines=${1:-}

# places WORDS PATTERN: the lines of the sources that hold the pattern
places() {
    found=$(grep -rnE --include='*.rt' "$2" crates/*/src || true)
    printf '  %4d  %s\n' "$(printf '%s' "$found" | grep -c '' || true)" "$1"
    if [ "$lines" = -l ] && [ -n "$found" ]; then
        printf '%s\n' "$found" | sed 's/^/        /'
    fi
}

echo "1. enums like Option or Result, flags with a value, numbers for kinds and refusals"
places "enums" '^ *(pub(\([a-z]+\))? )?enum [A-Z]'
places "arms that turn one Option or Result into another, or into a bool" \
    '^ +(Ok|Err|Some|None)(\([a-z_]+\))? => (Ok|Err|Some|None|true|false|return|[a-z_]+,|&?[a-z_]+\[|\{$|[a-z_]+\(|\()'
places "flags: fields and parameters" '(^ +(pub )?|[(,] ?)[a-z_]+: bool[,)]|Result<bool>'
places "numbers that stand for none or for a kind" 'const NONE|or two zeros|fn number\(self|Result<u8|String::new\(heap\)'

echo "2. twins"
printf '  %s\n' "$(python3 tools/twins.py | tail -n 1)"
if [ "$lines" = -l ]; then
    python3 tools/twins.py | sed 's/^/        /'
fi

echo "3. loops that count an index or their turns"
places "while, loop, and for over a range" '^ *(while\b.*|loop) \{|^ *for .* in .*\.\..*\{'

echo "4. comparing, copying, converting and printing by hand"
places "impls of those traits" '^ *impl(<[^>]*>)? (fmt::)?(PartialEq|Eq|PartialOrd|Ord|Clone|Copy|Default|Hash|Display|Debug|From<[A-Za-z0-9]+>|TryFrom<[A-Za-z0-9]+>) for '
places "functions that do such a thing under a name of their own" '\bfn (of|to_[a-z]+|from_[a-z]+|as_[a-z]+|put_[a-z]+|number)\b'

echo "5. facts in three contracts or more, and parameters that travel together"
printf '  %4d  clauses that stand in three contracts or more\n' "$(grep -rhoE --include='*.rt' '^ +(requires|ensures)( [a-z_]+)? \{.*\}' crates/*/src |
    sed -E 's/^ +(requires|ensures)( [a-z_]+)? //' | sort | uniq -c | awk '$1 >= 3' | grep -c '' || true)"
if [ "$lines" = -l ]; then
    grep -rhoE --include='*.rt' '^ +(requires|ensures)( [a-z_]+)? \{.*\}' crates/*/src |
        sed -E 's/^ +(requires|ensures)( [a-z_]+)? //' | sort | uniq -c | sort -rn | awk '$1 >= 3' | sed 's/^/        /'
fi
places "functions with bytes and their header, or a line and its end, as two parameters" 'bytes: &.?[a ]*\[u8\], header: Header|line: &mut \[u8\], end: usize'

echo "6. buffers with a length beside them, parallel arrays, searched lists"
places "array fields and arrays that are filled by hand, outside tests" '^ +[a-z]+: \[[A-Za-z0-9]+; [A-Z_]+\],|let mut [a-z]+ = \[[^;]*; [A-Z_]+\];'

echo "7. switches on which step to run"
places "flags that are handed on, and enums of steps" '[(,] ?(&mut self, )?[a-z_]+: bool[,)]|enum Turn'

echo "8. proofs"
printf '  %4d  answers, in %d files; %d lines of specs and proofs\n' \
    "$(find crates/*/proofs -name Answers.antt -exec cat {} + | grep -c '^pub ')" \
    "$(find crates/*/proofs -name Answers.antt | grep -c '')" \
    "$(find crates/*/specs crates/*/proofs -name '*.antt' -exec cat {} + | grep -c '')"
