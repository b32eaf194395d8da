#!/usr/bin/env bash
# Lists the places in src/ that the design pass looked at, by number of point (docs/DESIGN-PASS.md). Each list is read
# by hand: it holds more lines than places.
cd "$(dirname "$0")/.."
src() { grep -rnE --include='*.rt' "$@" crates/*/src; }
texts() { grep -rhoE --include='*.rt' "$@" crates/*/src; }

echo "## 1a own enums"
src '^ *(pub |pub\(crate\) )?enum '
echo "## 1b arms of a match or an if on an Option or a Result that give a constant back"
src '^ *(None|Err\(_\)|Ok\(_\)) =>|^ *[A-Za-z:]+( \{ \.\. \})? => (true|false),'
echo "## 1c flags in a struct"
src '^ *(pub |pub\(crate\) )?[a-z_]+: bool,$'
echo "## 1d numbers that may be kinds"
src '(: |-> )(u8|i32)\b'
echo "## 2 constants and functions that are declared more than once"
texts '^ *(pub |pub\(crate\) )?(const|fn) [A-Za-z_]+' | sed -E 's/^ *(pub |pub\(crate\) )?//' | sort | uniq -d
echo "## 3a loops"
src '^ *(for|while|loop)\b'
echo "## 3b rows read by a number"
src '[a-z_)]\[[a-z_]+( - 1| as usize)?\]'
echo "## 4a impls of std's traits"
src '^impl(<.*>)? (PartialEq|Eq|PartialOrd|Ord|Hash|Clone|Copy|Default|From<.*>|TryFrom<.*>|FromStr|fmt::Display) for '
echo "## 4b methods that compare, convert or print"
src 'fn (same|below|cmp|eq|partial_cmp|from_[a-z]+|to_[a-z]+|as_[a-z]+|code|number|words|none|empty|new|[a-z_]*refused|resolved|record|fault)\b'
echo "## 4c casts that a From does"
src '\bas (u16|u32|u64)\b'
echo "## 5a clauses that stand three times or more"
texts '(requires|ensures)( [a-z_]+)? \{ .* \}$' | sed -E 's/^(requires|ensures)( [a-z_]+)? //' | sort | uniq -c | awk '$1 >= 3' | sort -rn
echo "## 5b pairs of parameters that stand three times or more"
texts 'fn [a-z_]+(<[^(]*>)?\([^)]*\)' | grep -oE '\(.*\)' | tr -d '()' \
    | awk -F', *' '{ for (i = 1; i < NF; i++) print $i ", " $(i + 1) }' | sort | uniq -c | awk '$1 >= 3' | sort -rn
echo "## 6 lengths beside buffers, links by number, buffers to be filled"
src '^ *(pub )?len: |Option<usize>,$|\[u8; [0-9]+\]|: &mut \['
echo "## 7 traits of the repository's own, and their impls"
src '^(pub )?trait |^impl(<.*>)? (Policy|Bindings|RowCheck<.*>|ModuleCheck|HashKey|OrderedKey) for |\bdyn\b|: fn\('
echo "## 8 lines of proofs, and answers, a crate"
for crate in crates/*/; do
    [ -d "$crate/proofs" ] || continue
    echo "$(basename "$crate") $(find "$crate/proofs" -name '*.antt' -exec cat {} + | wc -l) lines," \
        "$(find "$crate/proofs" -name Answers.antt -exec cat {} + | grep -cE '^pub ') answers"
done
