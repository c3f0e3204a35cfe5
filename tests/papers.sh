#!/usr/bin/env bash
# Tests docs/PAPERS.md: each file that a row cites is there and has each cited name in it, whole, so that the page does not
# outlive a name. A row is a verdict: sentence | `path` `name` `name`; `path` `name` | note. A row without a citation has to
# say "not rendered". The last line is 'N passed, M failed'.
set -eu

cd "$(dirname "${BASH_SOURCE[0]}")/.."
source tests/verdict.sh

# rows: the sentence of each row, a tab, and what is wrong with it. A file is cut once into its words: letters, digits, _
# and - belong to a name, and in the C locale all else does not. A bar in a sentence is written \|.
rows() {
    LC_ALL=C awk '
        function read_words(path,    line, count, part, i, status) {
            while ((status = (getline line < path)) > 0) {
                count = split(line, part, /[^A-Za-z0-9_-]+/)
                for (i = 1; i <= count; i++) words[path, part[i]] = 1
            }
            close(path)
            there[path] = status == 0
        }
        function wrong_with(citation,    part, count, i) {
            if (citation !~ /^`[^` ]+`( `[A-Za-z0-9_-]+`)+$/) return "no citation: " citation
            count = split(substr(citation, 2, length(citation) - 2), part, /` `/)
            if (!(part[1] in there)) read_words(part[1])
            if (!there[part[1]]) return part[1] " is not there"
            for (i = 2; i <= count; i++) if (!((part[1], part[i]) in words)) return part[1] " has no " part[i]
            return ""
        }
        /^\| sentence \|/ || /^\|[-|]+$/ { next }
        /^\|/ {
            gsub(/\\\|/, "/")
            gsub(/\t/, " ")
            columns = split($0, cell, / *\| */)
            reason = columns == 5 && cell[2] != "" ? "" : "not a sentence and two more columns"
            if (reason == "" && cell[3] == "" && cell[4] !~ /not rendered/) reason = "neither cited nor said to be not rendered"
            citations = split(cell[3], cited, /; /)
            for (k = 1; reason == "" && k <= citations; k++) reason = wrong_with(cited[k])
            print "row " ++row ", " cell[2] "\t" reason
        }' docs/PAPERS.md
}

listed=$(rows) || verdict "docs/PAPERS.md" "it was not read to its end"
[ -n "$listed" ] || verdict "docs/PAPERS.md" "no row was found"
while IFS=$'\t' read -r sentence reason; do
    [ -z "$sentence" ] || verdict "$sentence" "$reason"
done <<< "$listed"
echo "$passed passed, $failed failed"
[ "$failed" -eq 0 ]
