# How many candidate pairs a key makes at most that has `type` for ?x and one value, under `predicate`: n(n-1)/2 for each
# literal that n entities of the type share. Prints the number, then each literal that more than one has, with how many have
# it. The graph is read twice: awk -v type=.. -v predicate=.. -f foresee.awk GRAPH GRAPH. It wants each triple once and one
# space between the parts of a line, as `gkey merge` writes.
FNR == NR { if ($2 == "<http://www.w3.org/1999/02/22-rdf-syntax-ns#type>" && $3 == type) typed[$1]; next }
$2 == predicate && $3 ~ /^"/ && $1 in typed { count[substr($0, length($1) + length($2) + 3)]++ }
END {
    for (literal in count) pairs += count[literal] * (count[literal] - 1) / 2
    printf "0 pairs %.0f\n", pairs
    for (literal in count) if (count[literal] > 1) { text = literal; sub(/ \.$/, "", text); printf "%d %s\n", count[literal], text }
}
