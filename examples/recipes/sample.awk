# Of the entities of `type` only those that have a literal under `predicate` which begins with `begin`, and all triples of
# other subjects. The graph is read twice: awk -v type=.. -v predicate=.. -v begin=.. -f sample.awk GRAPH GRAPH. It wants one
# space between the parts of a line, as serdi and `gkey merge` write.
FNR == NR {
    if ($2 == "<http://www.w3.org/1999/02/22-rdf-syntax-ns#type>" && $3 == type) typed[$1]
    if ($2 == predicate && index($3, "\"" begin) == 1) kept[$1]
    next
}
!($1 in typed) || $1 in kept
