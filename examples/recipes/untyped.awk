# The subjects that have no type, each once for each of its triples. The graph is read twice:
# awk -f untyped.awk GRAPH GRAPH | sort -u. It wants one space between the parts of a line, as serdi and `gkey merge` write.
FNR == NR { if ($2 == "<http://www.w3.org/1999/02/22-rdf-syntax-ns#type>") typed[$1]; next }
!($1 in typed) { print $1 }
