# Brings a literal that stands behind one node up to the entity: where S `first` B and B `second` "v", it adds S `name` "v" to the
# graph. The graph is read twice: awk -v first=.. -v second=.. -v name=.. -f lift.awk GRAPH GRAPH. It wants one space between the
# parts of a line, as serdi and `gkey merge` write.
FNR == NR { if ($2 == second && $3 ~ /^"/) held[$1] = held[$1] name " " substr($0, length($1) + length($2) + 3) "\n"; next }
{ print }
$2 == first && $3 in held {
    count = split(held[$3], lines, "\n")
    for (i = 1; i < count; i++) print $1, lines[i]
}
