# Gives each blank node of an N-Triples file an IRI, which is `base` and the label: with base=http://example.org/node/ the
# node _:b1 becomes <http://example.org/node/b1>. It wants one space between the parts of a line, as serdi and `gkey merge`
# write.
function named(term) { return term ~ /^_:/ ? "<" base substr(term, 3) ">" : term }
$3 ~ /^_:/ { print named($1), $2, named($3), "."; next }
/^_:/ { print named($1) substr($0, length($1) + 1); next }
{ print }
