# Adds to each triple of `predicate` whose object is an IRI one with the IRI's text as a literal, under `name`. It wants one
# space between the parts of a line, as serdi and `gkey merge` write.
{ print }
$2 == predicate && $3 ~ /^</ { print $1, name, "\"" substr($3, 2, length($3) - 2) "\"", "." }
