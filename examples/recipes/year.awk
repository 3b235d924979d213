# Adds to each triple of `predicate` whose literal begins with four digits one with these alone, a plain literal under `name`.
# It wants one space between the parts of a line, as serdi and `gkey merge` write.
{ print }
$2 == predicate && $3 ~ /^"[0-9][0-9][0-9][0-9]/ { print $1, name, substr($3, 1, 5) "\"", "." }
