# Which kinds of objects each predicate has, and how many: IRIs, blank nodes, plain literals, literals by tag or datatype. It
# wants one space between the parts of a line, as serdi and `gkey merge` write.
{
    object = substr($0, length($1) + length($2) + 3)
    sub(/ \.$/, "", object)
    kind = object ~ /^</ ? "IRI" : object ~ /^_:/ ? "blank node" : "plain"
    if (object ~ /^"/ && match(object, /"(@[A-Za-z0-9-]+|\^\^<[^<>"]*>)$/)) kind = substr(object, RSTART + 1)
    count[$2 " " kind]++
}
END { for (each in count) print each, count[each] }
