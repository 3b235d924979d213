# From a report to owl:sameAs triples: from the first member of each class to each other one.
{ for (i = 2; i <= NF; i++) print $1, "<http://www.w3.org/2002/07/owl#sameAs>", $i, "." }
