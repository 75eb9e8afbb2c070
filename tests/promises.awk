# Input: the lines of a trace, each with its answer behind it (paste). Prints the first line by which the answers are known to
# be those of no run, and why: a read that does not answer the last accepted write; number 1 or 18 (demand 3); 23 to another
# kind than 7, or to a node that has the backup itself, as its lost data timeout, accepted next, shows (T-01); a word or a slot
# of a refused event; a word of an event that is neither a read nor a delivery.
NR == 1 { next } # the start
{ why = "" }
$9 != 0 && ($10 != 0 || $11 != 64) { why = "refused, and answers a word or a slot" }
$9 == 0 && $1 != 0 && $1 != 3 && $10 != 0 { why = "answers a word" }
$9 == 0 && $1 == 0 && $10 != last[$2] + 0 { why = "reads " $10 " where " last[$2] + 0 " was written last" }
$9 == 1 || $9 == 18 { why = "number " $9 }
$9 == 23 && $1 != 7 { why = "number 23, kind " $1 }
$9 == 0 && $1 == 8 && $2 "," $3 == waits { why = "the node has a backup, and 23 before" }
{ waits = $9 == 23 ? $2 "," $3 : "" }
$9 == 0 && $1 == 1 { last[$2] = $8 }
why != "" { print NR ": " why; exit }
