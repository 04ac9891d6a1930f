# Of what `check` says of the files that change.awk writes, in their order: counts what there is at the changed line,
# by why it is wrong, what is at a later line, and what is legal. No earlier line can be wrong.
{ line = int((NR + 2) / 3) }
$1 == "illegal" && $2 == line { said["why " $3]++; next }
$1 == "illegal" && $2 > line { said["later"]++; next }
$1 == "legal" { said["legal"]++; next }
{
    print ".ci/count.awk: where line " line " of " name " is changed, check says " $0 >"/dev/stderr"
    failed = 1
}
END {
    if (NR != files) {
        print ".ci/count.awk: check says something of " NR " changes of " name ", which are " files >"/dev/stderr"
        failed = 1
    }
    if (failed) exit 1
    counts = name ":"
    sorts = split("why 1,why 2,why 3,why 4,later,legal", sort, ",")
    for (i = 1; i <= sorts; i++) if (sort[i] in said) counts = counts " " sort[i] " " said[sort[i]] ","
    print substr(counts, 1, length(counts) - 1)
}
