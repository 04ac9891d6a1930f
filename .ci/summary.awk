# Prints the summary of the journal of the script of the number n: awk -v n=1 -f .ci/summary.awk JOURNAL

BEGIN {
    kinds = "fast free mark take wait walk walkend restart cycle again leave give rin rout unbias wtake wsleep wopen" \
        " wwake busy state sched wake setprio own"
    replies = "got busy deadlock interrupted notowner nesting pinned woke missed done"
}

$1 == "end" && end == "" { end = $0 }

end == "" && $1 != "rtjournal" {
    events[$3 == "signal" ? "wake" : $3]++
    if ($(NF - 1) == "->")
        answers[$NF]++
}

END {
    print "rtgen 1"
    print "script " n
    for (i = 1; i <= split(kinds, kind, " "); i++)
        print "events", kind[i], events[kind[i]] + 0
    for (i = 1; i <= split(replies, reply, " "); i++)
        print "replies", reply[i], answers[reply[i]] + 0
    print end
}
