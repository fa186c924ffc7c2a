# The capture that a replay's listing (standard input) shows: a line `slot link message` for each crossing, kinds 2 and 3, rising. picture/listing.awk
# reads. POSIX awk.

BEGIN {
    tool = "capture"
    again = "Give it what the replay printed, whole:\n  ./nuthatchet replay < cuts | ./nuthatchet capture > capture"
}

END {
    for (s = 0; s < slots; s++)
        for (e = 0; e < MOST_LINKS; e++)
            for (m = 0; m < lanes; m++)
                if (crosses(kind[s, m]) && number[s, m] == e) print s, e, m
}
