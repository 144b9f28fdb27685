END {
    print "\n## The dimmer rack\n"
    print "Instructions of one call, the caller's left out: a channel block from channel 0 on, or one that is refused, is blind or is " \
        "for another universe; a channel list whose records are all for the rack's universe, or for another, with channels below 512 " \
        "or all past 511, or are for the rack's and the last names channel 512."
    targets("the dimmer rack")
    n = most("block", "^512 levels$"); target("a channel block of 512 levels", 350, n, thousands(n))
    n = most("list", "^512 records$") / 512; target("a channel list of 512 records, for each", 30, n, sprintf("%.1f", n))
    table("block", "channel block of")
    table("list", "channel list of")
}
