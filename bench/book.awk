END {
    print "\n## The patch book\n"
    print "Instructions of one call on a full book, the caller's left out. Its 256 fixtures are all in one universe, the first with " \
        "one channel and the others with two, or one in each universe; their names are of 3 and 11 bytes. An unpatch lists identifiers " \
        "that the book holds, or others; where the list is longer than there are such, they stand in it again. An empty list empties " \
        "the book. The identifiers held are 0 to 255, or, spread, 257 apart from 0 to 65,535."
    targets("the patch book")
    n = most("patch", ""); target("a patch on a full book", 6000, n, thousands(n))
    n = most("question", ""); target("a taken count or a first free channel of a full book", 7000, n, thousands(n))
    n = most("unpatch", "^65,535 ") / 65535; target("an unpatch of 65,535 identifiers, for each", 30, n, sprintf("%.1f", n))
    table("patch", "patch")
    table("question", "question")
    table("unpatch", "unpatch of")
}
