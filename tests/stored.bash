# shellcheck shell=bash
# compare_stored PROGRAM ENDING: PROGRAM lists the stored streams, *.in of this folder, and the venues; the listings must be those that are
# stored, *.out and the venues' with that ending.
compare_stored() {
    local program=$1 ending=$2 listed=0 differ=0 stream stored
    for stream in *.in ../../venues/*.citp; do
        case $stream in
            *.in) stored=${stream%.in}.out ;;
            *) stored=${stream%.citp}$ending ;;
        esac
        listed=$((listed + 1))
        if ! "$program" < "$stream" | cmp -s - "$stored"; then
            echo "$stream: the listing differs"
            differ=1
        fi
    done
    [ "$differ" = 0 ] && echo "$listed stored streams: alike"
}
