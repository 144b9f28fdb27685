# shellcheck shell=bash disable=SC2154
# What the commands share: one takes FILE, sees that its program is built, runs it on FILE and says what its listing is worth. The program
# of citp-NAME is crates/citp_NAME. A command sources this file, sets
#   help          a function that prints the help
#   read_listing  a function that runs $program on descriptor 3 and sets $listing
#   rules         awk's, over a listing's lines: found() says what there is, place() where the stream stops, refused() how much is refused
# and calls main "$@".
set -euo pipefail
trap '' PIPE
root=$(dirname "$(readlink -f "$0")")
command=$(basename "$(readlink -f "$0")")
crate=${command//-/_}
program=$root/crates/$crate/out/$crate
longest=65536

# say STATUS WORDS: the one line on standard error, and the end.
say() {
    printf '%s: %s\n' "$command" "${2//[[:cntrl:]]/?}" >&2 || true
    exit "$1"
}

too_long() {
    say 1 "$name: longer than $longest bytes: nothing is listed"
}

cannot_be_read() {
    say 2 "$name: cannot be read"
}

no_listing() {
    say 3 "$name: the program failed: there is no listing"
}

# Opens the input as descriptor 3; what can be told wrong before the program is built is told here.
open_input() {
    if [ "$1" = - ]; then
        name='standard input'
        { exec 3<&0; } 2> /dev/null || say 2 "$name: closed"
    else
        name=$1
        [ -e "$1" ] || say 2 "$name: no such file, or not to be reached"
        { exec 3< "$1"; } 2> /dev/null || say 2 "$name: cannot be opened for reading"
        [ ! -f "$1" ] || [ "$(stat -Lc %s -- "$1")" -le $longest ] || too_long
    fi
    [ ! -d /dev/fd/3 ] || say 2 "$name: a directory, no stream"
}

# The program's crate and those that it stands on.
crates() {
    awk -v crate="$crate" '
        function add(crate, list, n, i) {
            if (!(crate in needs) || crate in seen) return
            seen[crate]
            print crate
            n = split(needs[crate], list)
            for (i = 1; i <= n; i++) add(list[i])
        }
        /^[^#]/ { name = $1; sub(/:$/, "", name); sub(/[^:]*:/, ""); needs[name] = $0 }
        END { add(crate) }' "$root/crates.txt"
}

# Whether the program is there and none of its sources is newer; the out/ of a crate, which rt makes, is none.
is_built() {
    [ -x "$program" ] || return 1
    mapfile -t sources < <(crates)
    [ -z "$(cd "$root" && find crates.txt "${sources[@]/#/crates/}" -name out -prune -o \
        -newer "$program" ! -regex 'crates/[^/]*' -print -quit)" ]
}

# Says which crate is being proved, out of what rt prints; on a terminal one line is written over.
progress() {
    local n=0 all before='' after=$'\n'
    all=$(crates | wc -l)
    [ ! -t 2 ] || before=$'\r' after=''
    while [ "$n" = 0 ] || read -r line; do
        if [ "$n" = 0 ] || [[ $n -lt $all && $line == logic=proved\ * ]]; then
            n=$((n + 1))
            printf '%s%s: proving and building, once: crate %d of %d%s' "$before" "$command" "$n" "$all" "$after" >&2
        fi
    done
    [ -n "$after" ] || echo >&2
}

# Proves and builds the program, and runs it on the stored stream, which must give the stored listing.
prove() {
    cd "$root/crates/$crate" && rt run < stdin | cmp - stdout
}

build() {
    command -v rt > /dev/null || say 3 'the program is not built, or older than its sources, and rt, the Rattle toolchain, is not installed'
    log=$root/target/$command.log
    { mkdir -p "$root/target" && : > "$log"; } 2> /dev/null || say 3 "the program cannot be built: $root/target cannot be written"
    # rt links the program before it runs it: until that has passed it is not taken for built, and what changes meanwhile is newer
    trap 'rm -f "$program"' EXIT
    begun=$(date +%s.%N)
    if ! (prove) 2>&1 < /dev/null | tee "$log" | progress || [ ! -x "$program" ]; then
        say 3 "the program could not be built: $log says why"
    fi
    touch -d "@$begun" "$program"
    trap - EXIT
}

# What the listing on standard input tells of the stream, in words; status 1 where something is wrong with it.
verdict() {
    awk -F= "$rules"'
        BEGIN {
            ends[1] = "1 to 19 bytes are left, too few for a packet"
            ends[2] = "no packet begins there"
            ends[3] = "a packet of another major version than 1"
            ends[4] = "a size that cannot be, below 20 or above 16,777,216"
            ends[5] = "a size above what is left: the stream was cut"
        }
        function some(n, what) { return n + 0 " " what (n == 1 ? "" : "s") }
        $1 == "packets" { packets = $2 }
        $1 == "stop" { stop = $2 }
        END {
            if (packets == 0 && stop == 0) { print "empty: no packets"; exit }
            printf "%s: %s; the stream ", some(packets, "packet"), found()
            if (stop == 0) print "ends behind the last"
            else printf "stops %s with %d: %s\n", place(), stop, ends[stop]
            exit stop != 0 || refused() > 0
        }'
}

list() {
    read_listing
    printf '%s\n' "$listing" 2> /dev/null || say 3 "$name: the listing could not be written"
    status=0
    words=$(verdict <<< "$listing") || status=$?
    say "$status" "$name: $words"
}

main() {
    case $#,${1-} in
        1,-h | 1,--help) help 2> /dev/null || say 3 'the help could not be written' ;;
        1,) say 2 'the name of FILE is empty; --help says more' ;;
        1,- | 1,[!-]*)
            open_input "$1"
            is_built || build
            list
            ;;
        1,*) say 2 "$1: no such option; --help says what there is" ;;
        *) say 2 "one FILE is due, or - for standard input, and $# words were given; --help says more" ;;
    esac
}
