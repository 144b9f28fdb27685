# shellcheck shell=bash disable=SC2154
# What the tests of the commands share. A test goes to the root of the tree, sources this file, sets
#   command  the command's name, as citp-list
#   crates   how many crates its program stands on, with its own
#   listed   the file that holds the listing of the small rig
#   found    what the command says of the small rig
#   cut      where it says that a stream stops whose packet at byte 65504 is cut
#   streams  a function that tries the command on good and bad streams
# and calls try_all.
set -euo pipefail
root=$PWD
rig=$root/venues/small-rig.citp
stored=$root/tests/listing
nothing=/dev/null
here=$(mktemp -d)
trap 'rm -rf "$here"' EXIT
tried=0
failed=0

wrong() {
    echo "tests of $command: $1: ${*:2}"
    failed=1
}

# expect STATUS LISTING WORDS COMMAND..: the command ends with STATUS, prints what the file LISTING holds, and on standard error one line,
# which is its name, ': ' and the pattern WORDS; lines that tell how far a build is go to $here/progress.
expect() {
    local status=0 due=$1 listing=$2 words=$3 said
    shift 3
    tried=$((tried + 1))
    "$@" > "$here/out" 2> "$here/err" || status=$?
    grep 'proving and building' "$here/err" > "$here/progress" || true
    said=$(grep -v 'proving and building' "$here/err") || true
    [ "$status" = "$due" ] || wrong "status $status, not $due" "$@"
    cmp -s "$here/out" "$listing" || wrong "another listing than $listing" "$@"
    # shellcheck disable=SC2053
    [[ $said != *$'\n'* && $said == $command:\ $words ]] || wrong "says '$said', not '$words'" "$@"
}

# shellcheck disable=SC2317,SC2002
piped() { cat "$1" | "$list" -; }
given() { "$list" - < "$1"; }
closed_input() { "$list" - <&-; }
closed_output() { "$list" "$1" >&-; }
closed_pipe() { { sleep 0.2 && "$list" "$1" && :; } | :; }
full_disk() { "$list" "$1" > /dev/full; }
elsewhere() { (cd / && "$@"); }
posix() { POSIXLY_CORRECT=1 "$@"; }
# first N: the first N bytes of a stream of 4,096 packets of 32 bytes
first() {
    if [ ! -e "$here/packets" ]; then
        cp "$stored/end_0.in" "$here/packets"
        for ((i = 1; i < 12; i++)); do cat "$here/packets" "$here/packets" > "$here/twice" && mv "$here/twice" "$here/packets"; done
    fi
    head -c "$1" "$here/packets"
}

lengths() {
    # as much as is listed, to a packet's end and into a packet
    first 65536 > "$here/whole"
    { first 65504; printf 'CITP\1\0\0\0\41\0\0\0\1\0\0\0SDMXCapa\0\0\0\0\0\0\0\0'; } > "$here/cut"
    for stream in whole cut; do "$program" < "$here/$stream" > "$here/$stream.out"; done
    expect 0 "$here/whole.out" '*: 2048 packets: *; the stream ends behind the last' "$list" "$here/whole"
    expect 0 "$here/whole.out" '*: 2048 packets: *; the stream ends behind the last' piped "$here/whole"
    expect 1 "$here/cut.out" "*: 2047 packets: *; the stream stops $cut with 5: *" "$list" "$here/cut"
    # longer: by one byte, by a packet, by a hundred
    for length in 65537 65568 68736; do
        first "$length" > "$here/longer"
        expect 1 $nothing "$here/longer: longer than 65536 bytes: nothing is listed" "$list" "$here/longer"
        expect 1 $nothing 'standard input: longer than 65536 bytes: nothing is listed' piped "$here/longer"
    done
    expect 1 $nothing 'standard input: longer than 65536 bytes: nothing is listed' given /dev/zero
}

arguments() {
    expect 2 $nothing 'one FILE is due, *, and 0 words were given; *' "$list"
    expect 2 $nothing 'one FILE is due, *, and 2 words were given; *' "$list" "$rig" "$rig"
    expect 2 $nothing 'the name of FILE is empty; *' "$list" ''
    expect 2 $nothing '--lits: no such option; *' "$list" --lits
    expect 3 $nothing 'the help could not be written' full_disk --help
    for word in -h --help; do
        "$list" $word > "$here/out" 2> "$here/err" || wrong 'a status other than 0' $word
        [[ $(cat "$here/out") == "usage: $command FILE"* && ! -s $here/err ]] || wrong 'no help' $word
    done
}

inputs() {
    expect 0 "$listed" "venues/small-rig.citp: $found" "$list" venues/small-rig.citp
    expect 0 "$listed" "standard input: $found" piped "$rig"
    expect 0 "$listed" "standard input: $found" given "$rig"
    expect 2 $nothing 'small-rg.citp: no such file, or not to be reached' "$list" small-rg.citp
    expect 2 $nothing 'venues: a directory, no stream' "$list" venues
    expect 2 $nothing 'standard input: a directory, no stream' given venues
    expect 2 $nothing 'standard input: closed' closed_input
    expect 2 $nothing 'standard input: closed' posix closed_input
    expect 2 $nothing '/dev/tty: cannot be opened for reading' setsid -w "$list" /dev/tty
    expect 2 $nothing '/proc/self/mem: cannot be read' "$list" /proc/self/mem
    cp "$rig" "$here/two  spaces and a"$'\n'line
    expect 0 "$listed" "*two  spaces and a[?]line: $found" "$list" "$here/two  spaces and a"$'\n'line
    ln -s longer "$here/link"
    expect 1 $nothing '*/link: longer than 65536 bytes: nothing is listed' "$list" "$here/link"
    mkfifo "$here/fifo"
    cat "$rig" > "$here/fifo" &
    expect 0 "$listed" "*/fifo: $found" "$list" "$here/fifo"
}

outputs() {
    expect 3 $nothing "$rig: the listing could not be written" full_disk "$rig"
    expect 3 $nothing "$rig: the listing could not be written" closed_output "$rig"
    expect 3 $nothing "$rig: the listing could not be written" closed_pipe "$rig"
    "$list" "$rig" > "$here/out" 2>&- || wrong 'a status other than 0' 'standard error closed'
    ln -s "$list" "$here/linked"
    ln -s linked "$here/twice linked"
    expect 0 "$listed" "$rig: $found" "$here/linked" "$rig"
    expect 0 "$listed" "$rig: $found" elsewhere "$here/twice linked" "$rig"
    expect 0 "$listed" "$rig: $found" elsewhere "$list" "$rig"
}

# A tree with the command and the names of the crates alone, and an rt that notes its words and does what the real one does: it builds the
# program, and runs it on the input. It waits where there is a file `wait`, fails where there is one `broken`, builds nothing where there is
# one `linkless`, and prints another listing where there is one `astray`.
stand_in() {
    mkdir -p "$here/tree/bin"
    cp -r "$command" commands crates.txt "$here/tree"
    sed -n 's/^\([a-z0-9_]*\)[a-z ]*:.*/\1/p' crates.txt | while read -r crate; do
        mkdir -p "$here/tree/crates/$crate/src"
    done
    cp "crates/$crate/stdin" "crates/$crate/stdout" "$here/tree/crates/$crate"
    cat > "$here/tree/bin/rt" << END
#!/bin/sh
cmp - stdin || exit 1
at=\${PWD##*/}
cd ../..
echo "\$* \$at" >> calls
mkdir -p crates/$crate/out
[ -e linkless ] || cp "$program" crates/$crate/out/
[ ! -e broken ] || { echo 'rt: the program was stopped' >&2; exit 1; }
for i in 1 2; do echo 'logic=proved functions=9' >&2; done
while [ -e wait ]; do sleep 0.1; done
for i in \$(seq $((crates - 2))); do echo "logic=proved functions=\$i" >&2; done
[ ! -e astray ] || echo packets=0
cat crates/$crate/stdout
END
    chmod +x "$here/tree/bin/rt"
    list=$here/tree/$command
    built=$here/tree/crates/$crate/out/$crate
    PATH=$here/tree/bin:$PATH
}

# calls N WHEN: rt was called N times by now
calls() {
    tried=$((tried + 1))
    touch "$here/tree/calls"
    [ "$(grep -cx "run $crate" "$here/tree/calls")" = "$1" ] || wrong "rt run was not called $1 times in crates/$crate" "$2"
}

# While it builds it says how far it is, and rt does not take the input.
tells() {
    touch "$here/tree/wait"
    piped "$rig" > "$here/out" 2> "$here/err" &
    for ((i = 0; i < 100; i++)); do
        ! grep -qx "$command: proving and building, once: crate 3 of $crates" "$here/err" 2> /dev/null || break
        sleep 0.1
    done
    [[ $(tail -1 "$here/err") == *"once: crate 3 of $crates" ]] || wrong 'it does not say how far it is' "$(cat "$here/err")"
    rm "$here/tree/wait"
    wait $! || wrong 'a status other than 0' 'a stream from standard input that waits for the build'
    cmp -s "$here/out" "$listed" || wrong 'another listing' 'a stream from standard input that waits for the build'
    [ "$(grep -c "once: crate .* of $crates" "$here/err")" = "$crates" ] || wrong 'not a line a crate' "$(cat "$here/err")"
}

# Which changes have it built again, and which do not.
rebuilds() {
    expect 0 "$listed" "$rig: $found" "$list" "$rig"
    calls 1 'for a program that is built'
    for source in crates.txt crates/search/src "crates/$crate/src"; do
        find "$here/tree/crates" "$here/tree/crates.txt" -exec touch -d '2 hours ago' {} +
        touch -d '1 hour ago' "$built"
        expect 0 "$listed" "$rig: $found" "$list" "$rig"
        touch -d '30 minutes ago' "$here/tree/$source"
        before=$(wc -l < "$here/tree/calls")
        expect 0 "$listed" "$rig: $found" "$list" "$rig"
        expect 0 "$listed" "$rig: $found" "$list" "$rig"
        calls $((before + 1)) "where $source is newer, once"
    done
    before=$(wc -l < "$here/tree/calls")
    touch "$here/tree/crates/lamps/src"
    mkdir -p "$here/tree/crates/search/out/rlib"
    expect 0 "$listed" "$rig: $found" "$list" "$rig"
    calls "$before" 'where a crate that it does not stand on is newer, or what rt made'
    rm "$built"
    expect 0 "$listed" "$rig: $found" "$list" "$rig"
    calls $((before + 1)) 'where the program is gone'
}

fails() {
    cp /bin/false "$built"
    expect 3 $nothing "$rig: the program failed: there is no listing" "$list" "$rig"
    rm -r "$here/tree/target" "$built"
    touch "$here/tree/broken"
    for _ in 1 2; do
        expect 3 $nothing "the program could not be built: */target/$command.log says why" "$list" "$rig"
        grep -q 'the program was stopped' "$here/tree/target/$command.log" || wrong 'does not say why' "target/$command.log"
    done
    mv "$here/tree/broken" "$here/tree/astray"
    expect 3 $nothing "the program could not be built: */target/$command.log says why" "$list" "$rig"
    grep -q 'stdout differ' "$here/tree/target/$command.log" || wrong 'does not say why' "target/$command.log"
    mv "$here/tree/astray" "$here/tree/linkless"
    expect 3 $nothing "the program could not be built: */target/$command.log says why" "$list" "$rig"
    rm -r "$here/tree/target" && touch "$here/tree/target"
    expect 3 $nothing 'the program cannot be built: */target cannot be written' "$list" "$rig"
    rm "$here/tree/bin/rt"
    without_rt=$(echo "$PATH" | tr : '\n' | while read -r dir; do [ -x "$dir/rt" ] || echo "$dir"; done | paste -sd:)
    PATH=$without_rt expect 3 $nothing '*and rt, the Rattle toolchain, is not installed' "$list" "$rig"
}

builds() {
    stand_in
    "$list" --help > "$here/out"
    expect 2 $nothing 'nix: no such file*' "$list" nix
    expect 1 $nothing '*: longer than 65536 bytes: *' "$list" "$here/link"
    calls 0 'before arguments and input are looked at'
    tells
    calls 1 'for a program that is not built'
    rebuilds
    fails
}

try_all() {
    list=$root/$command
    crate=${command//-/_}
    program=$root/crates/$crate/out/$crate
    streams
    lengths
    arguments
    inputs
    outputs
    builds
    [ "$failed" = 0 ] && echo "the command $command: $tried runs with the status, the listing and the words due"
    exit "$failed"
}
