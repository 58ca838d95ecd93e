#!/usr/bin/env bash
# The line program: ./seats.sh <INPUT >OUTPUT, or ./seats.sh --help. It is proved and built where it is missing or older than
# its crates, and runs on the toolchain's C library, under the toolchain's emulator where the machine is no x86-64.
set -euo pipefail
cd "$(dirname "$0")"

usage() {
    cat <<'HELP'
usage: ./seats.sh <INPUT >OUTPUT

The table inside a load balancer, at the terminal: each line that is read from
standard input is a command, and gets one line on standard output.

  open A ID..   ok N                        a new table of A seats, N servers
  seat ID       ok SEAT                     a server gets the seat left last
  out ID        ok SEAT                     a server leaves; only its keys move
  find KEY      ok SEAT SERVER DRAWS WALKS  where a key is, and how it got there

DRAWS are the hashes that the key took. A seat out of use has a successor, the
seat that took its place when it left: WALKS are those that the key followed.

A is 1 to 2048, an ID 1 to 4294967295, a KEY 0 to 18446744073709551615, in
decimal; one space parts the words. A line that is refused changes nothing, and
is answered `no NUMBER`:

   1 SIZE     A is not 1 to 2048, or no table is open
   2 COUNT    an open with no id, or with more than A ids
   3 ID       an id is 0
   4 TWICE    an id stands twice in the list, or is seated already
   5 DAMAGED  the table is not sound: in C only
   6 FULL     a server in every seat
   7 ABSENT   the id to take out is not seated
   8 LAST     the only server does not leave
   9 ROOM     more than 4096 bytes of input: this answer alone
  10 FORM     the bytes are no saved table: in C only
  11 LINE     no such command

The answers come when the input has ended: at a terminal, with control-D. The
first run proves the program before it builds it, which takes some minutes, and
tells each crate on standard error. To try: ./seats.sh <crates/seats/stdin
To read on: man -l man/seats.1, and for C man -l man/steamacorn.3
HELP
}

# prove LOG: a line for each crate as rt proves it, with how many are proved by then; one that rt finds unchanged has none. LOG gets all that rt says. What rt
# runs at the end reads nothing.
prove() {
    local stands_on crates name='' line
    stands_on=$(awk -F ':' '/^[a-z]/ { sub(/ .*/, "", $1); needs[$1] = $2 }
        function counted(name, on, i, sum) {
            if (!(name in needs) || name in seen) return 0
            seen[name] = sum = 1
            for (i = split(needs[name], on, " "); i > 0; i--) sum += counted(on[i])
            return sum
        }
        END { for (name in needs) { split("", seen); print name, counted(name) } }' crates.txt)
    crates=$(sed -n 's/^seats //p' <<<"$stands_on")
    echo "seats.sh: proving what is not proved yet of $crates crates, and building: some minutes the first time" >&2
    (cd crates/seats && rt run) 2>&1 </dev/null | tee "$1" | while IFS= read -r line; do
        if [[ $line =~ ^crate\ ([a-z0-9_]+):\ modules\ .*\ checked=([0-9]+)$ ]]; then
            name=${BASH_REMATCH[1]}
            [ "${BASH_REMATCH[2]}" != 0 ] || name=
        elif [[ $line == logic=proved* && -n $name ]]; then
            echo "seats.sh: $name proved ($(sed -n "s/^$name //p" <<<"$stands_on") of $crates)" >&2
            name=
        fi
    done
}

case ${1-} in
'') ;;
-h | --help) usage; exit ;;
*) echo "seats.sh: it takes no '$1': see ./seats.sh --help" >&2; exit 2 ;;
esac

program=crates/seats/out/seats
if [ ! -f "$program" ] || [ -n "$(find crates crates.txt -name out -prune -o -type f -newer "$program" -print -quit)" ]; then
    begun=$(mktemp) said=$(mktemp)
    trap 'rm -f "$begun" "$said"' EXIT
    prove "$said" || { cat "$said" >&2; exit 1; }
    [ -f "$program" ] || { echo "seats.sh: all is proved, and $program is gone: remove crates/seats/out and try again" >&2; exit 1; }
    touch -r "$begun" "$program" # rt leaves it as it is where no crate says anything new; what was saved meanwhile is newer
    rm "$begun" "$said"
fi
kit=$(dirname "$(rt doc)")
emulator=$kit/on/$(uname -m)/toolchain/bin/qemu-x86_64
[ -x "$emulator" ] || emulator=
[ -n "$emulator" ] || [ "$(uname -m)" = x86_64 ] || emulator=$(command -v qemu-x86_64) || { echo "seats.sh: no emulator for x86-64 programs here: install qemu-user" >&2; exit 1; }
exec ${emulator:+"$emulator"} "$kit/toolchain/lib/ld-linux-x86-64.so.2" --library-path "$kit/toolchain/lib" "$program"
