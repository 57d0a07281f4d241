#!/usr/bin/env bash
# Runs routeplan (as `rt run` leaves it, or $ROUTEPLAN) on document 01's run cases and at the edges of its input: a job in
# pieces through a pipe, an empty one, one cut short, one followed by more bytes than the program reads.
cd "$(dirname "$0")" || exit 2
program=${ROUTEPLAN:-../crates/routeplan/out/routeplan}
[ -x "$program" ] || { echo "no program $program; make it by rt run < stdin in crates/routeplan" >&2; exit 2; }
failed=0

job() { python3 job.py encode; }
terminals() { for i in $(seq "$1"); do echo "terminal $i 0"; done; }
keepouts() { for i in $(seq "$1"); do echo "keepout $i $i -5 5"; done; }

# expect NAME LAST-LINE: what the program writes for the job on standard input ends so; a refusal is all that it writes
expect() {
    local wrote
    wrote=$("$program"; echo end)
    case $2 in
    refused*) [ "$wrote" = "$2"$'\n'end ] ;;
    *) [ "$(tail -n 2 <<<"$wrote" | head -n 1)" = "$2" ] ;;
    esac || { echo "$1: got $(tail -n 2 <<<"$wrote" | head -n 1)"; failed=$((failed + 1)); }
}

six='allowed 12 farthest 12 total 16 worst 12'
expect M6 "$six" <m6.job
expect M7 'allowed 12 farthest 12 total 22 worst 12' <m7.job
expect M8 "$six" <m8.job
expect M9 'allowed 6 farthest 12 total 16 worst 12' <m9.job
expect M10 'allowed 10 farthest 10 total 15 worst 10' <m10.job
expect M11 'allowed 0 farthest 0 total 0 worst 0' <m11.job
expect M12 'allowed 3 farthest 3 total 3 worst 3' <m12.job
expect 'pieces through a pipe' "$six" < <(for at in $(seq 0 5 45); do tail -c "+$((at + 1))" m6.job | head -c 5; sleep 0.02; done)

expect '120 terminals' 'allowed 120 farthest 120 total 120 worst 120' < <(terminals 120 | job)
expect '120 terminals and 64 keepouts' 'allowed 120 farthest 120 total 7260 worst 120' < <({ terminals 120; keepouts 64; } | job)
expect '121 terminals' 'refused 2' < <(terminals 121 | job)
expect '65 keepouts' 'refused 2' < <(keepouts 65 | job)
expect '1000000' 'allowed 2000000 farthest 2000000 total 2000000 worst 2000000' < <(echo 'terminal -1000000 1000000' | job)
expect '1000001' 'refused 5' < <(echo 'terminal 0 1000001' | job)
expect 'equal keepout bounds' "$six" < <({ cat m6.txt; echo 'keepout 7 7 9 9'; } | job)
expect 'lower above upper' 'refused 6' < <({ cat m6.txt; echo 'keepout 8 7 9 9'; } | job)

expect 'empty' 'refused 1' </dev/null
expect '31 bytes' 'refused 1' < <(head -c 31 m11.job)
expect 'a byte short' 'refused 1' < <(head -c 47 m6.job)
expect 'a byte more' 'refused 1' < <(cat m6.job; printf x)
expect 'the longest job and a byte' 'refused 1' < <({ terminals 120; keepouts 64; } | job; printf x)
expect 'a long file' 'refused 1' < <(cat m6.job; head -c 1000000 /dev/zero)
expect 'a long file, 121 terminals' 'refused 2' < <(terminals 121 | job; head -c 1000000 /dev/zero)

echo "$failed failed"
[ "$failed" = 0 ]
