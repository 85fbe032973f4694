# Measures `likes run` and `likes replay` beside unproved programs that do the same: the elapsed time of the whole
# program, from files to report, its processor time, how often the kernel changed its threads, and its peak memory. The
# others are bench/peer.rs, with a thread for each request file and an atomic number for each page or one lock around all
# counts, and Redis over loopback (bench/redis), of which only the server's part is timed. First it compares the final
# counts and last likes of all, and the replies of all but Redis, except for their phases and what looks show. Reports go
# to /dev/null.
#
# usage: bench/run compare [--busy N] [FOLDER [SUBMITTERS [REQUESTS [OPTION...]]]]
#   --busy N    beside N loops that take a processor each
#   FOLDER      keeps the workload for the next time; without it, the workload is temporary
#   SUBMITTERS  how many request files (8)      REQUESTS  how many requests in all (2000000)
#   OPTIONs are those of `likes run` and `likes replay`, such as --workers 1 --turns 0
#
# The workload: 1,000 pages by Zipf's law with exponent 1.4, 16 of them marked, half the requests looks, and 1,000,000
# users. The programs run in turns, each nine times. Seconds, processor time (user and system) and changes of threads
# (voluntary and forced) are medians, and ratios are to the peer with atomics. Without rustc or Redis it says so and skips
# them; processor time, changes and memory need GNU time.

busy=0
if [ "${1:-}" = --busy ]; then
    busy=${2:?how many processors}
    shift 2
fi
users=1000000
submitters=${2:-8}
requests=${3:-2000000}
folder=${1:-$work}/$submitters-$requests-$users
if [ $# -ge 3 ]; then shift 3; else shift $#; fi
options=$*

workload "$folder" submitters="$submitters" requests="$requests" users="$users" exponent=1.4
build_likes
peers=
if command -v rustc >/dev/null; then
    rustc --edition 2021 -O -o "$work/peer" "$root/bench/peer.rs" || exit
    peers="atomics mutex"
else
    echo "rustc is not installed: the peer is skipped"
fi
programs="$peers run replay"
cd -- "$folder" || exit 3
files="pages.csv $(request_files "$submitters")"

# The command of a program.
words_of() {
    case $1 in
    run | replay) echo "likes $1 --users $users $options $files" ;;
    *) echo "peer $1 $users $files" ;;
    esac
}

# A report's rows without phases and without what looks show: a look that waited in a stash shows more.
agreed() {
    awk -F, -v OFS=, '$1 == "reply" { $4 = $6 = $7 = "" } { print }'
}

first=
for program in $programs; do
    # shellcheck disable=SC2046 # here and below, each word is one
    $(words_of "$program") >"$work/report" || fail "$program failed"
    agreed <"$work/report" >"$work/rows"
    if [ -z "$first" ]; then
        first=$program
        mv -- "$work/rows" "$work/first"
    else
        cmp -s "$work/first" "$work/rows" || fail "the reports of $first and $program differ"
    fi
done
rm -f -- "$work/report" "$work/rows"

# Takes a processor until the work folder is gone.
spin() {
    while [ -d "$work" ]; do
        turns=0
        while [ "$turns" -lt 100000 ]; do turns=$((turns + 1)); done
    done
}

loops=
i=0
while [ "$i" -lt "$busy" ]; do
    spin &
    loops="$loops $!"
    i=$((i + 1))
done
trap 'kill $loops 2>/dev/null; rm -rf -- "$work"' EXIT

for _ in 1 2 3 4 5 6 7 8 9; do
    for program in $programs; do
        cost=$(cost_of $(words_of "$program")) || exit
        echo "$program $cost"
    done
done >"$work/costs"
for program in $programs; do
    echo "$program $(medians_of "$program" 4 <"$work/costs")"
done >"$work/table"

if "$root/bench/redis" "$users" "$work/redis" $files >"$work/answer"; then
    grep -E '^(page|user),' "$work/first" | cmp -s - "$work/redis/counts" || fail "Redis and $first differ"
    sed 's/\([^ ]*\) /redis \1 - - /' "$work/answer" >>"$work/table"
else
    cat "$work/answer"
fi

[ "$busy" = 0 ] || echo "$busy of $(getconf _NPROCESSORS_ONLN) processors busy"
awk -v requests="$requests" '
# A number in this format after division, or a dash where it is not known.
function shown(format, value, by) {
    return value == "-" || !by ? "-" : sprintf(format, value / by)
}
BEGIN {
    row = "%-8s %8s %6s %13s %6s %8s %11s %11s\n"
    printf row, "program", "seconds", "ratio", "processor, s", "ratio", "changes", "memory, MB", "requests/s"
}
$1 == "atomics" { elapsed = $2; processor = $3 }
{
    printf row, $1, shown("%.3f", $2, 1), shown("%.2f", $2, elapsed), shown("%.3f", $3, 1), shown("%.2f", $3, processor),
        shown("%d", $4, 1), shown("%.0f", $5, 1024), shown("%.0f", requests, $2)
}' "$work/table"
