# Measures what hot pages gain on this machine: a run whose popular pages are marked in the file, and one whose pages
# are not, without --hot and with it. The first time it proves and builds the program.
#
# usage: bench/run hot [REQUESTS [WORKERS]]
#   REQUESTS  how many requests in all (2000000)
#   WORKERS   how many workers (4)
#
# The workload: eight request files, a tenth of the requests looks, 1,000 users, and 1,000 pages by Zipf's law with
# exponent 1.4, so that the first page has a third of all likes. Seconds are the best of five runs of the whole program.
# One more run gives the phases: how many there are, how many have hot pages, and how many hot pages these have on
# average. Seconds, phases and hot pages depend on what else the machine does.

requests=${1:-2000000}
workers=${2:-4}
for split in 0 16; do
    workload "$work/load-$split" requests="$requests" looks=0.1 exponent=1.4 split="$split"
done
build_likes
files="pages.csv $(request_files 8)"

# A line of the table: how many pages are marked, the value of --hot, and what was measured.
measure() {
    cd -- "$work/load-$1" || exit 3
    hot=$2
    set -- likes run --workers "$workers"
    [ "$hot" = - ] || set -- "$@" --hot "$hot"
    for _ in 1 2 3 4 5; do
        took=$(seconds_of "$@" $files) || exit
        echo "took $took"
    done >"$work/seconds"
    "$@" $files >"$work/report" || fail "this failed: $*"
    echo "$(least took <"$work/seconds") $(seen <"$work/report")"
}

# How many phases a report has, how many of them had hot pages, and how many these had on average.
seen() {
    awk -F, '
    $1 == "reply" && $4 > last { last = $4 }
    $1 == "hot" && !($4 in hot) { hot[$4]; phases++ }
    $1 == "hot" { pages++ }
    END { printf "%d %d %.1f\n", last + 1, phases, phases ? pages / phases : 0 }'
}

echo "$requests requests, $workers workers, $(getconf _NPROCESSORS_ONLN) processors"
printf '%-7s %8s %8s %8s %16s %15s\n' marked --hot seconds phases 'with hot pages' 'pages in each'
for line in '16 -' '0 -' '0 20' '0 100' '0 500'; do
    marked=${line% *}
    hot=${line#* }
    row=$(measure "$marked" "$hot") || exit
    echo "$marked $hot $row"
done | awk '{ printf "%-7s %8s %8.2f %8d %16d %15s\n", $1, $2, $3, $4, $5, $6 }'
