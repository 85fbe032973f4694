# Measures this machine: how long a whole replay and whole runs take, from files to a report that goes to /dev/null,
# their peak memory, and how many phases they have. The first time it proves and builds the program.
#
# usage: bench/run machine [REQUESTS]
#   REQUESTS  how many requests in all, 1 to 8000000 (1000000)
#
# The workload: eight request files, half of the requests looks, 1,000 users, and 1,000 pages by Zipf's law, 16 of them
# marked. Seconds are the best of three; they, and a run's phases, depend on what else the machine does. It takes 15 to
# 30 seconds. Memory needs GNU time.

requests=${1:-1000000}
case $requests in
*[!0-9]* | 0* | ????????*) fail "$requests: not a whole number from 1 to 8000000" ;;
esac
[ "$requests" -le 8000000 ] || fail "$requests: not a whole number from 1 to 8000000"
workload "$work/load" requests="$requests"
build_likes
cd -- "$work/load" || exit 3
files="pages.csv $(request_files 8)"

# How many phases there are in the replies of a report.
phases() {
    awk -F, '$1 == "reply" && $4 > last { last = $4 } END { print last + 1 }'
}

for program in 'replay 4' 'run 1' 'run 2' 'run 4' 'run 8'; do
    word=${program% *}
    workers=${program#* }
    for _ in 1 2 3; do
        took=$(seconds_of likes "$word" --workers "$workers" $files) || exit
        echo "took $took"
    done >"$work/seconds"
    memory=$(memory_of likes "$word" --workers "$workers" $files) || exit
    likes "$word" --workers "$workers" $files >"$work/report" || fail "$program failed"
    echo "$program $(least took <"$work/seconds") $memory $(phases <"$work/report")"
done >"$work/table"

echo "$requests requests on $(getconf _NPROCESSORS_ONLN) processors"
awk -v requests="$requests" '
BEGIN { printf "%-6s %8s %8s %11s %16s %7s\n", "word", "workers", "seconds", "requests/s", "bytes a request", "phases" }
{
    memory = $4 == "-" ? "-" : sprintf("%.0f", $4 * 1024 / requests)
    printf "%-6s %8d %8.2f %11.0f %16s %7d\n", $1, $2, $3, requests / $3, memory, $5
}' "$work/table"
