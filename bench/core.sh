# Measures the core by itself: how long the threads of `likes run` take for 4,000,000 likes of one page by four
# submitters, with the page marked as split and not, in requests per second by the number of workers and the
# coordinator's turns.
#
# The clock runs from the start of the run's first thread to the end of its last one, as bench/stamps.c, loaded before
# the C library, sees them. That covers the turns of the workers and the coordinator, the submitters' pushes, the phases
# and the logs, but not reading files, gathering answers or writing the report.
#
# usage: bench/run core [FOLDER [REQUESTS]]
#   FOLDER    keeps the workload for the next time; without it, the workload is temporary
#   REQUESTS  how many requests in all (4000000)
#
# Each number is the best of three runs. It takes about two minutes, and needs a C compiler.

requests=${2:-4000000}
"${CC:-cc}" -shared -fPIC -O2 -o "$work/stamps.so" "$root/bench/stamps.c" -ldl ||
    fail "bench/stamps.c could not be built"
folder=${1:-$work}
for split in 1 0; do
    workload "$folder/core-$requests-$split" submitters=4 requests="$requests" pages=1 looks=0 split="$split"
done
build_likes
files="pages.csv $(request_files 4)"

# The seconds from the start of the first thread to the end of the last one, in a run with these numbers of workers and
# turns. The threads that read the files and make the report don't count.
threads_seconds() {
    STAMPS=$work/stamp LD_PRELOAD=$work/stamps.so \
        likes run --workers "$1" --turns "$2" $files >/dev/null || fail "the run failed"
    cat "$work/stamp"
}

echo "requests per second, in millions, of $requests likes by four submitters of one page"
printf '%-8s %8s %10s %10s %10s %10s\n' page workers '--turns 0' 100 1000 1000000
for split in 1 0; do
    if [ "$split" = 1 ]; then page=split; else page=unsplit; fi
    cd -- "$folder/core-$requests-$split" || exit 3
    for workers in 1 2 4; do
        printf '%-8s %8d' "$page" "$workers"
        for turns in 0 100 1000 1000000; do
            for _ in 1 2 3; do
                took=$(threads_seconds "$workers" "$turns") || exit
                echo "took $took"
            done >"$work/seconds"
            awk -v took="$(least took <"$work/seconds")" -v requests="$requests" \
                'BEGIN { printf " %10.2f", requests / took / 1000000 }'
        done
        echo
    done
    cd - >/dev/null || exit 3
done
