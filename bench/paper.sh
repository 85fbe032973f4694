# Measures the LIKE workload of the paper on phase reconciliation (OSDI 2014) at its size, 1,000,000 users and 1,000,000
# pages, and draws it: requests per second by the share of likes, by how popular the first pages are, and by threads.
#
# The live core, whose looks at split pages wait (look) or never wait (glance), runs beside an atomic number for each
# page, a lock for each page, counters of each thread's own, and the two schemes that the paper compares with: two-phase
# locking of the user's and the page's record (2pl), and optimistic validation of both (occ). All are in one process,
# with the same users and requests (bench/live.c).
#
# usage: bench/run paper FOLDER [PREFIX [OPTION...]]
#   FOLDER   gets likes.csv, exponents.csv and threads.csv, and a picture of each
#   PREFIX   where tools/liblikes installed the library; by default, or with -, a new, temporary one
#   OPTION   of `bench/run live`: --seconds (1), --times (3), --kinds and others
#
# The popular pages are anywhere among the others. It takes half an hour, and needs a C compiler and Python 3. Nothing
# else should run meanwhile.

[ $# -ge 1 ] || fail "usage: bench/run paper FOLDER [PREFIX [OPTION...]]"
mkdir -p -- "$1" || exit 3
folder=$(CDPATH='' cd -- "$1" && pwd) || exit 3
shift
library_at "${1:--}"
[ $# -eq 0 ] || shift
most=$(getconf _NPROCESSORS_ONLN)
threads=$(awk -v most="$most" 'BEGIN { for (n = 1; n < most; n *= 2) printf "%d ", n; print most }')

# Makes the figure by what is changed, with these options of its own.
figure() {
    by=$1
    shift
    "$root/bench/run" live "$prefix" --pages 1000000 --users 1000000 --scattered --median --seconds 1 --times 3 \
        --kinds 'atomic mutex 2pl occ sharded look glance' --threads "$most" --exponents 1.4 --looks 0 \
        --file "$folder/$by.csv" "$@" || exit
    "$root/bench/draw" lines "$folder/$by.csv" "$by" >"$folder/$by.svg" || exit
}

figure likes --looks '0 10 25 50 75 90' "$@"
figure exponents --exponents '0 0.5 1 1.2 1.4 1.7 2' "$@"
figure threads --threads "$threads" "$@"
