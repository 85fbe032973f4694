# Measures the live core, called from C, beside six plain ways to count likes, all in one process (bench/live.c): an
# atomic number for each page, relaxed (atomic) or sequentially consistent (seqcst); a lock for each page (mutex);
# counters of each thread's own, which a look adds up (sharded); and transactions over the user's and the page's record,
# by two-phase locking (2pl) or optimistic validation (occ). Each has a table of last likes.
#
# Of the live core it measures rows of 64 requests by likes_seat_run, with a split phase every ms: looks that may wait,
# with phases changed by the seats' threads too (look) or only by the driver's thread (look,thread); looks that never
# wait (glance), also with a split phase every 20 ms (glance,20ms); and single calls of a seat that the thread holds
# (look,single). A page is hot if it gets 100 likes in a ms.
#
# It also measures threads that hold no seat, of a service with 16 seats for each processor, at most 64. They like by
# single calls, each with a seat's lock, where each thread has users of its own (locked), and where it serves all users
# in turn (locked,any). And they like by writers, which keep likes for up to a ms (writer,any). Beside these are threads
# that serve all users, with a table of last likes that all of them write: an atomic number for each page, relaxed
# (atomic,any) or sequentially consistent (seqcst,any), and counters of each thread's own (sharded,any).
#
# usage: bench/run live [PREFIX] [OPTION...]
#   PREFIX             where tools/liblikes installed the library; by default, or with -, a new, temporary one
#   --pages N          how many pages, 1 to 1000000 (1000)
#   --users N          how many users, 64 to 16000000 (1000000)
#   --ring N           how many requests a thread cycles through, a power of two from 64 to 16777216 (65536, or as many
#                      as pages if that is more, up to 1048576)
#   --threads LIST     how many threads, each 1 to 64 ('1 2 4'). A list is one argument, with spaces in it
#   --exponents LIST   of Zipf's law for the pages, each 0 to 10, or one for a single page ('one 0 1 1.4 2')
#   --looks LIST       how many of a hundred requests are looks, each 0 to 100 ('0 10 50')
#   --kinds LIST       the systems, by their names above (all). Ratios are to the first
#   --seconds S        how many seconds a measurement lasts, 0.001 to 1000 (0.2)
#   --times N          how often each is made, 1 to 99 (5)
#   --median           print the median, and the median of the ratios, instead of the best
#   --scattered        popular pages are anywhere among the others, not the first ones
#   --file FILE        write the numbers to FILE too, as comma-separated values
#
# It prints millions of requests per second, the ratio, and the processor time of a request in ns, without the driver's
# thread. It prints which part of the looks waited, and for how long, and which part of the likes went to the pages that
# the live core had split at the end, and to the 64 most popular ones. After each measurement it checks the counts.
# Without options it takes eighteen minutes. It needs a C compiler. Nothing else should run meanwhile.

prefix=-
case ${1:-} in
'' | --*) ;;
*)
    prefix=$1
    shift
    ;;
esac
library_at "$prefix"
compile live
echo "$(getconf _NPROCESSORS_ONLN) processors"
"$work/live" "$@"
