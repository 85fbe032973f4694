# Measures the cost of opening a service of the live core and of changing its phases (bench/live-phases.c).
#
#   - Opening a service with 1,000,000 pages and users, 16 seats and room for 256 looks, beside allocating and touching
#     12 MB, the size of its counts and last likes: the ratio of the times, and the memory beside these 12 MB, both the
#     peak and what it keeps. It does the same with 1 and with 64 seats and as many pages.
#   - A change of phase with 64 split pages, each liked at each seat: the turns of driver and seats, all by one thread,
#     with 1, 16 and 64 seats and 1,000 pages, and with 16 and 64 seats and 1,000,000 pages.
#   - A seat that retires and comes back in a joined phase, alone and beside three threads at work, and into a split
#     phase.
#
# usage: bench/run live-phases [PREFIX]
#   PREFIX  where tools/liblikes installed the library; by default a new, temporary one
#
# Times are processor times: medians, or means for the returns in a joined phase. It takes some seconds, and needs a C
# compiler. Little else should run meanwhile.

library_at "${1:--}"
compile live-phases
"$work/live-phases"
