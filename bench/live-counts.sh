# Counts the instructions and the cache misses of a request: of the live core and of other systems that `bench/run live`
# measures, and of a client of a shared service, with a call for each like (`client`) or for 64 (`client,row`). It is
# one thread of four, in a split phase, under valgrind, whose numbers hardly depend on what else runs. It simulates one
# core's caches, of 32 KiB and 1 MiB. The cost of cache lines that several threads write is not in these numbers.
#
# usage: bench/run live-counts [PREFIX]
#   PREFIX  where tools/liblikes installed the library; by default a new, temporary one
#
# It takes two minutes, and needs a C compiler and valgrind.

library_at "${1:--}"
compile live
compile live-clients

# What a request costs by a program that runs so many rows: instructions, and misses of the small cache and of the large
# one.
of_rows() {
    rows=$1
    shift
    valgrind --tool=callgrind --callgrind-out-file=/dev/null --toggle-collect='counted_rows*' --cache-sim=yes \
        --D1=32768,8,64 --LL=1048576,16,64 "$@" 2>&1 |
        awk -v requests=$((rows * 64)) '/Collected/ { read = 1
            printf "%6.1f %6.2f %6.2f", $4 / requests, ($8 + $9) / requests, ($11 + $12) / requests }
            END { if (!read) printf "%20s", "-" }'
}

counted() {
    of_rows "$4" "$work/live" rows "$1" "$2" "$3" "$4"
}

printf '%-12s %21s %21s %21s %21s\n' '' 'one page, likes' 'one page, looks' 'Zipf 1.4, likes' 'Zipf 1.4, looks'
for system in atomic mutex sharded look glance look,single locked atomic,any writer,any; do
    # Fewer looks than about half of the room, at which the service ends the phase.
    case $system in
    look*) rows=24 ;;
    *) rows=256 ;;
    esac
    printf '%-12s' "$system"
    for exponent in -1 1.4; do
        printf '  %s' "$(counted "$system" "$exponent" 0 256)" "$(counted "$system" "$exponent" 100 $rows)"
    done
    echo
done
for system in client client,row; do
    printf '%-12s' "$system"
    for exponent in -1 1.4; do
        printf '  %s' "$(of_rows 256 "$work/live-clients" "$system" "$exponent" 256)" "$(printf '%20s' -)"
    done
    echo
done
