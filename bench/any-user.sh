# Measures likes by threads that serve any user: by an atomic number for each page, by counters of each thread's own, and
# by single calls and writers of the live core, each with a table of last likes (`bench/run live`; EMBEDDING.md, "When
# to use it"). One thread and four, 1,000,000 users, 1,000 pages, by Zipf's law and one alone, medians of nine.
#
# usage: bench/run any-user [PREFIX]
#   PREFIX   where tools/liblikes installed the library; by default a new, temporary one
#
# It prints millions of likes a second, the ratio to the atomic number, and the processor time of a like. It takes two
# minutes. It needs a C compiler. Nothing else should run meanwhile.

"$root/bench/run" live "${1:--}" --kinds 'seqcst,any sharded,any locked,any writer,any' --looks 0 --threads '1 4' \
    --exponents 'one 1.4 0.8' --times 9 --median
