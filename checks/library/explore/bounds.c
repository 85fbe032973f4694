/* Where the memory of the explored objects begins and ends: it is linked before them, and behind them. */
#ifdef ENDS
char explore_data_end[8] = {1}, explore_bss_end[8];
#else
char explore_data_begin[8] = {1}, explore_bss_begin[8];
#endif
