// Openings for cgo. C may not be given pointers in memory of Go, so arrays are told apart from the numbers.
#pragma once

#include <likes.h>

static likes_options with_arrays(const likes_options *numbers, const uint64_t *counts, size_t pages,
                                 const uint32_t *marks, size_t marks_len, const uint32_t *lasts, size_t lasts_len) {
	likes_options options = *numbers;
	options.counts = counts;
	options.pages = pages;
	options.marks = marks;
	options.marks_len = marks_len;
	options.lasts = lasts;
	options.lasts_len = lasts_len;
	return options;
}
