/* The options of bench/live.c, such as `--pages 1000 --threads '1 2 4'`. */
#ifndef LIVE_OPTIONS_H
#define LIVE_OPTIONS_H

#include <stdbool.h>
#include <stdint.h>
#include <stdio.h>
#include <stdlib.h>
#include <string.h>

enum { MOST_PAGES = 1000000, MOST_USERS = 16000000, MOST_RING = 1 << 24, MOST_THREADS = 64 };
enum { MOST_TIMES = 99, MOST_WORDS = 24 };

/* Words in a list, which are separated by spaces. */
typedef struct {
    const char *words[MOST_WORDS];
    uint32_t length;
} list;

typedef struct {
    uint32_t pages, users, ring, times, milliseconds;
    list threads, exponents, looks, kinds;
    bool is_median, is_scattered;
    const char *file;
} options;

static void fail(const char *text) {
    fprintf(stderr, "bench/run live: %s\n", text);
    exit(1);
}

static double number_in(const char *word, double least, double most, const char *text) {
    char *end;
    double number = strtod(word, &end);
    if (end == word || *end != 0 || !(number >= least && number <= most))
        fail(text);
    return number;
}

static list words_in(const char *text) {
    list made = {{NULL}, 0};
    char *copy = strdup(text), *rest = NULL;
    for (char *word = strtok_r(copy, " ", &rest); word != NULL; word = strtok_r(NULL, " ", &rest)) {
        if (made.length == MOST_WORDS)
            fail("a list has at most 24 words");
        made.words[made.length++] = word;
    }
    if (made.length == 0)
        fail("a list is empty");
    return made;
}

/* Takes an option with a value, and returns whether there is one of this name. */
static bool takes(options *to, const char *name, const char *value) {
    if (strcmp(name, "--pages") == 0)
        to->pages = (uint32_t)number_in(value, 1, MOST_PAGES, "how many pages? 1 to 1000000");
    else if (strcmp(name, "--users") == 0)
        to->users = (uint32_t)number_in(value, MOST_THREADS, MOST_USERS, "how many users? 64 to 16000000");
    else if (strcmp(name, "--ring") == 0)
        to->ring = (uint32_t)number_in(value, 64, MOST_RING, "how long a ring? 64 to 16777216, a power of two");
    else if (strcmp(name, "--times") == 0)
        to->times = (uint32_t)number_in(value, 1, MOST_TIMES, "how many times? 1 to 99");
    else if (strcmp(name, "--seconds") == 0)
        to->milliseconds = (uint32_t)(1000 * number_in(value, 0.001, 1000, "how many seconds? 0.001 to 1000") + 0.5);
    else if (strcmp(name, "--threads") == 0)
        to->threads = words_in(value);
    else if (strcmp(name, "--exponents") == 0)
        to->exponents = words_in(value);
    else if (strcmp(name, "--looks") == 0)
        to->looks = words_in(value);
    else if (strcmp(name, "--kinds") == 0)
        to->kinds = words_in(value);
    else if (strcmp(name, "--file") == 0)
        to->file = value;
    else
        return false;
    return true;
}

/* Reads the options. The defaults are those that bench/run live -h tells. */
static options options_in(int count, char **words, const char *kinds) {
    options made = {.pages = 1000, .users = 1000000, .times = 5, .milliseconds = 200};
    made.threads = words_in("1 2 4");
    made.exponents = words_in("one 0 1 1.4 2");
    made.looks = words_in("0 10 50");
    made.kinds = words_in(kinds);
    for (int at = 1; at < count; at++) {
        if (strcmp(words[at], "--median") == 0)
            made.is_median = true;
        else if (strcmp(words[at], "--scattered") == 0)
            made.is_scattered = true;
        else if (at + 1 == count || !takes(&made, words[at], words[at + 1]))
            fail("an unknown option, or one without a value: see bench/run live -h");
        else
            at++;
    }
    if ((made.ring & (made.ring - 1)) != 0)
        fail("how long a ring? 64 to 16777216, a power of two");
    return made;
}

#endif
