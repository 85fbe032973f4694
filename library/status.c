/* The texts of statuses. Those of wrong numbers say what is right. */
#include "likes_service.h"

static const char *const outcomes[] = {
    "ok",         "liked",     "seen",      "waits",     "runs",       "between",  "no room",
    "like limit", "gone",      "goes on",   "announced", "not all in", "released", "ended",
    "counted",    "no moment", "not ended", "all taken", "glimpsed",   "busy",     "none",
};

/* From LIKES_EMPTY on. */
static const char *const errors[] = {
    "empty",
    "in use",
    "no memory",
    "unknown user",
    "other seat",
    "unknown page",
    "unknown op",
    "unknown end",
    "the range goes past the end",
    "a reserved field is not 0",
    "pages is 1 to 16777216, with a count for each",
    "marks are at most 64 pages, no two alike",
    "an initial count is at most 1000000000000000000; a file is loaded without any",
    "seats is 1 to 64; a service is closed with all of its own in order",
    "users is 1 to 4294967295",
    "room is 1 to 4096",
    "hot is 1 to 1000000",
    "last likes are one for each user, of a page or none; a file is loaded without them",
    "a pointer is NULL",
    "a client is open",
};

/* From LIKES_NO_THREAD on. */
static const char *const of_services[] = {
    "no thread",
    "period_us is 1 to 1000000000",
    "not started",
    "unknown seat",

    "late",
    "the thread holds a seat",
    "the thread does not hold the seat",
    "a writer is open",
    "a tag is below 9223372036854775808",
    "the service was stopped",
    "an array has one entry for each page, or for each user; a file is loaded with no fewer",
    "the file can't be read or written",
    "the file was not written by likes_service_save",
    "the file has another version",
    "the file is too short or too long",
    "the file was changed since it was written",
};

/* The text of a status among some, of which the first has a number. NULL: it is none of them. */
static const char *text_of(const char *const *texts, size_t length, uint32_t first, uint32_t status) {
    return status >= first && status - first < length ? texts[status - first] : NULL;
}

#define LENGTH(texts) (sizeof(texts) / sizeof *(texts))

const char *likes_status_text(uint32_t status) {
    const char *text = text_of(outcomes, LENGTH(outcomes), LIKES_OK, status);
    if (text == NULL)
        text = text_of(errors, LENGTH(errors), LIKES_FIRST_ERROR, status);
    if (text == NULL)
        text = text_of(of_services, LENGTH(of_services), LIKES_NO_THREAD, status);
    return text != NULL ? text : "unknown status";
}
