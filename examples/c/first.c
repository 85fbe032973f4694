/* The first program: open, like, look, stop. */
#include <likes_service.h>

#include <inttypes.h>
#include <stdio.h>
#include <stdlib.h>

/* Ends the program where a call is refused. */
static void check(uint32_t status) {
    if (!likes_is_success(status)) {
        fprintf(stderr, "refused: %s\n", likes_status_text(status));
        exit(1);
    }
}

int main(void) {
    const uint64_t counts[] = {10, 0};                                          /* two pages, and what they have */
    const likes_options options = {.counts = counts, .pages = 2, .users = 1000}; /* users 0 to 999 */
    likes_service *service = NULL;
    likes_answer answer;
    uint64_t totals[2];

    check(likes_service_open(&options, &service));
    check(likes_service_like(service, 7, 1)); /* user 7 likes page 1, then page 0 */
    check(likes_service_like(service, 7, 0));
    check(likes_service_look(service, 7, 1, &answer));
    printf("page 1 has %" PRIu64 " like, and user 7 last liked page %" PRIu32 "\n", answer.count, answer.last);
    printf("a like of page 2: %s\n", likes_status_text(likes_service_like(service, 7, 2)));

    check(likes_service_stop(service, totals, 2));
    likes_service_close(service);
    printf("totals: %" PRIu64 " and %" PRIu64 "\n", totals[0], totals[1]);
    return 0;
}
