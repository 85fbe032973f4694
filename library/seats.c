/* The calls of a seat: those of one that a host took from its driver are the proved ones, but for arrays that are NULL.
 * Those of one that a thread has locked by likes_service_lock are its client's. The handle of such a seat has its lowest bit
 * set. */
#include "service/service.h"

static const likes_request no_request;

/* Of a call at a seat that a thread has locked: it stays apart from the call of likes.h. */
#define LOCKED static __attribute__((noinline))

static inline bool is_locked(const likes_seat *seat) {
    return __builtin_expect(((uintptr_t)seat->at & 1) != 0, false);
}

/* A seat that the thread has locked. NULL: it hasn't. A call of it counts, as others do. */
static inline inner_seat *begin(const likes_seat *seat, inner_member **member) {
    inner_seat *mine = (inner_seat *)((uintptr_t)seat->at - 1);
    if (!mine->service->is_open)
        return NULL;
    *member = inner_member_of(mine->service);
    if (*member == NULL || (*member)->locked != mine)
        return NULL;
    inner_note_use(mine->service);
    return mine;
}

/* A call while the phase is ending doesn't count: so a thread that calls again and again holds up no snapshot for ever,
 * which keeps the phase from ending until it has all seats. */
static inline uint32_t end(inner_member *member, inner_seat *mine, uint32_t status) {
    inner_note_call(mine, mine->service->is_ending ? 0 : 2);
    inner_after(member, mine);
    return status;
}

/* A call of a client, if the thread has locked the seat. */
#define AT_SEAT(call)                                                                                                  \
    do {                                                                                                               \
        inner_member *member;                                                                                          \
        inner_seat *mine = begin(seat, &member);                                                                     \
        if (mine == NULL)                                                                                             \
            return LIKES_NOT_LOCKED;                                                                                   \
        likes_client *client = &member->client;                                                                        \
        uint32_t number = mine->number;                                                                               \
        return end(member, mine, likes_client_##call);                                                                \
    } while (0)

LOCKED uint32_t locked_like(const likes_seat *seat, uint32_t user, uint32_t page) {
    inner_member *member;
    inner_seat *mine = begin(seat, &member);
    if (mine == NULL)
        return LIKES_NOT_LOCKED;
    uint32_t status = likes_client_like(&member->client, mine->number, user, page);
    inner_add(&member->likes, status == LIKES_LIKED);
    return end(member, mine, status);
}

LOCKED uint32_t locked_glance(const likes_seat *seat, uint32_t user, uint32_t page, likes_answer *answer) {
    inner_refuse(answer, LIKES_NOT_LOCKED);
    AT_SEAT(glance(client, number, user, page, answer));
}

LOCKED uint32_t locked_last(const likes_seat *seat, uint32_t user, uint32_t *page) {
    AT_SEAT(last(client, number, user, page));
}

LOCKED uint32_t locked_lasts(const likes_seat *seat, uint32_t from, uint32_t *pages, size_t pages_len) {
    AT_SEAT(lasts(client, number, from, pages, pages_len));
}

LOCKED uint32_t locked_turn(const likes_seat *seat) {
    AT_SEAT(turn(client, number));
}

LOCKED uint32_t locked_retire(const likes_seat *seat) {
    AT_SEAT(retire(client, number));
}

LOCKED uint32_t locked_come_back(const likes_seat *seat) {
    inner_member *member;
    inner_seat *mine = begin(seat, &member);
    if (mine == NULL)
        return LIKES_NOT_LOCKED;
    bool is_over = mine->service->is_stopping;
    return end(member, mine, is_over ? (uint32_t)LIKES_GONE : likes_client_come_back(&member->client, mine->number));
}

LOCKED uint32_t locked_phase(const likes_seat *seat, uint64_t *phase) {
    AT_SEAT(phase(client, number, phase));
}

LOCKED size_t locked_run(const likes_seat *seat, const likes_request *requests, size_t requests_len,
                     likes_answer *answers, size_t answers_len) {
    inner_member *member;
    inner_seat *mine = begin(seat, &member);
    size_t length = requests_len < answers_len ? requests_len : answers_len;
    if (mine == NULL) {
        if (answers_len > 0)
            inner_refuse(answers, LIKES_NOT_LOCKED);
        return 0;
    }
    size_t done = inner_run(member, mine, requests, length, answers, false);
    end(member, mine, LIKES_OK);
    return done;
}

LOCKED uint32_t locked_look(const likes_seat *seat, uint32_t user, uint32_t page, uint64_t tag, likes_answer *answer) {
    likes_request request = {.tag = tag, .user = user, .page = page, .op = LIKES_LOOK};
    inner_member *member;
    inner_seat *mine = begin(seat, &member);
    if (mine == NULL)
        return inner_refuse(answer, LIKES_NOT_LOCKED);
    uint32_t hosts = mine->hosts, status = inner_look(member, mine, &request, answer);
    inner_looks_wait(member, mine, hosts);
    return end(member, mine, status);
}

LOCKED bool locked_take_found(const likes_seat *seat, likes_found *found) {
    inner_member *member;
    inner_seat *mine = begin(seat, &member);
    bool has = mine != NULL && inner_take_found(member, mine, found);
    if (mine != NULL)
        end(member, mine, LIKES_OK);
    return has;
}

uint32_t likes_seat_like(likes_seat *seat, uint32_t user, uint32_t page) {
    return is_locked(seat) ? locked_like(seat, user, page) : likes_proved_seat_like(seat, user, page);
}

uint32_t likes_seat_look(likes_seat *seat, uint32_t user, uint32_t page, uint64_t tag, likes_answer *answer) {
    return is_locked(seat) ? locked_look(seat, user, page, tag, answer)
                         : likes_proved_seat_look(seat, user, page, tag, answer);
}

uint32_t likes_seat_glance(likes_seat *seat, uint32_t user, uint32_t page, likes_answer *answer) {
    return is_locked(seat) ? locked_glance(seat, user, page, answer) : likes_proved_seat_glance(seat, user, page, answer);
}

uint32_t likes_seat_last(likes_seat *seat, uint32_t user, uint32_t *page) {
    return is_locked(seat) ? locked_last(seat, user, page) : likes_proved_seat_last(seat, user, page);
}

uint32_t likes_seat_lasts(likes_seat *seat, uint32_t from, uint32_t *pages, size_t pages_len) {
    uint32_t page;
    if (likes_is_missing(pages, pages_len))
        return LIKES_NULL;
    uint32_t *to = pages_len == 0 ? &page : pages;
    return is_locked(seat) ? locked_lasts(seat, from, to, pages_len) : likes_proved_seat_lasts(seat, from, to, pages_len);
}

/* Runs requests where an array is NULL: none, if that has a length. */
INNER_SELDOM static size_t run_without(likes_seat *seat, const likes_request *requests, size_t requests_len,
                                       likes_answer *answers, size_t answers_len) {
    likes_answer answer;
    if (likes_is_missing(answers, answers_len))
        return 0;
    if (likes_is_missing(requests, requests_len)) {
        if (answers_len > 0)
            inner_refuse(answers, LIKES_NULL);
        return 0;
    }
    return likes_seat_run(seat, requests_len == 0 ? &no_request : requests, requests_len,
                          answers_len == 0 ? &answer : answers, answers_len);
}

size_t likes_seat_run(likes_seat *seat, const likes_request *requests, size_t requests_len, likes_answer *answers,
                      size_t answers_len) {
    if (requests == NULL || answers == NULL)
        return run_without(seat, requests, requests_len, answers, answers_len);
    return is_locked(seat) ? locked_run(seat, requests, requests_len, answers, answers_len)
                         : likes_proved_seat_run(seat, requests, requests_len, answers, answers_len);
}

bool likes_seat_take_found(likes_seat *seat, likes_found *found) {
    return is_locked(seat) ? locked_take_found(seat, found) : likes_proved_seat_take_found(seat, found);
}

size_t likes_seat_take_all_found(likes_seat *seat, likes_found *found, size_t found_len) {
    size_t taken = 0;
    if (likes_is_missing(found, found_len))
        return 0;
    while (taken < found_len && likes_seat_take_found(seat, &found[taken]))
        taken++;
    return taken;
}

uint32_t likes_seat_turn(likes_seat *seat) {
    return is_locked(seat) ? locked_turn(seat) : likes_proved_seat_turn(seat);
}

uint32_t likes_seat_retire(likes_seat *seat) {
    return is_locked(seat) ? locked_retire(seat) : likes_proved_seat_retire(seat);
}

uint32_t likes_seat_come_back(likes_seat *seat) {
    return is_locked(seat) ? locked_come_back(seat) : likes_proved_seat_come_back(seat);
}

uint64_t likes_seat_phase(likes_seat *seat) {
    uint64_t phase = 0;
    if (!is_locked(seat))
        return likes_proved_seat_phase(seat);
    locked_phase(seat, &phase);
    return phase;
}

/* A seat of a service isn't the host's to free. */
void likes_seat_free(likes_seat *seat) {
    if (seat != NULL && !is_locked(seat))
        likes_proved_seat_free(seat);
}
