/* Writers: each keeps likes in rows, one for each seat, and hands a row over as a whole.
 *
 * A row is handed over when it is full, and else by the service's pulse, a number that the driver's thread raises once in
 * a period, and when the service begins to rest. A call that sees another one hands over all rows: so none is kept for
 * longer than about a period, as long as the writer is called, and a call reads no clock. */
#include "service.h"

#include <stdlib.h>

struct likes_writer {
    likes_service *service;
    uint64_t pulse;                   /* at the last call */
    uint64_t begun;                   /* the seats whose rows have likes. A bit for each */
    uint8_t lengths[LIKES_MAX_SEATS]; /* of the rows */
    likes_pair rows[][INNER_ROW];     /* one for each seat */
};

static inline size_t seat_of(const likes_writer *writer, uint32_t user) {
    return inner_remainder(user, writer->service->inverse, writer->service->seats);
}

/* Hands a row over: LIKES_OK, or why likes stay kept. */
static uint32_t hand_over(likes_writer *writer, size_t number) {
    likes_pair *row = writer->rows[number];
    inner_member *member;
    inner_seat *seat;
    size_t length = writer->lengths[number], done = 0, counted;
    if (length == 0)
        return LIKES_OK;
    uint32_t status = inner_begin(writer->service, row->user, false, &member, &seat);
    if (status != LIKES_OK)
        return status;
    for (size_t i = 0; i < length; i++)
        inner_fetch(seat->lasts, writer->service->inverse, row[i].user);
    do {
        status = likes_client_like_row(&member->client, seat->number, row + done, length - done, &counted);
        done += counted;
        status = inner_told(member, seat, INNER_NEVER, status);
    } while (status == INNER_AGAIN);
    inner_add(&member->likes, done);
    memmove(row, row + done, (length - done) * sizeof *row);
    writer->lengths[number] = (uint8_t)(length - done);
    if (done == length)
        writer->begun &= ~(UINT64_C(1) << number);
    return status == LIKES_LIKED ? (uint32_t)LIKES_OK : status;
}

/* Hands over the rows of these seats: LIKES_OK, or why likes of the first that is refused stay kept. */
static uint32_t hand_over_all(likes_writer *writer, uint64_t seats) {
    uint32_t status = LIKES_OK;
    for (; seats != 0; seats &= seats - 1) {
        uint32_t told = hand_over(writer, (size_t)__builtin_ctzll(seats));
        status = status == LIKES_OK ? told : status;
    }
    return status;
}

/* Hands over all rows, where there is another pulse. Where the service rests there would be no next one: this call ends
 * that, also if there are no rows. */
static void notice(likes_writer *writer) {
    writer->pulse = writer->service->pulse;
    hand_over_all(writer, writer->begun);
    inner_note_use(writer->service);
    if (writer->service->is_resting)
        inner_call(writer->service);
}

/* Why a call of a writer is refused, or LIKES_OK. */
static inline uint32_t fault_of(const likes_writer *writer) {
    if (writer == NULL)
        return LIKES_NOT_STARTED;
    return inner_has_locked(writer->service) ? (uint32_t)LIKES_HOLDS_SEAT : (uint32_t)LIKES_OK;
}

uint32_t likes_writer_open(likes_service *service, likes_writer **writer) {
    uint32_t fault = writer == NULL ? (uint32_t)LIKES_NULL : likes_service_fault(service);
    if (fault != LIKES_OK)
        return fault;
    if (*writer != NULL)
        return LIKES_IN_USE;
    /* So that handing over takes no memory. */
    if (inner_member_of(service) == NULL)
        return LIKES_NO_MEMORY;
    int error = errno;
    likes_writer *made = (likes_writer *)calloc(1, sizeof *made + service->seats * sizeof *made->rows);
    /* clang takes calloc to leave errno, and would drop the line below. */
    atomic_signal_fence(memory_order_seq_cst);
    errno = error;
    if (made == NULL)
        return LIKES_NO_MEMORY;
    made->service = service;
    made->pulse = service->pulse;
    service->writers += 1;
    /* From now on the driver's thread sleeps until the next pulse at most. */
    inner_note_use(service);
    inner_call(service);
    *writer = made;
    return LIKES_OK;
}

static inline void keep(likes_writer *writer, size_t number, uint32_t user, uint32_t page) {
    uint8_t length = writer->lengths[number]++;
    writer->rows[number][length] = (likes_pair){user, page};
    if (length == 0)
        writer->begun |= UINT64_C(1) << number;
}

/* A like with which there is more to do than to keep it. */
INNER_SELDOM static uint32_t like_slowly(likes_writer *writer, uint32_t user, uint32_t page) {
    uint32_t fault = fault_of(writer);
    if (fault != LIKES_OK)
        return fault;
    if (user >= writer->service->users)
        return LIKES_UNKNOWN_USER;
    if (page >= writer->service->pages)
        return LIKES_UNKNOWN_PAGE;
    inner_note_use(writer->service);
    if (writer->service->pulse != writer->pulse)
        notice(writer);
    size_t number = seat_of(writer, user);
    if (writer->lengths[number] == INNER_ROW && (fault = hand_over(writer, number)) != LIKES_OK)
        return fault;
    keep(writer, number, user, page);
    if (writer->lengths[number] < INNER_ROW)
        return LIKES_OK;
    /* The writer may have the only processor, so it makes the driver's turn, if one is due. */
    hand_over(writer, number);
    likes_service_tick(writer->service);
    return LIKES_OK;
}

uint32_t likes_writer_like(likes_writer *writer, uint32_t user, uint32_t page) {
    if (writer == NULL)
        return LIKES_NOT_STARTED;
    const likes_service *service = writer->service;
    size_t number = seat_of(writer, user);
    bool is_plain = inner_mine.locked == 0 && user < service->users && page < service->pages && service->is_used &&
                    service->pulse == writer->pulse && writer->lengths[number] < INNER_ROW - 1;
    if (!is_plain)
        return like_slowly(writer, user, page);
    keep(writer, number, user, page);
    return LIKES_OK;
}

static bool has_page(const likes_writer *writer, size_t number, uint32_t page) {
    uint32_t found = 0;
    for (size_t i = 0; i < writer->lengths[number]; i++)
        found |= writer->rows[number][i].page == page;
    return found;
}

/* The seats whose rows have likes of a page, or may have some of a user. A bit for each. */
static uint64_t seats_with(const likes_writer *writer, uint32_t user, uint32_t page) {
    uint64_t found = UINT64_C(1) << seat_of(writer, user);
    for (uint64_t seats = writer->begun; seats != 0; seats &= seats - 1) {
        size_t number = (size_t)__builtin_ctzll(seats);
        found |= (uint64_t)has_page(writer, number, page) << number;
    }
    return found;
}

uint32_t likes_writer_look(likes_writer *writer, uint32_t user, uint32_t page, likes_answer *answer) {
    uint32_t fault = answer == NULL ? (uint32_t)LIKES_NULL : fault_of(writer);
    if (fault != LIKES_OK)
        return inner_refuse(answer, fault);
    if (writer->service->pulse != writer->pulse)
        notice(writer);
    if (user < writer->service->users)
        fault = hand_over_all(writer, seats_with(writer, user, page));
    if (fault != LIKES_OK)
        return inner_refuse(answer, fault);
    return likes_service_look(writer->service, user, page, answer);
}

uint32_t likes_writer_flush(likes_writer *writer) {
    uint32_t fault = fault_of(writer);
    return fault == LIKES_OK ? hand_over_all(writer, writer->begun) : fault;
}

size_t likes_writer_drop(likes_writer *writer) {
    size_t dropped = 0;
    for (size_t number = 0; writer != NULL && number < writer->service->seats; number++) {
        dropped += writer->lengths[number];
        writer->lengths[number] = 0;
        writer->begun = 0;
    }
    return dropped;
}

uint32_t likes_writer_close(likes_writer *writer) {
    if (writer == NULL)
        return LIKES_OK;
    uint32_t status = hand_over_all(writer, writer->begun);
    if (status != LIKES_OK)
        return status;
    writer->service->writers -= 1;
    free(writer);
    return LIKES_OK;
}
