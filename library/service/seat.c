/* Seats: what is left for the thread that has one, and who gets which found look. */
#include "service.h"

/* The C compiler, and sanitizers, know nothing of the proved lock. So `calls` tells them of its order. */
uint32_t inner_lock(inner_member *member, inner_seat *seat) {
    uint32_t status = likes_client_lock(&member->client, seat->number);
    if (status == LIKES_OK) {
        member->has |= seat->bit;
        (void)seat->calls;
    }
    return status;
}

static void unlock(inner_member *member, inner_seat *seat) {
    atomic_store_explicit(&seat->calls, seat->calls, memory_order_release);
    member->has &= ~seat->bit;
    likes_client_unlock(&member->client, seat->number);
}

void inner_unlock(inner_member *member, inner_seat *seat) {
    unlock(member, seat);
    inner_after(member, seat);
}

/* Ends the wait of a look of the service. Its thread wrote `state` before it asked, and after the exchange it is that
 * thread's again. */
static void end_wait(const likes_found *found) {
    inner_wait *wait = (inner_wait *)(uintptr_t)(found->tag & ~INNER_TAGS);
    (void)wait->state;
    wait->count = found->count;
    wait->last = found->last;
    if (atomic_exchange(&wait->state, INNER_FOUND) == INNER_THROWN)
        wait->state = INNER_UNUSED;
    else
        inner_futex_wake(&wait->state, 1);
}

/* Keeps a found look of the host's in the ring: they are no more than the seat has room for. */
static void keep(inner_seat *seat, const likes_found *found) {
    uint32_t room = seat->service->room, at = seat->first + seat->length++;
    seat->found[at < room ? at : at - room] = *found;
}

/* Hands out what was found, and keeps the host's. */
static void hand_out(inner_member *member, inner_seat *seat) {
    likes_found found;
    while (likes_client_take_found(&member->client, seat->number, &found) == LIKES_OK) {
        if (found.tag >= INNER_TAGS)
            end_wait(&found);
        else
            keep(seat, &found);
    }
}

bool inner_take_found(inner_member *member, inner_seat *seat, likes_found *found) {
    if (seat->length == 0)
        hand_out(member, seat);
    if (seat->length == 0)
        return false;
    *found = seat->found[seat->first];
    seat->first = seat->first + 1 < seat->service->room ? seat->first + 1 : 0;
    seat->length--;
    seat->hosts--;
    return true;
}

/* Does the phase work of a seat, with the seat locked. It retires if it is to leave. */
static void work(inner_member *member, inner_seat *seat) {
    member->service->work &= ~seat->bit;
    uint32_t status = seat->is_leaving ? likes_client_retire(&member->client, seat->number)
                                        : likes_client_turn(&member->client, seat->number);
    if (status == LIKES_GONE)
        seat->is_leaving = false;
    hand_out(member, seat);
}

/* Does what was left at a seat, if the seat is this client's, or free: else the thread that has it sees what was left
 * after it has given it back. Whether there was phase work. Who sleeps until the seat is free sleeps on while this client
 * has it locked. */
static bool serve(inner_member *member, inner_seat *seat) {
    bool is_mine = inner_has(member, seat), has_worked = false;
    while ((member->service->work & seat->bit) && (is_mine || inner_lock(member, seat) == LIKES_OK)) {
        work(member, seat);
        if (!is_mine)
            unlock(member, seat);
        has_worked = true;
    }
    if (!is_mine && seat->asleep != 0) {
        seat->asleep = 0;
        inner_futex_wake(&seat->asleep, 1);
    }
    return has_worked;
}

INNER_SELDOM void inner_attend(inner_member *member, inner_seat *seat) {
    if (member->service->is_resting)
        inner_call(member->service);
    if (serve(member, seat))
        inner_turns(member);
}

/* A seat that the thread has locked is left to its next call there. */
bool inner_work(inner_member *member) {
    bool has_worked = false;
    for (uint64_t seats = member->service->work; seats != 0; seats &= seats - 1) {
        inner_seat *seat = &member->service->seat[__builtin_ctzll(seats)];
        if (member->locked != seat || !inner_has(member, seat))
            has_worked |= serve(member, seat);
    }
    return has_worked;
}
