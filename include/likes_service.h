/* likes_service.h: a service that threads share, with locks and a driver's thread, for hosts on Linux with POSIX
 * threads.
 *
 * Most programs need five calls: likes_service_open, likes_service_like, likes_service_look, likes_service_stop, which
 * gives the final counts, and likes_service_close.
 *
 * What counts a like or touches a seat is proved. The code here, which waits, keeps a writer's likes until they are
 * handed over, and writes files, is C and is tested, also under the address and thread sanitizers.
 *
 * Calls keep time, as is tested: one that returned before another began comes first, on whatever threads. A writer's
 * likes come where they are handed over, and a glance may lack likes if it says so.
 *
 * A thread with many requests locks a seat for a batch of them: likes_service_lock, likes_service_run,
 * likes_service_take_found, likes_service_unlock. While a seat is unlocked, others do its phase work. While it is
 * locked, the thread that holds it calls it at least once each phase, and waits for nothing else. Other threads' looks
 * that are found there are answered at its next row, or once it unlocks the seat.
 *
 * A call whose seat is between two phases tries again for 50 microseconds, and then sleeps. A look that waits to be
 * found sleeps at once. A thread's first call of a service takes some memory for it, and so does its first look, or one
 * while others of the thread were late and aren't found yet: it answers LIKES_NO_MEMORY, or NULL, 0 or false where it
 * gives no status, if there is none.
 */
#ifndef LIKES_SERVICE_H
#define LIKES_SERVICE_H

#include "likes.h"

#ifdef __cplusplus
extern "C" {
#endif

/* What these calls answer, beside the statuses of likes.h. They are errors, and likes_status_text has their texts. But
 * for LIKES_LATE, nothing was done.
 *
 * A call of a service or a writer that is NULL answers LIKES_NOT_STARTED, and one of a service that was stopped
 * LIKES_STOPPED, but for those that close. If another pointer is NULL, and isn't an array of no entries, the answer is
 * LIKES_NULL before all others, or 0 or false where a call gives no status.
 *
 * Calls that take locks answer LIKES_HOLDS_SEAT to a thread that holds a seat of the service: they could wait for the
 * thread itself. These are all but likes_service_unlock, run, take_found, drive, tick, seat_turns, phase, seats,
 * pages, users, statistics and fault, and likes_writer_open and likes_writer_drop. */
enum likes_service_status {
    LIKES_NO_THREAD = 1000,    /* the driver's thread can't be started */
    LIKES_WRONG_PERIOD = 1001, /* period_us is over LIKES_MAX_PERIOD_US */
    LIKES_NOT_STARTED = 1002,  /* the service or the writer is NULL */
    LIKES_LATE = 1004,         /* the look had no answer in time. If it was made, its answer is thrown away */
    LIKES_HOLDS_SEAT = 1005,   /* the calling thread holds a seat of the service */
    LIKES_NOT_LOCKED = 1006,   /* the calling thread doesn't hold the seat */
    LIKES_OPEN_WRITER = 1007,  /* a writer of the service is open */
    LIKES_WRONG_TAG = 1008,    /* the tag of a look in a row is 2^63 or more */
    LIKES_STOPPED = 1009,      /* the service was stopped */
    LIKES_WRONG_LENGTH = 1010, /* an array hasn't one entry for each page, or for each user, or a file has more */
    LIKES_FILE_FAULT = 1011,   /* a file can't be read or written: errno has the reason */
    LIKES_NOT_SAVED = 1012,    /* the file is none that likes_service_save has written */
    LIKES_OTHER_VERSION = 1013, /* the file has a version that this library doesn't know */
    LIKES_WRONG_SIZE = 1014,   /* the file is too short or too long: it is not whole */
    LIKES_WRONG_SUM = 1015     /* the file was changed since it was written */
};

typedef struct likes_service likes_service;

/* Likes of one thread, kept for a while. */
typedef struct likes_writer likes_writer;

/* What a service has done since it was started. */
typedef struct likes_statistics {
    uint64_t phases;       /* how many phases have ended */
    uint64_t likes;        /* how many likes were counted */
    uint64_t looks;        /* how many looks were answered by likes_service_look and likes_service_look_within */
    uint64_t waits;        /* how many of these looks had to wait until they were found */
    uint64_t wait_time;    /* how long they waited in all, in nanoseconds */
    uint64_t longest_wait; /* how long one of them waited at most, in nanoseconds */
    uint64_t late;         /* how many looks had no answer in time */
    uint64_t reserved[9];  /* 0 */
} likes_statistics;

/* Opens a service and starts its driver's thread. No look waits much longer than the period. Where no calls are made,
 * no phases change.
 *
 * `service` points to NULL. LIKES_OK: now it points to the service. Else it stays as it is, and the answer is the first
 * that applies of LIKES_NULL, LIKES_IN_USE, where it points to something, LIKES_WRONG_PERIOD, an answer of likes_open,
 * LIKES_NO_MEMORY and LIKES_NO_THREAD. */
uint32_t likes_service_open(const likes_options *options, likes_service **service);

/* How many seats it has: 0 where likes_service_fault isn't LIKES_OK. User u belongs to seat u % seats. */
uint32_t likes_service_seats(const likes_service *service);

/* How many pages and users it has: 0 where likes_service_fault isn't LIKES_OK. */
size_t likes_service_pages(const likes_service *service);
uint32_t likes_service_users(const likes_service *service);

/* Ends a service that isn't stopped yet, and gives its memory back: LIKES_OK, also for NULL. All threads are done with
 * it. Or nothing is done: LIKES_HOLDS_SEAT or LIKES_OPEN_WRITER. */
uint32_t likes_service_close(likes_service *service);

/* What is wrong with a service: LIKES_NOT_STARTED, LIKES_STOPPED, or LIKES_OK. */
uint32_t likes_service_fault(const likes_service *service);

/* Why likes_service_lock gives NULL: what likes_service_fault gives, or LIKES_UNKNOWN_SEAT, or LIKES_HOLDS_SEAT, where
 * the calling thread holds a seat of the service. Where it is LIKES_OK and NULL was given, there was no memory for the
 * thread. */
uint32_t likes_service_seat_fault(const likes_service *service, uint32_t number);

/* Adds one like: an answer of likes_seat_like, but never LIKES_BETWEEN. Any thread may call it. */
uint32_t likes_service_like(likes_service *service, uint32_t user, uint32_t page);

/* Looks, and waits until the look is found if it has to: an answer of likes_seat_look, but never LIKES_BETWEEN,
 * LIKES_WAITS or LIKES_NO_ROOM. Any thread may call it, also while another takes found looks of its own at the seat. */
uint32_t likes_service_look(likes_service *service, uint32_t user, uint32_t page, likes_answer *answer);

/* Looks as likes_service_look does, but waits for so many microseconds at most, and hardly longer: then it answers
 * LIKES_LATE. A look that was made keeps its place in the seat's room until the phase ends. */
uint32_t likes_service_look_within(likes_service *service, uint32_t user, uint32_t page, uint32_t microseconds,
                                   likes_answer *answer);

/* Looks at once: an answer of likes_seat_glance, but never LIKES_BETWEEN. LIKES_SEEN has the exact count. That of
 * LIKES_GLIMPSED may lack likes. Any thread may call it. */
uint32_t likes_service_glance(likes_service *service, uint32_t user, uint32_t page, likes_answer *answer);

/* Writers
 *
 * A writer is one thread's, for likes at full speed: it keeps them in rows, one for each seat, and hands a row over as
 * a whole. Till then others miss its likes. A row is handed over when it has 64 likes; about a period after it was
 * begun, once the driver's thread gets a processor, by a call that keeps a like or looks; by likes_writer_flush and
 * close; and by likes_writer_look of a page that it has, or of a user of its seat. Without calls there is no bound in
 * time, so a thread flushes before it rests. The likes of a user by one writer are counted in their order. */

/* Opens a writer: LIKES_OK, and then `writer`, which pointed to NULL, points to it. Else that stays as it is:
 * LIKES_NULL, NOT_STARTED, STOPPED, IN_USE or NO_MEMORY. A writer takes 0.1 KB, and 0.5 KB for each seat. */
uint32_t likes_writer_open(likes_service *service, likes_writer **writer);

/* Keeps a like, which will be counted: LIKES_OK. Or nothing is kept: LIKES_NOT_STARTED, where the writer is NULL, or
 * the first that applies of LIKES_HOLDS_SEAT, UNKNOWN_USER, UNKNOWN_PAGE, and, where 64 likes are kept for a seat that
 * doesn't take them, LIKES_GONE and LIKE_LIMIT. */
uint32_t likes_writer_like(likes_writer *writer, uint32_t user, uint32_t page);

/* Hands over each row that has likes of this page, and the row of this user's seat, and looks as likes_service_look
 * does: so the look shows all that this writer was told before. Where likes of such a row stay kept it answers
 * LIKES_GONE or LIKE_LIMIT. */
uint32_t likes_writer_look(likes_writer *writer, uint32_t user, uint32_t page, likes_answer *answer);

/* Hands over all rows: LIKES_OK, each like is counted. LIKES_GONE or LIKE_LIMIT: those of a seat that has left, or that
 * has had 2^56 likes, stay kept. Or LIKES_HOLDS_SEAT or LIKES_NOT_STARTED, and nothing is done. */
uint32_t likes_writer_flush(likes_writer *writer);

/* Forgets the likes that are kept, and gives their number. They are not counted. */
size_t likes_writer_drop(likes_writer *writer);

/* Flushes, and gives the memory back: LIKES_OK, also for NULL. Where likes stay kept, and of any other answer of
 * likes_writer_flush, the writer stays open: bring the seat back, or drop them. One that keeps none takes no lock, so a
 * thread that holds a seat may close it. A service is not ended while a writer is open. */
uint32_t likes_writer_close(likes_writer *writer);

/* Writes the page of a user's last like, once no other thread holds the seat: an answer of likes_seat_last. Any thread
 * may call it. */
uint32_t likes_service_last(likes_service *service, uint32_t user, uint32_t *page);

/* Writes the pages of all users' last likes, by user number, as likes_open takes them: LIKES_OK, or LIKES_WRONG_LENGTH,
 * where the array hasn't one entry for each user. It reads a seat once no other thread holds that. Those of one seat
 * are of one moment, and after likes_service_retire all are final: with the counts that likes_service_stop then gives, a
 * new service goes on where this one has ended. */
uint32_t likes_service_lasts(likes_service *service, uint32_t *lasts, size_t users);

/* The counts of all pages at one moment, the end of a joined phase: LIKES_COUNTED, also where all seats have left. Or
 * LIKES_WRONG_LENGTH, where the array hasn't one entry for each page. It takes up to two phases. Where all seats have
 * left and are held, it waits until one is unlocked. (In the last phase of all, after 2^48, there is no moment:
 * LIKES_NO_MOMENT.) */
uint32_t likes_service_counts(likes_service *service, uint64_t *counts, size_t pages);

/* Writes the counts as likes_service_counts does, and all users' last likes at that moment, by user number: what a new
 * service is opened with to go on from it. All seats stand still until they are written. LIKES_NO_MOMENT: since this
 * call first found that another thread holds a seat, that thread has held it for a tenth of a second, in no call of the
 * service but by its handle while the phase was ending. Then some numbers, or all, are not written. */
uint32_t likes_service_snapshot(likes_service *service, uint64_t *counts, size_t pages, uint32_t *lasts, size_t users);

/* Saves what likes_service_snapshot writes to a file: LIKES_OK. After a crash there is the file as it was, or the new
 * one, which has the old one's mode, but not its owner, and replaces a symbolic link, not the link's target. Meanwhile
 * there is one of that name with ".new" behind it, in place of any other: let one process at a time save to a file. Or
 * nothing is changed: an answer of likes_service_snapshot, LIKES_NO_MEMORY or LIKES_FILE_FAULT. (LIKES_FILE_FAULT also
 * comes where there is the new file, but its folder can't be opened or brought to the disk. A folder, a device or a FIFO
 * is not replaced.) Neither this call nor the next is a cancellation point. */
uint32_t likes_service_save(likes_service *service, const char *path);

/* Opens a service that goes on from such a file: LIKES_OK. The options have no counts and no last likes. Where their
 * pages or users are 0, there are as many as in the file; so a service grows if there are more: counts of new pages are 0,
 * and new users have no last like. Else nothing is opened: the first that applies of LIKES_NULL, WRONG_COUNT, WRONG_LASTS,
 * FILE_FAULT, NOT_SAVED, OTHER_VERSION, WRONG_SIZE, WRONG_LENGTH, where there are fewer pages or users than in the file,
 * WRONG_PAGES, NO_MEMORY, WRONG_SUM, and an answer of likes_service_open. */
uint32_t likes_service_load(const char *path, const likes_options *options, likes_service **service);

/* The phase that the driver has last released, or 0 where likes_service_fault isn't LIKES_OK. Any thread may call it,
 * and it doesn't wait for the driver. */
uint64_t likes_service_phase(likes_service *service);

/* Writes what the service has done so far, also once it is stopped: LIKES_OK. The numbers are those of nearly the same
 * moment. Any thread may call it, and it waits for nobody. */
uint32_t likes_service_statistics(likes_service *service, likes_statistics *statistics);

/* Proposes pages to be split, as likes_driver_propose does: LIKES_OK. The driver takes them at its next turn where no
 * page would be split, and else when the present or the next split phase ends. Any thread may call it. It waits for a
 * turn of the driver, and where another thread asks for counts, until that has them. */
uint32_t likes_service_propose(likes_service *service, const uint32_t *pages, size_t pages_len);

/* Writes the pages that are split, as likes_driver_split_pages does, and gives their number: 0 where
 * likes_service_fault isn't LIKES_OK. Any thread may call it. It waits as likes_service_propose does. */
size_t likes_service_split_pages(likes_service *service, uint32_t *pages, size_t pages_len);

/* Takes a seat's lock, once no other thread holds it. Until likes_service_unlock, the seat is this thread's, which may
 * make any call of likes_seat_* on it: in another thread they answer LIKES_NOT_LOCKED. NULL, and nothing is done, where
 * likes_service_seat_fault isn't LIKES_OK: a thread holds one seat of a service at a time. It unlocks the seat before it
 * ends, or no phase changes any more. */
likes_seat *likes_service_lock(likes_service *service, uint32_t number);

/* Gives the lock back. The thread that took it does so, before it waits for anything. Of a seat that it doesn't hold it
 * does nothing. */
void likes_service_unlock(likes_service *service, uint32_t number);

/* Runs requests at a seat that the thread has locked, through changes of phases, and gives the number of those done.
 * While it sleeps until a phase begins, other threads may call the seat. It stops early only at a look that has no room:
 * take found looks, and go on with that request. At a seat that the thread doesn't hold no request is done, and the first
 * answer is LIKES_NOT_STARTED, STOPPED, UNKNOWN_SEAT or NOT_LOCKED. Tags of looks are below 2^63: another is answered
 * LIKES_WRONG_TAG, and is none of those that wait. */
size_t likes_service_run(likes_service *service, uint32_t number, const likes_request *requests, size_t length,
                         likes_answer *answers);

/* Takes the next found look with a tag of the host's, at a seat that the thread has locked, in the order of asking.
 * False: there is none. */
bool likes_service_take_found(likes_service *service, uint32_t number, likes_found *found);

/* Takes up to found_len found looks at once, and gives their number. The seat isn't NULL. */
size_t likes_seat_take_all_found(likes_seat *seat, likes_found *found, size_t found_len);

/* Makes a turn of the driver, and gives its answer. If that begins or ends a phase, it also does what comes of it: the
 * phase work of the seats that nobody holds, and the next turns. Where another thread is making a turn, it is
 * LIKES_NOT_ALL_IN, and that thread makes one more. */
uint32_t likes_service_drive(likes_service *service);

/* Makes a turn of the driver as likes_service_drive does, but only if one is due. A busy thread may call it once in
 * some 256 requests: then no phase waits until the driver's thread gets a processor. */
void likes_service_tick(likes_service *service);

/* Does the phase work of the seats that nobody holds. */
void likes_service_seat_turns(likes_service *service);

/* Has a seat leave, in a few phases at any period, once no other thread holds it: LIKES_OK, once it is gone, also if it
 * was before. Then likes and looks of its users answer LIKES_GONE, but for last likes and found looks. All seats may
 * leave. */
uint32_t likes_service_retire_seat(likes_service *service, uint32_t number);

/* Brings a seat back that has left, as likes_service_retire_seat does: LIKES_OK, once it runs a phase, also if it wasn't
 * gone. LIKES_GONE: all seats have left for good, by likes_service_retire. */
uint32_t likes_service_bring_back_seat(likes_service *service, uint32_t number);

/* Ends the driver's thread, has all seats retire, and makes the driver's turns until it answers LIKES_ENDED: LIKES_OK.
 * Or nothing is done: LIKES_OPEN_WRITER or LIKES_NO_MEMORY. No thread holds a seat, and no call of the service is begun
 * any more but likes_service_lock, likes_seat_take_found, likes_service_take_found, likes_service_unlock,
 * likes_service_last, likes_service_lasts, likes_service_counts, likes_service_snapshot, likes_service_save,
 * likes_service_retire_seat, likes_service_bring_back_seat, likes_service_retire, likes_service_stop,
 * likes_service_close, and those that only tell a number or a status. */
uint32_t likes_service_retire(likes_service *service);

/* Ends the service and gives the final counts: LIKES_OK. Or nothing is done: LIKES_OPEN_WRITER, or LIKES_WRONG_LENGTH,
 * where the array hasn't one entry for each page. All threads are done with it. Found looks that were not taken are
 * lost, and so are last likes: take both between likes_service_retire and this. */
uint32_t likes_service_stop(likes_service *service, uint64_t *counts, size_t pages);

#ifdef __cplusplus
}
#endif

#endif
