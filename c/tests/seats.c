/* The calls of lines and seats, and then workers that take entries from a line without a lock: the thread that owns the world takes them from the queue,
 * publishes them, and finishes what the workers have done. Each finalizer runs once, and each seat gets its entries in the queue's order.
 */
#include "check.h"
#include <pthread.h>
#include <sched.h>
#include <stdatomic.h>

enum { WORKERS = 4, ALL = 10000, PASS = 500 };

static derrimas_seat seats[WORKERS];
static derrimas_entry entries[ALL];
static atomic_uint ran[ALL], done, unordered;

static derrimas_entry numbered(uint64_t n)
{
    derrimas_entry entry = {n, n + 1, n + 2, n + 3, n + 4, n + 5, n + 6};
    return entry;
}

/* ---- each call, and each refusal that C can cause */

static void calls(void)
{
    derrimas_line line = {0};
    derrimas_seat one = {0}, two = {0}, three = {0};
    derrimas_entry first = numbered(0), second = numbered(1), taken, kept = second;

    IS(derrimas_line_open(&line, 0, 0), DERRIMAS_BAD_COUNT);
    IS(derrimas_line_open(&line, DERRIMAS_MAX_SEATS + 1, 0), DERRIMAS_BAD_COUNT);
    IS(derrimas_line_publish(&line, &first), DERRIMAS_NO_WORLD);
    IS(derrimas_line_seat(&line, &one), DERRIMAS_NO_WORLD);
    IS(derrimas_seat_take(&one, &taken), DERRIMAS_NO_WORLD);
    IS(derrimas_seat_done(&one), DERRIMAS_NO_WORLD);
    OK(derrimas_line_open(&line, 2, 0));
    IS(derrimas_line_open(&line, 2, 0), DERRIMAS_HAS_WORLD);
    OK(derrimas_line_seat(&line, &one));
    IS(derrimas_line_seat(&line, &one), DERRIMAS_HAS_WORLD);
    OK(derrimas_line_seat(&line, &two));
    IS(derrimas_line_seat(&line, &three), DERRIMAS_EMPTY);

    taken = kept;
    IS(derrimas_seat_take(&one, &taken), DERRIMAS_EMPTY);
    IS(derrimas_seat_done(&one), DERRIMAS_EMPTY);
    IS(memcmp(&taken, &kept, sizeof taken), 0);
    IS(derrimas_line_publish(&line, &second), DERRIMAS_NOT_NEXT);
    OK(derrimas_line_publish(&line, &first));
    IS(derrimas_line_publish(&line, &first), DERRIMAS_NOT_NEXT);
    OK(derrimas_line_publish(&line, &second));
    OK(derrimas_seat_take(&one, &taken));
    IS(memcmp(&taken, &first, sizeof taken), 0);
    IS(derrimas_seat_take(&one, &taken), DERRIMAS_IN_HAND);
    IS(memcmp(&taken, &first, sizeof taken), 0);

    derrimas_line_destroy(&line);
    IS(line.inside == NULL, true);
    OK(derrimas_seat_take(&two, &taken)); /* published entries stay */
    IS(memcmp(&taken, &second, sizeof taken), 0);
    OK(derrimas_seat_done(&one));
    IS(derrimas_seat_take(&one, &taken), DERRIMAS_EMPTY);
    derrimas_seat_destroy(&one);
    derrimas_seat_destroy(&two); /* with an entry taken and not done */
    IS(derrimas_seat_done(&two), DERRIMAS_NO_WORLD);
    derrimas_seat_destroy(&three);
    derrimas_line_destroy(&line);
}

/* Lines with each number of seats: each seat takes an entry, and no further seat is left. */
static void each_number_of_seats(void)
{
    for (uint64_t number = 1; number <= DERRIMAS_MAX_SEATS; number++) {
        derrimas_line line = {0};
        derrimas_seat seat[DERRIMAS_MAX_SEATS] = {{0}}, further = {0};
        derrimas_entry entry, taken;

        OK(derrimas_line_open(&line, number, 0));
        for (uint64_t n = 0; n < number; n++) {
            entry = numbered(n);
            OK(derrimas_line_publish(&line, &entry));
            OK(derrimas_line_seat(&line, &seat[n]));
        }
        IS(derrimas_line_seat(&line, &further), DERRIMAS_EMPTY);
        for (uint64_t n = 0; n < number; n++) {
            OK(derrimas_seat_take(&seat[n], &taken));
            IS(taken.seq, n);
        }
        for (uint64_t n = 0; n < number; n++) {
            OK(derrimas_seat_done(&seat[n]));
            IS(derrimas_seat_take(&seat[n], &taken), DERRIMAS_EMPTY);
            derrimas_seat_destroy(&seat[n]);
        }
        derrimas_line_destroy(&line);
    }
}

/* A line that continues from the entry at which another ended: also from a high number. */
static void from_an_entry_on(uint64_t first)
{
    derrimas_line line = {0};
    derrimas_seat seat = {0};
    derrimas_entry entry = numbered(first), taken;

    OK(derrimas_line_open(&line, 1, first));
    IS(derrimas_line_open(&line, 1, first + 1), DERRIMAS_HAS_WORLD);
    OK(derrimas_line_seat(&line, &seat));
    REFUSED(DERRIMAS_EMPTY, taken, derrimas_seat_take(&seat, &taken));
    if (first > 0) {
        entry = numbered(first - 1);
        IS(derrimas_line_publish(&line, &entry), DERRIMAS_NOT_NEXT);
        entry = numbered(0);
        IS(derrimas_line_publish(&line, &entry), DERRIMAS_NOT_NEXT);
    }
    for (uint64_t n = first; n < first + 200; n++) {
        entry = numbered(n + 1);
        IS(derrimas_line_publish(&line, &entry), DERRIMAS_NOT_NEXT);
        entry = numbered(n);
        OK(derrimas_line_publish(&line, &entry));
        IS(entry.seq, n);
        OK(derrimas_seat_take(&seat, &taken));
        IS(memcmp(&taken, &entry, sizeof taken), 0);
        REFUSED(DERRIMAS_IN_HAND, taken, derrimas_seat_take(&seat, &taken));
        IS(derrimas_line_seat(&line, &seat), DERRIMAS_HAS_WORLD);
        OK(derrimas_seat_done(&seat));
        REFUSED(DERRIMAS_EMPTY, taken, derrimas_seat_take(&seat, &taken));
    }
    derrimas_line_destroy(&line);
    derrimas_seat_destroy(&seat);
    IS(line.first == 0 && seat.first == 0, true);
}

/* A seat that takes this number of entries, while up to 100 wait. */
static void long_lived(uint64_t count)
{
    derrimas_line line = {0};
    derrimas_seat seat = {0};
    derrimas_entry entry, taken;

    OK(derrimas_line_open(&line, 1, 0));
    OK(derrimas_line_seat(&line, &seat));
    for (uint64_t n = 0; n < count; n++) {
        entry = numbered(n);
        OK(derrimas_line_publish(&line, &entry));
        if (n % 100 < 99)
            continue;
        for (uint64_t first = n - 99; first <= n; first++) {
            OK(derrimas_seat_take(&seat, &taken));
            entry = numbered(first);
            IS(memcmp(&taken, &entry, sizeof taken), 0);
            OK(derrimas_seat_done(&seat));
        }
        IS(derrimas_seat_take(&seat, &taken), DERRIMAS_EMPTY);
    }
    derrimas_seat_destroy(&seat);
    derrimas_line_destroy(&line);
}

/* ---- workers beside the thread that owns the world */

static void *work(void *seat)
{
    uint64_t next = 0;
    derrimas_entry entry;

    while (atomic_load(&done) < ALL) {
        derrimas_code code = derrimas_seat_take(seat, &entry);
        if (code != DERRIMAS_OK) {
            atomic_fetch_add(&unordered, code != DERRIMAS_EMPTY && code != DERRIMAS_BUSY);
            sched_yield();
            continue;
        }
        atomic_fetch_add(&unordered, entry.seq < next);
        next = entry.seq + 1;
        atomic_fetch_add(&ran[entry.cd], 1);
        atomic_fetch_add(&unordered, derrimas_seat_done(seat) != DERRIMAS_OK);
        atomic_fetch_add(&done, 1);
    }
    return NULL;
}

static void publish_all(derrimas_world *world, derrimas_line *line)
{
    derrimas_made made;
    derrimas_registered registered;
    derrimas_passed passed;
    uint64_t taken = 0;

    for (uint64_t n = 0; n < ALL; n++) {
        OK(derrimas_alloc(world, derrimas_at(0, 0), 1, DERRIMAS_SCANNED, &made));
        OK(derrimas_register(world, derrimas_at(0, 0), DERRIMAS_NORMAL, 0, n, 0, &registered));
        if (n % PASS < PASS - 1)
            continue;
        OK(derrimas_set(world, derrimas_at(0, 0), 0));
        OK(derrimas_collect(world, &passed));
        for (; derrimas_take(world, &entries[taken]) == DERRIMAS_OK; taken++)
            OK(derrimas_line_publish(line, &entries[taken]));
    }
    IS(taken, ALL);
}

int main(void)
{
    derrimas_world world = {0};
    derrimas_line line = {0};
    pthread_t workers[WORKERS];
    uint64_t wrong = 0, held;

    calls();
    each_number_of_seats();
    long_lived(20000);
    from_an_entry_on(0);
    from_an_entry_on(1);
    from_an_entry_on(20000);
    from_an_entry_on(UINT64_C(1) << 63);
    OK(derrimas_open(&world, 2 * PASS, 1));
    OK(derrimas_line_open(&line, WORKERS, 0));
    for (int n = 0; n < WORKERS; n++) {
        OK(derrimas_line_seat(&line, &seats[n]));
        IS(pthread_create(&workers[n], NULL, work, &seats[n]), 0);
    }
    publish_all(&world, &line);
    for (int n = 0; n < WORKERS; n++) {
        pthread_join(workers[n], NULL);
        derrimas_seat_destroy(&seats[n]);
    }
    for (int n = 0; n < ALL; n++) {
        OK(derrimas_finish(&world, &entries[n]));
        wrong += ran[n] != 1;
    }
    IS(wrong, 0);
    IS(unordered, 0);
    OK(derrimas_outstanding(&world, &held));
    IS(held, 0);
    derrimas_line_destroy(&line);
    derrimas_destroy(&world);
    return told();
}
