/* derrimas_finalizers_dump: writes a handle as lines of text. It uses only the calls of derrimas_finalizers.h. Nothing here is proved; c/tests runs each line
 * of it. */
#include "derrimas_finalizers.h"
#include <inttypes.h>
#include <stdio.h>

enum { PART = 64, LINE = 256, KINDS = 4 };

/* The output buffer. */
typedef struct sink {
    void (*line)(void *data, const char *text);
    void *data;
} sink;

/* The number of registrations of each kind, and the oldest registration of each. */
typedef struct registered {
    uint64_t of_kind[KINDS];
    derrimas_finalizers_registration_at oldest;
    uint64_t newest;
    bool has_one;
} registered;

static void note(registered *all, const derrimas_finalizers_registration_at *it)
{
    all->of_kind[it->kind]++;
    if (!all->has_one || it->number < all->oldest.number)
        all->oldest = *it;
    if (it->number > all->newest)
        all->newest = it->number;
    all->has_one = true;
}

static registered registered_in(const derrimas_finalizers *finalizers)
{
    registered all = {{0}, {0}, 0, false};
    derrimas_finalizers_registration_at some[PART];
    uint64_t from = 0;
    size_t count;

    while (derrimas_finalizers_registrations(finalizers, &from, some, PART, &count) == DERRIMAS_FINALIZERS_OK)
        for (size_t n = 0; n < count; n++)
            note(&all, &some[n]);
    return all;
}

/* Prints between which passes a registration of this number was made, as far as the handle has a note of that. */
static void describe_age(const derrimas_finalizers_ages *ages, uint64_t number, char *text, size_t size)
{
    const uint64_t notes = ages->passes >> ages->thinned;
    uint64_t n = 0;

    while (n < notes && ages->before[n] <= number)
        n++;
    if (n == 0)
        snprintf(text, size, "before pass %" PRIu64, UINT64_C(1) << ages->thinned);
    else if (n < notes)
        snprintf(text, size, "between passes %" PRIu64 " and %" PRIu64, n << ages->thinned, (n + 1) << ages->thinned);
    else
        snprintf(text, size, "after pass %" PRIu64, n << ages->thinned);
}

static void tell_registered(const derrimas_finalizers_ages *ages, const registered *all, const sink *to)
{
    char text[LINE], age[LINE / 2];

    snprintf(text, sizeof text, "kinds: normal %" PRIu64 ", ignore_self %" PRIu64 ", no_order %" PRIu64 ", unreachable %" PRIu64, all->of_kind[0],
             all->of_kind[1], all->of_kind[2], all->of_kind[3]);
    to->line(to->data, text);
    if (!all->has_one)
        return;
    describe_age(ages, all->oldest.number, age, sizeof age);
    snprintf(text, sizeof text,
             "registered longest: object %" PRIu64 ", number %" PRIu64 " (%" PRIu64 " before the newest), %s, kind %d, rank %d, procedure %" PRIu64,
             all->oldest.object, all->oldest.number, all->newest - all->oldest.number, age, (int)all->oldest.kind, all->oldest.rank, all->oldest.proc);
    to->line(to->data, text);
}

/* The oldest entry that is queued and not finished. It is given by its object, or by its number if it is the entry of a cleanup. Entries before the first
 * waiting one are held. */
static void tell_unfinished(const derrimas_finalizers *finalizers, const derrimas_finalizers_counts *counts, const sink *to)
{
    derrimas_finalizers_entry first;
    char text[LINE], since[LINE / 2];

    if (derrimas_finalizers_unfinished(finalizers, 0, &first) != DERRIMAS_FINALIZERS_OK)
        return;
    if (first.pass == 0)
        snprintf(since, sizeof since, "not by a pass");
    else
        snprintf(since, sizeof since, "by pass %" PRIu64 ", %" PRIu64 " before the last", first.pass, counts->passes - first.pass);
    snprintf(text, sizeof text, "unfinished longest: %s %" PRIu64 ", entry %" PRIu64 ", queued %s, %s, procedure %" PRIu64,
             first.obj ? "object" : "cleanup", first.obj ? first.obj : first.reg, first.seq, since, first.seq < counts->queued - counts->waiting ? "held" : "waiting", first.proc);
    to->line(to->data, text);
}

void derrimas_finalizers_dump(const derrimas_finalizers *finalizers, void (*line)(void *data, const char *text), void *data)
{
    const sink to = {line, data};
    derrimas_finalizers_counts counts;
    registered all;
    char text[LINE];

    if (derrimas_finalizers_count(finalizers, &counts) != DERRIMAS_FINALIZERS_OK) {
        line(data, "not open");
        return;
    }
    snprintf(text, sizeof text, "registrations %" PRIu64 ", short links %" PRIu64 ", long links %" PRIu64 ", cleanups %" PRIu64 ", ephemerons %" PRIu64,
             counts.registrations, counts.short_links, counts.long_links, counts.cleanups, counts.short_ephemerons + counts.long_ephemerons);
    line(data, text);
    snprintf(text, sizeof text, "passes %" PRIu64 ", entries queued %" PRIu64 ", waiting %" PRIu64 ", held %" PRIu64, counts.passes, counts.queued,
             counts.waiting, counts.held);
    line(data, text);
    all = registered_in(finalizers);
    tell_registered(&finalizers->ages, &all, &to);
    tell_unfinished(finalizers, &counts, &to);
}
