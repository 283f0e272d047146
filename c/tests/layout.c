/* The structs of derrimas.h have the layout of the library: their sizes and offsets, and the numbers with which derrimas_sample fills them, are checked. */
#include "check.h"

_Static_assert(sizeof(derrimas_code) == 4 && sizeof(derrimas_kind) == 4, "derrimas_code");
_Static_assert(sizeof(bool) == 1, "bool");
_Static_assert(sizeof(derrimas_world) == sizeof(void *), "derrimas_world");
_Static_assert(sizeof(derrimas_line) == 16 && offsetof(derrimas_line, inside) == 0, "derrimas_line");
_Static_assert(sizeof(derrimas_seat) == 16 && offsetof(derrimas_seat, inside) == 0, "derrimas_seat");
_Static_assert(sizeof(derrimas_slot) == 16 && offsetof(derrimas_slot, slot) == 8, "derrimas_slot");
_Static_assert(sizeof(derrimas_made) == 16 && offsetof(derrimas_made, birth) == 8, "derrimas_made");
_Static_assert(sizeof(derrimas_old) == 24 && offsetof(derrimas_old, cd) == 8 && offsetof(derrimas_old, was) == 16, "derrimas_old");
_Static_assert(sizeof(derrimas_registered) == 40 && offsetof(derrimas_registered, replaced) == 8 && offsetof(derrimas_registered, made) == 32,
               "derrimas_registered");
_Static_assert(sizeof(derrimas_passed) == 24 && offsetof(derrimas_passed, picked) == 8 && offsetof(derrimas_passed, reclaimed) == 16,
               "derrimas_passed");
_Static_assert(sizeof(derrimas_entry) == 56 && offsetof(derrimas_entry, reg) == 16 && offsetof(derrimas_entry, cd) == 48, "derrimas_entry");
_Static_assert(sizeof(derrimas_object) == 32 && offsetof(derrimas_object, birth) == 16 && offsetof(derrimas_object, atomic) == 24,
               "derrimas_object");
_Static_assert(sizeof(derrimas_registration) == 40 && offsetof(derrimas_registration, kind) == 32
                   && offsetof(derrimas_registration, rank) == 36, "derrimas_registration");
_Static_assert(sizeof(derrimas_linked) == 16 && offsetof(derrimas_linked, target) == 8, "derrimas_linked");
_Static_assert(sizeof(derrimas_counts) == 56 && offsetof(derrimas_counts, noted) == 48, "derrimas_counts");
_Static_assert(sizeof(derrimas_samples) == 16 + 16 + 24 + 40 + 24 + 56 + 32 + 40 + 16 + 56, "derrimas_samples");

/* The fields of a struct of numbers, which have to be 1, 2, 3 and so on. */
static bool counts_up(const uint64_t *fields, size_t count)
{
    for (size_t n = 0; n < count; n++)
        if (fields[n] != n + 1)
            return false;
    return true;
}

int main(void)
{
    derrimas_samples s;

    memset(&s, 0, sizeof s);
    derrimas_sample(&s);
    IS(counts_up(&s.slot.frame, 2), true);
    IS(counts_up(&s.made.address, 2), true);
    IS(s.replaced.proc == 1 && s.replaced.cd == 2 && s.replaced.was, true);
    IS(s.registered.number == 1 && s.registered.replaced.proc == 1 && s.registered.replaced.cd == 2, true);
    IS(s.registered.replaced.was && s.registered.made, true);
    IS(counts_up(&s.passed.pass, 3), true);
    IS(counts_up(&s.entry.seq, 7), true);
    IS(s.object.start == 1 && s.object.size == 2 && s.object.birth == 3 && s.object.atomic, true);
    IS(s.registration.object == 1 && s.registration.number == 2 && s.registration.proc == 3, true);
    IS(s.registration.cd == 4 && s.registration.kind == 5 && s.registration.rank == 6, true);
    IS(counts_up(&s.linked.place, 2), true);
    IS(counts_up(&s.counts.passes, 7), true);
    return told();
}
