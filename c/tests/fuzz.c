/* fuzz [STEPS [SEED]]: calls of chance, each compared with a plain model: its code, its results, and all that the world shows every so often. Some calls
 * come without memory. 1,000,000 steps, and seed 1, if none are given. Linked with --wrap=malloc,--wrap=realloc,--wrap=calloc.
 */
#include "model.h"
#include "check.h"

void *__real_malloc(size_t size);
void *__real_calloc(size_t count, size_t size);
void *__real_realloc(void *at, size_t size);
void *__wrap_malloc(size_t size);
void *__wrap_calloc(size_t count, size_t size);
void *__wrap_realloc(void *at, size_t size);

static bool without_memory; /* the next call's allocations are refused */
static unsigned lacked;

void *__wrap_malloc(size_t size) { return without_memory ? NULL : __real_malloc(size); }
void *__wrap_calloc(size_t count, size_t size) { return without_memory ? NULL : __real_calloc(count, size); }
void *__wrap_realloc(void *at, size_t size) { return without_memory ? NULL : __real_realloc(at, size); }

static derrimas_world world;
static uint64_t seed = 1;

static uint64_t chance(uint64_t below)
{
    seed = seed * UINT64_C(6364136223846793005) + UINT64_C(1442695040888963407);
    return (seed >> 33) % below;
}

/* ---- arguments: mostly good ones */

static derrimas_slot some_slot(void)
{
    return chance(100) ? derrimas_at(chance(FRAMES), chance(6)) : derrimas_at(chance(FRAMES + 1), chance(DERRIMAS_SLOTS + 1));
}

static bool is_slot(derrimas_slot at) { return at.frame < FRAMES && at.slot < DERRIMAS_SLOTS; }
static uint64_t *word_of(derrimas_slot at) { return &m.slot[at.frame][at.slot]; }

static uint64_t some_word(void)
{
    switch (chance(5)) {
    case 0: return chance(3);
    case 1: return chance(2) ? DERRIMAS_HEAP_START - 1 : address(WORDS);
    default: return address(chance(WORDS));
    }
}

/* Of a place: why it is refused, or DERRIMAS_OK. */
static derrimas_code place_code(uint64_t word, uint64_t offset)
{
    uint64_t own = points(word);

    if (own == WORDS)
        return DERRIMAS_NOT_POINTER;
    return word + offset < address(own) + m.at[own].size && word + offset >= word ? DERRIMAS_OK : DERRIMAS_OUTSIDE_OBJECT;
}

static derrimas_code start_code(uint64_t word)
{
    uint64_t own = points(word);

    return own == WORDS ? DERRIMAS_NOT_POINTER : word != address(own) ? DERRIMAS_NOT_START : DERRIMAS_OK;
}

static derrimas_code first(derrimas_code one, derrimas_code other) { return one != DERRIMAS_OK ? one : other; }
static derrimas_code slot_code(derrimas_slot at) { return is_slot(at) ? DERRIMAS_OK : DERRIMAS_BAD_SLOT; }

/* Whether the call was accepted. It has to answer what the model does; where that accepts and there was no memory, the answer may say so. */
static bool accepted(int line, derrimas_code code, derrimas_code wanted)
{
    bool lacks = without_memory && wanted == DERRIMAS_OK && code == DERRIMAS_NO_MEMORY;

    without_memory = false;
    lacked += lacks;
    check(line, "the code", code, lacks ? DERRIMAS_NO_MEMORY : wanted);
    return wanted == DERRIMAS_OK && code == DERRIMAS_OK;
}

#define ACCEPTED(call, wanted) accepted(__LINE__, call, wanted)

/* ---- objects and slots */

static void step_alloc(void)
{
    derrimas_slot at = some_slot();
    uint64_t size = chance(60) ? 1 + chance(chance(8) ? 6 : 150) : chance(2) * 1025, to;
    bool atomic = chance(3) == 0;
    derrimas_made made = {7, 7};
    derrimas_code wanted = first(slot_code(at), size < 1 || size > DERRIMAS_MAX_SIZE ? DERRIMAS_BAD_SIZE : DERRIMAS_OK);

    to = wanted == DERRIMAS_OK ? place_for(size, atomic) : WORDS;
    wanted = first(wanted, to == WORDS ? DERRIMAS_NO_SPACE : DERRIMAS_OK);
    if (!ACCEPTED(derrimas_alloc(&world, at, size, atomic ? DERRIMAS_ATOMIC : DERRIMAS_SCANNED, &made), wanted)) {
        IS(made.address == 7 && made.birth == 7, true);
        return;
    }
    IS(made.address, address(to));
    IS(made.birth, m.births);
    m.at[to].size = size;
    m.at[to].birth = m.births++;
    m.at[to].atomic = atomic;
    own(to, to);
    for (uint64_t n = to; n < to + size; n++)
        m.at[n].word = 0;
    *word_of(at) = address(to);
}

static void step_set(void)
{
    derrimas_slot at = some_slot();
    uint64_t word = some_word();

    if (ACCEPTED(derrimas_set(&world, at, word), slot_code(at)))
        *word_of(at) = word;
}

static void step_copy(void)
{
    derrimas_slot at = some_slot(), to = some_slot();

    if (ACCEPTED(derrimas_copy(&world, at, to), first(slot_code(at), slot_code(to))))
        *word_of(to) = *word_of(at);
}

static void step_load(void)
{
    derrimas_slot at = some_slot(), to = some_slot();
    uint64_t offset = chance(4), word = 7;
    derrimas_code wanted = first(slot_code(at), slot_code(to));

    wanted = first(wanted, wanted == DERRIMAS_OK ? place_code(*word_of(at), offset) : wanted);
    if (ACCEPTED(derrimas_load(&world, at, offset, to, &word), wanted)) {
        IS(word, m.at[*word_of(at) + offset - DERRIMAS_HEAP_START].word);
        *word_of(to) = word;
    }
}

static void step_store(void)
{
    derrimas_slot at = some_slot(), from = some_slot();
    uint64_t offset = chance(4);
    derrimas_code wanted = first(slot_code(at), slot_code(from));

    wanted = first(wanted, wanted == DERRIMAS_OK ? place_code(*word_of(at), offset) : wanted);
    if (ACCEPTED(derrimas_store(&world, at, offset, from), wanted))
        m.at[*word_of(at) + offset - DERRIMAS_HEAP_START].word = *word_of(from);
}

static void step_write(void)
{
    derrimas_slot at = some_slot();
    uint64_t offset = chance(4), value = some_word();
    derrimas_code wanted = slot_code(at);

    wanted = first(wanted, wanted == DERRIMAS_OK ? place_code(*word_of(at), offset) : wanted);
    if (ACCEPTED(derrimas_write(&world, at, offset, value), wanted))
        m.at[*word_of(at) + offset - DERRIMAS_HEAP_START].word = value;
}

static void step_read(void)
{
    uint64_t word = some_word(), offset = chance(3), value = 7;
    derrimas_object object = {7, 7, 7, true};

    if (ACCEPTED(derrimas_read(&world, word, offset, &value), place_code(word, offset)))
        IS(value, m.at[word + offset - DERRIMAS_HEAP_START].word);
    if (ACCEPTED(derrimas_base(&world, word, &object), points(word) < WORDS ? DERRIMAS_OK : DERRIMAS_EMPTY))
        IS(object.start == address(points(word)) && object.size == m.at[points(word)].size, true);
}

/* ---- finalizers and links: by slots, or by addresses, which no slot has to hold */

typedef struct chosen {
    bool by_address;
    derrimas_slot at;
    uint64_t word;
    derrimas_code code; /* DERRIMAS_BAD_SLOT, or DERRIMAS_OK */
} chosen;

static chosen chosen_object(bool by_address)
{
    chosen it = {by_address, some_slot(), 0, DERRIMAS_OK};

    if (!by_address)
        it.code = slot_code(it.at);
    if (by_address && chance(2))
        it.word = some_word();
    else if (is_slot(it.at))
        it.word = *word_of(it.at);
    return it;
}

static bool is_off_heap(uint64_t word) { return word < DERRIMAS_HEAP_START || word >= address(WORDS); }

static void step_register(void)
{
    const chosen object = chosen_object(chance(2));
    derrimas_kind kind = (derrimas_kind)chance(3);
    uint64_t proc = chance(9), cd = chance(4) ? chance(100) : some_word(), word = object.word;
    uint8_t rank = (uint8_t)(chance(3) ? chance(3) : chance(256));
    bool is_strict = object.by_address || chance(2);
    derrimas_registered r = {7, {7, 7, true}, true};
    struct place *place;
    derrimas_code wanted = first(object.code, is_off_heap(word) ? (is_strict ? DERRIMAS_NO_OBJECT : DERRIMAS_OK) : start_code(word));

    if (!ACCEPTED(object.by_address ? derrimas_register_at(&world, word, kind, proc, cd, rank, &r)
                                    : (is_strict ? derrimas_register_object : derrimas_register)(&world, object.at, kind, proc, cd, rank, &r), wanted)) {
        IS(r.number == 7 && r.replaced.cd == 7, true);
        return;
    }
    IS(r.made, !is_off_heap(word));
    if (!r.made)
        return;
    place = &m.at[word - DERRIMAS_HEAP_START];
    IS(r.number, m.numbers);
    IS(r.replaced.was, place->registered);
    IS(r.replaced.proc == (place->registered ? place->registration.proc : 0) && r.replaced.cd == (place->registered ? place->registration.cd : 0), true);
    place->registered = true;
    place->registration = (derrimas_registration){word, m.numbers++, proc, cd, kind, rank};
}

static void step_unregister(void)
{
    const chosen object = chosen_object(chance(2));
    uint64_t word = object.word;
    derrimas_old old = {7, 7, true};
    derrimas_code wanted = first(object.code, is_off_heap(word) ? DERRIMAS_OK : start_code(word));

    if (!ACCEPTED(object.by_address ? derrimas_unregister_at(&world, word, &old) : derrimas_unregister(&world, object.at, &old), wanted))
        return;
    IS(old.was, !is_off_heap(word) && m.at[word - DERRIMAS_HEAP_START].registered);
    if (!old.was)
        return;
    IS(old.proc == m.at[word - DERRIMAS_HEAP_START].registration.proc && old.cd == m.at[word - DERRIMAS_HEAP_START].registration.cd, true);
    m.at[word - DERRIMAS_HEAP_START].registered = false;
}

static void step_link(void)
{
    derrimas_links kind = (derrimas_links)chance(2);
    const chosen object = chosen_object(chance(2)), target = chosen_object(object.by_address);
    uint64_t offset = chance(3), *link;
    derrimas_link_answer answer = DERRIMAS_LINK_NOT_FOUND;
    derrimas_code wanted = first(object.code, target.code);

    wanted = first(wanted, first(place_code(object.word, offset), start_code(target.word)));
    if (!ACCEPTED(object.by_address ? derrimas_link_at(&world, kind, object.word, offset, target.word, &answer)
                                    : derrimas_link(&world, kind, object.at, offset, target.at, &answer), wanted))
        return;
    link = &m.at[object.word + offset - DERRIMAS_HEAP_START].target[kind];
    IS(answer, *link ? DERRIMAS_LINK_DUPLICATE : DERRIMAS_LINKED);
    *link = target.word;
    if (!object.by_address && chance(2) && ACCEPTED(derrimas_store(&world, object.at, offset, target.at), DERRIMAS_OK))
        m.at[object.word + offset - DERRIMAS_HEAP_START].word = target.word;
}

static void step_unlink(void)
{
    derrimas_links kind = (derrimas_links)chance(2);
    const chosen object = chosen_object(chance(2));
    uint64_t offset = chance(3);
    bool was = false;
    derrimas_code wanted = first(object.code, place_code(object.word, offset));

    if (!ACCEPTED(object.by_address ? derrimas_unlink_at(&world, kind, object.word, offset, &was) : derrimas_unlink(&world, kind, object.at, offset, &was), wanted))
        return;
    IS(was, m.at[object.word + offset - DERRIMAS_HEAP_START].target[kind] != 0);
    m.at[object.word + offset - DERRIMAS_HEAP_START].target[kind] = 0;
}

static void step_move(void)
{
    derrimas_links kind = (derrimas_links)chance(2);
    const chosen object = chosen_object(chance(2)), to = chosen_object(object.by_address);
    uint64_t offset = chance(3), to_offset = chance(3), *old, *new;
    derrimas_link_answer answer = DERRIMAS_LINKED;
    derrimas_code wanted = first(object.code, to.code);

    wanted = first(wanted, first(place_code(object.word, offset), place_code(to.word, to_offset)));
    if (!ACCEPTED(object.by_address ? derrimas_move_link_at(&world, kind, object.word, offset, to.word, to_offset, &answer)
                                    : derrimas_move_link(&world, kind, object.at, offset, to.at, to_offset, &answer), wanted))
        return;
    old = &m.at[object.word + offset - DERRIMAS_HEAP_START].target[kind];
    new = &m.at[to.word + to_offset - DERRIMAS_HEAP_START].target[kind];
    IS(answer, !*old ? DERRIMAS_LINK_NOT_FOUND : old != new && *new ? DERRIMAS_LINK_DUPLICATE : DERRIMAS_LINKED);
    if (answer != DERRIMAS_LINKED || old == new)
        return;
    *new = *old;
    *old = 0;
}

/* ---- collections */

static void step_collect(void)
{
    derrimas_passed passed = {7, 7, 7}, wanted;

    if (!ACCEPTED(derrimas_collect(&world, &passed), m.cycle ? DERRIMAS_CYCLE_OPEN : DERRIMAS_OK))
        return;
    wanted = collected();
    IS(passed.pass == wanted.pass && passed.picked == wanted.picked && passed.reclaimed == wanted.reclaimed, true);
}

/* A cycle in steps. Nothing but marks come between, so that just what is reachable is found; what may come between is for the scripts of chance. */
static void step_cycle(void)
{
    derrimas_passed passed = {7, 7, 7}, wanted;
    bool done = false;

    IS(derrimas_mark(&world, 0, &done), DERRIMAS_BAD_COUNT);
    IS(derrimas_mark(&world, 1, &done), DERRIMAS_NO_CYCLE);
    IS(derrimas_pause(&world, &passed), DERRIMAS_NO_CYCLE);
    if (!ACCEPTED(derrimas_begin(&world), DERRIMAS_OK))
        return;
    m.cycle = true;
    IS(derrimas_begin(&world), DERRIMAS_CYCLE_OPEN);
    step_collect();
    for (uint64_t n = chance(20); n > 0 && !done; n--)
        OK(derrimas_mark(&world, 1 + chance(5), &done));
    OK(derrimas_pause(&world, &passed));
    wanted = collected();
    IS(passed.pass == wanted.pass && passed.picked == wanted.picked && passed.reclaimed == wanted.reclaimed, true);
}

/* ---- the queue */

static void skip_finished(void)
{
    while (m.taken < m.queued && m.finished[m.taken])
        m.taken++;
}

static bool same(const derrimas_entry *one, const derrimas_entry *other) { return memcmp(one, other, sizeof *one) == 0; }

static void step_take(void)
{
    derrimas_entry entry;
    bool waiting = false;

    skip_finished();
    OK(derrimas_waiting(&world, &waiting));
    IS(waiting, m.taken < m.queued);
    if (ACCEPTED(derrimas_take(&world, &entry), m.taken < m.queued ? DERRIMAS_OK : DERRIMAS_EMPTY))
        IS(same(&entry, &m.queue[m.taken++]), true);
}

/* Where it takes none, the entry stays as it was. */
static void finish_and_take(derrimas_entry entry, uint64_t seq, bool is_held)
{
    derrimas_entry next = entry;

    if (is_held) {
        m.finished[seq] = true;
        m.outstanding--;
        skip_finished();
    }
    if (ACCEPTED(derrimas_finish_and_take(&world, &next), !is_held ? DERRIMAS_NOT_HELD : m.taken < m.queued ? DERRIMAS_OK : DERRIMAS_EMPTY))
        IS(same(&next, &m.queue[m.taken++]), true);
    else
        IS(same(&next, &entry), true);
}

static void step_finish(void)
{
    uint64_t seq = m.queued ? m.queued - 1 - chance(m.queued < 20 ? m.queued : 20) : 0;
    derrimas_entry entry = m.queued ? m.queue[seq] : (derrimas_entry){0, 1, 0, address(0), 0, 0, 0};
    derrimas_slot at = some_slot();
    bool is_held = m.queued && !m.finished[seq];

    if (chance(20) == 0) {
        entry.cd++;
        is_held = false;
    }
    if (chance(3) == 0) {
        if (ACCEPTED(derrimas_hold(&world, at, &entry), first(slot_code(at), is_held ? DERRIMAS_OK : DERRIMAS_NOT_HELD)))
            *word_of(at) = entry.obj;
    } else if (chance(2) == 0) {
        finish_and_take(entry, seq, is_held);
    } else if (ACCEPTED(derrimas_finish(&world, &entry), is_held ? DERRIMAS_OK : DERRIMAS_NOT_HELD)) {
        m.finished[seq] = true;
        m.outstanding--;
    }
}

/* Finished entries go once they are more than 1 for each 16 that aren't. */
static void step_forget(void)
{
    uint64_t gone = m.remembered - m.outstanding, count;

    if (16 * gone <= m.outstanding)
        gone = 0;
    else
        m.forgotten = m.queued;
    m.remembered -= gone;
    OK(derrimas_forget(&world, &count));
    IS(count, gone);
    OK(derrimas_forgotten(&world, &count));
    IS(count, m.forgotten);
}

/* ---- all that the world shows */

static void show_objects(void)
{
    derrimas_object object = {0, 0, 0, false};
    derrimas_registration r = {0, 0, 0, 0, DERRIMAS_NORMAL, 0};
    uint64_t from = 0, other = 0, word;

    for (uint64_t n = 0; n < WORDS; n++) {
        if (m.at[n].size) {
            OK(derrimas_next_object(&world, from, &object));
            IS(object.start == address(n) && object.size == m.at[n].size && object.birth == m.at[n].birth && object.atomic == m.at[n].atomic, true);
            from = object.start + 1;
        }
        if (m.at[n].registered) {
            const derrimas_registration *wanted = &m.at[n].registration;
            OK(derrimas_next_registration(&world, other, &r));
            IS(r.object == wanted->object && r.number == wanted->number && r.proc == wanted->proc && r.cd == wanted->cd, true);
            IS(r.kind == wanted->kind && r.rank == wanted->rank, true);
            other = r.object + 1;
        }
        if (m.at[n].owner < WORDS) {
            OK(derrimas_read(&world, address(n), 0, &word));
            IS(word, m.at[n].word);
        }
    }
    IS(derrimas_next_object(&world, from, &object), DERRIMAS_EMPTY);
    IS(derrimas_next_registration(&world, other, &r), DERRIMAS_EMPTY);
}

static void show_links(void)
{
    derrimas_linked linked;

    for (int kind = DERRIMAS_SHORT; kind <= DERRIMAS_LONG; kind++) {
        uint64_t from = 0;
        for (uint64_t n = 0; n < WORDS; n++)
            if (m.at[n].target[kind]) {
                OK(derrimas_next_link(&world, (derrimas_links)kind, from, &linked));
                IS(linked.place == address(n) && linked.target == m.at[n].target[kind], true);
                from = linked.place + 1;
            }
        IS(derrimas_next_link(&world, (derrimas_links)kind, from, &linked), DERRIMAS_EMPTY);
    }
}

static void show_all(void)
{
    derrimas_counts counts;
    derrimas_entry entry;
    uint64_t word, seq = m.queued > 50 ? m.queued - 50 : 0, count;

    show_objects();
    show_links();
    for (uint64_t n = 0; n < FRAMES * DERRIMAS_SLOTS; n++) {
        OK(derrimas_get(&world, derrimas_at(n / DERRIMAS_SLOTS, n % DERRIMAS_SLOTS), &word));
        IS(word, m.slot[n / DERRIMAS_SLOTS][n % DERRIMAS_SLOTS]);
    }
    for (uint64_t held = seq; seq < m.queued; seq++) {
        if (ACCEPTED(derrimas_queued(&world, seq, &entry), seq < m.forgotten && m.finished[seq] ? DERRIMAS_EMPTY : DERRIMAS_OK))
            IS(same(&entry, &m.queue[seq]), true);
        if (!m.finished[seq]) {
            OK(derrimas_next_held(&world, held, &entry));
            IS(entry.seq, seq);
            held = seq + 1;
        }
    }
    IS(derrimas_queued(&world, m.queued, &entry), DERRIMAS_EMPTY);
    OK(derrimas_outstanding(&world, &count));
    IS(count, m.outstanding);
    OK(derrimas_count(&world, &counts));
    IS(counts.passes == m.passes && counts.reclaimed == m.reclaimed && counts.queued == m.queued && counts.outstanding == m.outstanding, true);
}

/* ---- worlds */

static void open_anew(void)
{
    derrimas_entry *queue = m.queue;
    bool *finished = m.finished;

    derrimas_destroy(&world);
    memset(&m, 0, sizeof m);
    for (uint64_t n = 0; n < WORDS; n++)
        m.at[n].owner = WORDS;
    m.queue = queue;
    m.finished = finished;
    if (derrimas_open(&world, BLOCKS, FRAMES) == DERRIMAS_NO_MEMORY)
        lacked++;
    without_memory = false;
    if (!world.inside)
        OK(derrimas_open(&world, BLOCKS, FRAMES));
    IS(derrimas_open(&world, 1, 1), DERRIMAS_HAS_WORLD);
}

static void step_close(void)
{
    if (chance(400))
        return;
    if (ACCEPTED(derrimas_close(&world), m.closed ? DERRIMAS_CLOSED : DERRIMAS_OK))
        m.closed = true;
}

int main(int count, char **given)
{
    static const struct {
        void (*step)(void);
        unsigned weight;
    } steps[] = {{step_alloc, 20}, {step_set, 8}, {step_copy, 6}, {step_load, 8}, {step_store, 12}, {step_write, 4}, {step_read, 4}, {step_register, 10},
                 {step_unregister, 2}, {step_link, 10}, {step_unlink, 3}, {step_move, 5}, {step_collect, 3}, {step_cycle, 1}, {step_take, 4},
                 {step_finish, 6}, {step_forget, 1}};
    uint64_t asked = count > 1 ? strtoull(given[1], NULL, 10) : 1000000, all = 0;

    seed = count > 2 ? strtoull(given[2], NULL, 10) : 1;
    m.queue = __real_malloc(MOST_ENTRIES * sizeof *m.queue);
    m.finished = __real_malloc(MOST_ENTRIES);
    for (unsigned n = 0; n < sizeof steps / sizeof *steps; n++)
        all += steps[n].weight;
    open_anew();
    for (uint64_t done = 0; done < asked && !failures; done++) {
        uint64_t at = chance(all);
        unsigned n = 0;
        if (m.queued > MOST_ENTRIES - WORDS || chance(2000) == 0) {
            without_memory = chance(2);
            open_anew();
        }
        for (; at >= steps[n].weight; n++)
            at -= steps[n].weight;
        without_memory = chance(4) == 0;
        steps[n].step();
        without_memory = false;
        step_close();
        if (done % 500 == 0)
            show_all();
    }
    IS(lacked > 0 || asked < 100000, true);
    derrimas_destroy(&world);
    free(m.queue);
    free(m.finished);
    printf("%llu calls of chance, %u of them refused for want of memory\n", (unsigned long long)asked, lacked);
    return told();
}
