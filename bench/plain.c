/* plain.c - what the same takes in plain C.
 *   plain lock N            the nanoseconds of one lock and unlock of a mutex, under which a word is written, of N
 *   plain threads COUNT N   those of each of N times the work of the busy procedure of crates/service_bench, shared out to COUNT threads
 *   plain sleep COUNT N     has COUNT threads for N milliseconds that only sleep, for 50 of these at a time
 *   plain lines LINES FILE  writes the lines of a file, of which there have to be so many, on standard output: a write each
 * bench/run builds it.
 */
#include <pthread.h>
#include <stdint.h>
#include <stdio.h>
#include <stdlib.h>
#include <string.h>
#include <time.h>
#include <unistd.h>

enum { TURNS = 1000, MOST = 64 };

static void fail(const char *what) { fprintf(stderr, "plain: %s\n", what); exit(1); }
static double now(void) { struct timespec t; clock_gettime(CLOCK_MONOTONIC, &t); return t.tv_sec * 1e9 + t.tv_nsec; }

static pthread_mutex_t mutex = PTHREAD_MUTEX_INITIALIZER;
static volatile uint64_t word;

static double lock(uint64_t n)
{
    double t = now();

    for (uint64_t i = 0; i < n; i++) { pthread_mutex_lock(&mutex); word = i; pthread_mutex_unlock(&mutex); }
    return now() - t;
}

static uint64_t share;

/* as many iterations as the procedure makes, on a word that is local to the thread and never 0 */
static void *work(void *first)
{
    uint64_t turned = (uint64_t)(uintptr_t)first;

    for (uint64_t i = 0; i < share * TURNS; i++) { turned ^= turned << 13; turned ^= turned >> 7; turned ^= turned << 17; }
    return (void *)(uintptr_t)turned;
}

/* includes the start and the end of the threads, so it shows how much of several processors the machine really provides */
static double work_by(uint64_t count, uint64_t n)
{
    pthread_t threads[MOST];
    void *last;
    double t = now();

    share = (n + count - 1) / count;
    for (uint64_t i = 0; i < count; i++)
        if (pthread_create(&threads[i], NULL, work, (void *)(uintptr_t)(i + 1))) fail("no thread");
    for (uint64_t i = 0; i < count; i++)
        if (pthread_join(threads[i], &last) || !last) fail("a thread failed");
    return now() - t;
}

static volatile int is_over;

static void *sleep_on(void *unused)
{
    struct timespec nap = {0, 50 * 1000 * 1000};

    while (!is_over) clock_nanosleep(CLOCK_MONOTONIC, 0, &nap, NULL);
    return unused;
}

static void sleep_by(uint64_t count, uint64_t milliseconds)
{
    pthread_t threads[MOST];

    for (uint64_t i = 0; i < count; i++)
        if (pthread_create(&threads[i], NULL, sleep_on, NULL)) fail("no thread");
    usleep(milliseconds * 1000);
    is_over = 1;
    for (uint64_t i = 0; i < count; i++)
        if (pthread_join(threads[i], NULL)) fail("a thread failed");
}

static void write_lines(const char *name, uint64_t wanted)
{
    FILE *file = fopen(name, "rb");
    long size = file && !fseek(file, 0, SEEK_END) ? ftell(file) : 0;
    char *at = size > 0 ? malloc(size) : NULL, *end = at + size;

    if (!at || fseek(file, 0, SEEK_SET) || fread(at, 1, size, file) != (size_t)size) fail("no report");
    for (char *next; at < end; at = next, wanted--) {
        next = memchr(at, '\n', end - at);
        next = next ? next + 1 : end;
        if (write(1, at, next - at) != next - at) fail("output failed");
    }
    if (wanted) fail("another number of lines");
}

int main(int count, char **words)
{
    const char *test = count > 1 ? words[1] : "";
    uint64_t n = count > 2 ? strtoull(words[count - 1], NULL, 10) : 0, first = count == 4 ? strtoull(words[2], NULL, 10) : 0;

    if (count == 4 && !strcmp(test, "lines")) write_lines(words[3], first);
    else if (count == 3 && n && !strcmp(test, "lock")) printf("%.3f\n", lock(n) / n);
    else if (n && first && first <= MOST && !strcmp(test, "threads")) printf("%.3f\n", work_by(first, n) / n);
    else if (n && first && first <= MOST && !strcmp(test, "sleep")) sleep_by(first, n);
    else { fprintf(stderr, "usage: plain lock N, plain threads COUNT N, plain sleep COUNT N, or plain lines LINES FILE\n"); return 2; }
    return 0;
}
