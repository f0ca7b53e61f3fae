// Calls lifecrib_run in the ways that tools/check-c asks for. On standard input are scripts, each after its length in 4 bytes.
//
//     check_c run             writes each result, after its status in 4 bytes and its length in 8; on the way each call gets an output that is
//                             one byte too short, one that is longer than the result, and one of its length alone
//     check_c threads COUNT   makes all calls in that many threads at once, each of which has to give what one thread alone gives
//     check_c stack BYTES     makes each call in a thread with so much stack, and prints how many bytes of it the deepest touched
//     check_c time COUNT ROUNDS  prints of each script the nanoseconds of a call: the least of the means of rounds of so many calls, and
//                             the median of these means
//     check_c memory          compiled with -DREFUSES: makes each call with its first allocation refused, its second, and so on until none is;
//                             writes the number of these in 4 bytes, and then each result as `run` does
//
// Ends with status 1 where a call does what c/lifecrib.h does not say.
#define _GNU_SOURCE
#include <pthread.h>
#include <stdio.h>
#include <stdlib.h>
#include <string.h>
#include <sys/mman.h>
#include <time.h>

#include "lifecrib.h"

#define FILLER 0xa5

static _Noreturn void stop(const char *why) {
    fprintf(stderr, "check_c: %s\n", why);
    exit(1);
}

#ifdef REFUSES
void *__libc_malloc(size_t size);
void *__libc_calloc(size_t count, size_t size);
void *__libc_realloc(void *old, size_t size);
void __libc_free(void *old);

static int is_counting;
static long asked, refused, live;

static int is_refused(void) {
    return is_counting && ++asked == refused;
}

static void *counted(void *found) {
    live += is_counting && found;
    return found;
}

void *malloc(size_t size) {
    return is_refused() ? NULL : counted(__libc_malloc(size));
}

void *calloc(size_t count, size_t size) {
    return is_refused() ? NULL : counted(__libc_calloc(count, size));
}

void *realloc(void *old, size_t size) {
    if (is_refused())
        return NULL;
    void *found = __libc_realloc(old, size);
    live += is_counting && found && !old;
    return found;
}

void free(void *old) {
    live -= is_counting && old;
    __libc_free(old);
}
#endif

struct script {
    uint8_t *text;
    size_t size;
    int32_t status; // of its run, with the result
    size_t length;
    uint8_t *result;
};

static void *room_of(size_t size) {
    void *room = malloc(size ? size : 1);
    if (!room)
        stop("no memory");
    memset(room, FILLER, size);
    return room;
}

static struct script *read_scripts(size_t *count) {
    struct script *found = NULL;
    uint32_t size;
    for (*count = 0; fread(&size, sizeof size, 1, stdin) == 1; ++*count) {
        found = realloc(found, (*count + 1) * sizeof *found);
        if (!found)
            stop("no memory");
        found[*count] = (struct script){room_of(size), size, 0, 0, NULL};
        if (fread(found[*count].text, 1, size, stdin) != size)
            stop("a script is cut off");
    }
    return found;
}

static int is_filler(const uint8_t *bytes, size_t count) {
    for (size_t at = 0; at < count; at++)
        if (bytes[at] != FILLER)
            return 0;
    return 1;
}

// A call with an output of so many bytes. Whether it has the status and the result of the script, or leaves the output if that is longer.
static int gives(const struct script *it, size_t size) {
    uint8_t *output = room_of(size);
    size_t length = 7;
    int32_t status = lifecrib_run(it->text, it->size, output, size, &length);
    size_t taken = it->length <= size ? it->length : 0;
    int holds = status == it->status && length == it->length && !memcmp(output, it->result, taken) && is_filler(output + taken, size - taken);
    free(output);
    return holds;
}

static void run(struct script *it) {
    uint8_t none;
    it->status = lifecrib_run(it->text, it->size, &none, 0, &it->length);
    it->result = room_of(it->length);
    size_t length = 0;
    if (lifecrib_run(it->text, it->size, it->result, it->length, &length) != it->status || length != it->length)
        stop("a second call gives another result");
}

static void check(const struct script *it) {
    if ((it->length && !gives(it, it->length - 1)) || !gives(it, it->length) || !gives(it, it->length + 100))
        stop("a call does not put its result as the header says");
}

static void put(const void *bytes, size_t count) {
    if (fwrite(bytes, 1, count, stdout) != count)
        stop("standard output cannot be written");
}

#ifdef TEXTS
typedef void text_call(uint8_t *output, size_t output_length, size_t *length);

// A text that a call gives, which has to put it as the header says. It is written with its length before it.
static void put_text(text_call *call) {
    uint8_t none;
    size_t length = 7, again = 7;
    call(&none, 0, &length);
    for (size_t size = length ? length - 1 : 0; size <= length + 100; size++) {
        uint8_t *output = room_of(size);
        size_t taken = length <= size ? length : 0;
        asked = 0, is_counting = 1;
        call(output, size, &again);
        is_counting = 0;
        if (asked)
            stop("a text takes memory");
        if (again != length || !is_filler(output + taken, size - taken))
            stop("a text is not put as the header says");
        if (size == length) {
            uint64_t shown = length;
            put(&shown, sizeof shown);
            put(output, length);
        }
        free(output);
    }
}
#endif

static void put_result(int32_t status, const uint8_t *result, uint64_t length) {
    put(&status, sizeof status);
    put(&length, sizeof length);
    put(result, length);
}

// Threads

static struct script *all;
static size_t all_count;

static void *all_calls(void *from) {
    for (size_t at = 0; at < all_count; at++)
        if (!gives(&all[(at + (size_t)from) % all_count], all[(at + (size_t)from) % all_count].length))
            return "a thread gets another result";
    return NULL;
}

static void in_threads(long count) {
    pthread_t threads[64];
    void *fault;
    for (long at = 0; at < count && at < 64; at++)
        if (pthread_create(&threads[at], NULL, all_calls, (void *)(at * (all_count / count))))
            stop("no thread");
    for (long at = 0; at < count && at < 64; at++)
        if (pthread_join(threads[at], &fault) || fault)
            stop(fault ? fault : "no end of a thread");
}

// Stack

static void *one_call(void *of) {
    struct script *it = of;
    uint8_t none;
    it->status = lifecrib_run(it->text, it->size, &none, 0, &it->length);
    return NULL;
}

static size_t in_stack(struct script *it, void *(*call)(void *), size_t size) {
    const size_t page = 4096;
    uint8_t *room = mmap(NULL, size + page, PROT_READ | PROT_WRITE, MAP_PRIVATE | MAP_ANONYMOUS, -1, 0), *stack = room + page;
    pthread_attr_t how;
    pthread_t thread;
    if (room == MAP_FAILED || mprotect(room, page, PROT_NONE))
        stop("no memory");
    memset(stack, FILLER, size);
    if (pthread_attr_init(&how) || pthread_attr_setstack(&how, stack, size) || pthread_create(&thread, &how, call, it))
        stop("no thread");
    pthread_join(thread, NULL);
    size_t free_bytes = 0;
    while (free_bytes < size && stack[free_bytes] == FILLER)
        free_bytes++;
    munmap(room, size + page);
    return size - free_bytes;
}

// Time

static int by_value(const void *one, const void *other) {
    double difference = *(const double *)one - *(const double *)other;
    return (difference > 0) - (difference < 0);
}

static double now(void) {
    struct timespec time;
    clock_gettime(CLOCK_MONOTONIC, &time);
    return time.tv_sec * 1e9 + time.tv_nsec;
}

static void time_of(const struct script *it, long count, long rounds) {
    uint8_t *output = room_of(it->length);
    size_t length;
    double *means = room_of(rounds * sizeof *means);
    for (long round = -1; round < rounds; round++) { // the first is not counted
        double begun = now();
        for (long at = 0; at < count; at++)
            lifecrib_run(it->text, it->size, output, it->length, &length);
        means[round < 0 ? 0 : round] = (now() - begun) / count;
    }
    qsort(means, rounds, sizeof *means, by_value);
    printf("%.0f %.0f\n", means[0], means[rounds / 2]);
    free(output);
    free(means);
}

// Memory

#ifdef REFUSES
static void refuse_each(struct script *it) {
    size_t size = it->length + 65536, length;
    uint8_t *output = room_of(size);
    uint32_t count = 0;
    long number = 0;
    char *kept;
    size_t kept_size;
    FILE *shown = stdout, *held = open_memstream(&kept, &kept_size);
    stdout = held;
    do {
        memset(output, FILLER, size);
        length = 7, asked = live = 0, refused = ++number, is_counting = 1;
        int32_t status = lifecrib_run(it->text, it->size, output, size, &length);
        is_counting = 0;
        if (live)
            stop("a call keeps memory");
        if (length > size || !is_filler(output + length, size - length) || (status == LIFECRIB_NO_MEMORY) != (length == 0))
            stop("a call without memory does not put its result as the header says");
        put_result(status, output, length);
        count++;
    } while (asked >= refused);
    fclose(held);
    stdout = shown;
    put(&count, sizeof count);
    put(kept, kept_size);
    free(kept);
    free(output);
    check(it);
}
#endif

static void *nothing(void *of) {
    return of;
}

int main(int count, char **words) {
    const char *what = count > 1 ? words[1] : "";
    long number = count > 2 ? atol(words[2]) : 0;
    size_t most = 0;
    all = read_scripts(&all_count);
#ifdef TEXTS
    if (!strcmp(what, "texts"))
        put_text(lifecrib_version), put_text(lifecrib_kinds);
#endif
    for (size_t at = 0; at < all_count; at++) {
        struct script *it = &all[at];
        if (!strcmp(what, "stack")) {
            size_t found = in_stack(it, one_call, number);
            most = found > most ? found : most;
            continue;
        }
        run(it);
        if (!strcmp(what, "run")) {
            check(it);
            put_result(it->status, it->result, it->length);
        }
        if (!strcmp(what, "time"))
            time_of(it, number, count > 3 ? atol(words[3]) : 51);
#ifdef REFUSES
        if (!strcmp(what, "memory"))
            refuse_each(it);
#endif
    }
    if (!strcmp(what, "threads"))
        in_threads(number);
    if (!strcmp(what, "stack"))
        printf("%zu %zu\n", most, in_stack(NULL, nothing, number));
    for (size_t at = 0; at < all_count; at++)
        free(all[at].text), free(all[at].result);
    free(all);
    return 0;
}
