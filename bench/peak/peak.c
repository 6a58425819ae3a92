/* A peak of objects of 256 bytes and what stays of it.
 *
 *     peak run NAME LOAD COUNT LEFT SEED            the allocator NAME carries the load out, and the pages that it keeps are printed
 *     peak script LOAD COUNT LEFT SEED FIXED        the same as commands for `kmemrun one`, with FIXED of those that are left fixed
 *     peak replies LOAD COUNT LEFT SEED FIXED       the replies that those commands have to get
 *
 * COUNT objects are allocated one behind another, and all but LEFT, which are drawn from the seed, are freed in a drawn order. The allocator is asked to give
 * memory back, there and once more at the end. Between, by LOAD:
 *     still       nothing
 *     turn-B      eight times over each one that is left is freed and a new one allocated, B at a time, in a drawn order
 *     copy-B      each one that is left is copied to a new one and then freed, B at a time, in a drawn order
 * Each object is filled with its own bytes, which are compared when it is freed or copied, and at the end.
 *
 * It is linked with no allocator: the one to measure is loaded before it, and its way of giving memory back is looked up by name.
 * It allocates nothing for itself before it has read its pages. Huge pages are off.
 */
#define _GNU_SOURCE
#include <dlfcn.h>
#include <fcntl.h>
#include <stdbool.h>
#include <stdint.h>
#include <stdio.h>
#include <stdlib.h>
#include <string.h>
#include <sys/mman.h>
#include <sys/prctl.h>
#include <unistd.h>

enum { SIZE = 256, WORDS = SIZE / 8, PAGE = 4096, TURNS = 8, MOST = 1 << 20 };

static enum { RUN, SCRIPT, REPLIES } mode;
static uint64_t **object;   /* where the object with this number is; numbers are never used again */
static uint32_t *content;   /* what it holds */
static uint32_t *living;    /* the numbers of those that live */
static uint32_t made, left;
static uint64_t seed;

static void stop(const char *why)
{
    fprintf(stderr, "peak: %s\n", why);
    exit(1);
}

static uint64_t mixed(uint64_t z)
{
    z = (z ^ (z >> 30)) * 0xbf58476d1ce4e5b9u;
    z = (z ^ (z >> 27)) * 0x94d049bb133111ebu;
    return z ^ (z >> 31);
}

static uint32_t drawn(uint32_t below)
{
    seed += 0x9e3779b97f4a7c15u;
    return mixed(seed) % below;
}

static void shuffle(uint32_t *list, uint32_t length)
{
    for (uint32_t i = length; i > 1; i--) {
        uint32_t other = drawn(i), it = list[i - 1];
        list[i - 1] = list[other];
        list[other] = it;
    }
}

static void *pages_for(size_t size)
{
    void *it = mmap(NULL, size, PROT_READ | PROT_WRITE, MAP_PRIVATE | MAP_ANONYMOUS, -1, 0);
    if (it == MAP_FAILED)
        stop("no memory for its own tables");
    memset(it, 1, size);
    return it;
}

static void compare(uint32_t number)
{
    for (uint32_t i = 0; i < WORDS; i++)
        if (object[number][i] != mixed(content[number] * (uint64_t)WORDS + i))
            stop("an object lost its bytes");
}

/* make: a new object that holds this content. */
static uint32_t make(uint32_t held)
{
    uint32_t number = made++;
    if (number >= MOST)
        stop("too many objects");
    content[number] = held;
    if (mode == RUN) {
        object[number] = malloc(SIZE);
        if (!object[number])
            stop("malloc refused");
        for (uint32_t i = 0; i < WORDS; i++)
            object[number][i] = mixed(held * (uint64_t)WORDS + i);
    } else if (mode == SCRIPT) {
        printf("1 put n%u v%u\n", number, held);
    } else {
        puts("new");
    }
    return number;
}

static void drop(uint32_t number)
{
    if (mode == RUN) {
        compare(number);
        free(object[number]);
        object[number] = NULL;
    } else if (mode == SCRIPT) {
        printf("1 del n%u\n", number);
    } else {
        printf("del v%u\n", content[number]);
    }
}

static uint32_t copied(uint32_t old)
{
    uint32_t number = make(content[old]);
    if (mode == RUN) {
        memcpy(object[number], object[old], SIZE);
        compare(number);
    }
    return number;
}

/* The pages of this process that are its own and not given back. It allocates nothing. */
static long kept_pages(void)
{
    static char text[8192];
    int file = open("/proc/self/smaps_rollup", O_RDONLY);
    ssize_t length = file < 0 ? -1 : read(file, text, sizeof text - 1);
    if (length <= 0)
        stop("/proc/self/smaps_rollup can't be read");
    close(file);
    text[length] = 0;
    char *own = strstr(text, "\nAnonymous:"), *lazy = strstr(text, "\nLazyFree:");
    if (!own || !lazy)
        stop("/proc/self/smaps_rollup has no Anonymous or no LazyFree");
    return (atol(own + 11) - atol(lazy + 10)) * 1024 / PAGE;
}

/* The symbol, which has to be of the library that malloc is of. */
static void *found(const char *symbol)
{
    Dl_info of_malloc, of_it;
    void *it = dlsym(RTLD_DEFAULT, symbol), *allocates = dlsym(RTLD_DEFAULT, "malloc");
    if (!it || !allocates || !dladdr(it, &of_it) || !dladdr(allocates, &of_malloc) || of_it.dli_fbase != of_malloc.dli_fbase) {
        fprintf(stderr, "peak: malloc is of no library that has %s\n", symbol);
        exit(1);
    }
    return it;
}

static const char *name; /* of the allocator */
static char version[64] = "unknown";

typedef int Control(const char *, void *, size_t *, void *, size_t);

/* Has the allocator give back what it can, in the way that it has for that, and writes its version where it tells one. */
static void give_back(void)
{
    size_t size = sizeof version;
    if (strcmp(name, "glibc") == 0) {
        ((int (*)(size_t))found("malloc_trim"))(0);
        snprintf(version, size, "%s", ((const char *(*)(void))found("gnu_get_libc_version"))());
    } else if (strcmp(name, "jemalloc") == 0) {
        Control *control = (Control *)found("mallctl");
        const char *told = NULL;
        size_t length = sizeof told;
        if (control("thread.tcache.flush", NULL, NULL, NULL, 0) || control("arena.4096.purge", NULL, NULL, NULL, 0) ||
            control("version", &told, &length, NULL, 0))
            stop("mallctl refused");
        snprintf(version, size, "%.*s", (int)strcspn(told, "-"), told);
    } else if (strcmp(name, "mimalloc") == 0) {
        ((void (*)(bool))found("mi_collect"))(true);
        int number = ((int (*)(void))found("mi_version"))();
        snprintf(version, size, "%d.%d.%d", number / 100, number / 10 % 10, number % 10);
    } else if (strcmp(name, "tcmalloc") == 0) {
        ((void (*)(void))found("MallocExtension_MarkThreadIdle"))(); /* else this thread's cache keeps thousands of freed objects */
        ((void (*)(void))found("MallocExtension_ReleaseFreeMemory"))();
        snprintf(version, size, "%s", ((const char *(*)(int *, int *, const char **))found("tc_version"))(NULL, NULL, NULL));
    } else if (strcmp(name, "scudo") == 0) {
        found("__scudo_print_stats");
        int (*option)(int, int) = (int (*)(int, int))found("mallopt");
        option(-104, 0); /* M_PURGE_ALL, which older ones refuse */
        if (!option(-101, 0)) /* M_PURGE */
            stop("mallopt refused");
    } else if (strcmp(name, "musl") == 0) {
        if (dlsym(RTLD_DEFAULT, "gnu_get_libc_version"))
            stop("this is not musl");
    } else {
        stop("NAME is glibc, jemalloc, mimalloc, tcmalloc, scudo or musl");
    }
}

static void carry_out(const char *load, uint32_t count)
{
    uint32_t batch = 0, fresh = 0;
    bool turn = sscanf(load, "turn-%u", &batch) == 1, copy = sscanf(load, "copy-%u", &batch) == 1;
    if (!(turn || copy ? batch > 0 && left % batch == 0 : strcmp(load, "still") == 0))
        stop("LOAD is still, turn-B or copy-B, where B divides LEFT");
    for (uint32_t i = 0; i < count; i++)
        living[i] = make(fresh++);
    shuffle(living, count);
    for (uint32_t i = left; i < count; i++)
        drop(living[i]);
    if (mode == RUN)
        give_back();
    for (uint32_t round = 0; turn && round < TURNS; round++) {
        shuffle(living, left);
        for (uint32_t at = 0; at < left; at += batch) {
            for (uint32_t i = at; i < at + batch; i++)
                drop(living[i]);
            for (uint32_t i = at; i < at + batch; i++)
                living[i] = make(fresh++);
        }
    }
    if (copy) {
        uint32_t *old = living + left; /* those places are free by now */
        shuffle(living, left);
        for (uint32_t at = 0; at < left; at += batch) {
            memcpy(old, living + at, batch * sizeof *old);
            for (uint32_t i = 0; i < batch; i++)
                living[at + i] = copied(old[i]);
            for (uint32_t i = 0; i < batch; i++)
                drop(old[i]);
        }
    }
    shuffle(living, left);
}

static int by_number(const void *a, const void *b)
{
    uintptr_t left = *(const uintptr_t *)a, right = *(const uintptr_t *)b;
    return (left > right) - (left < right);
}

/* How many pages have a byte of an object that is left. */
static uint32_t pages_under(void)
{
    uintptr_t *page = pages_for(2 * left * sizeof *page);
    uint32_t different = 0;
    for (uint32_t i = 0; i < left; i++) {
        page[2 * i] = (uintptr_t)object[living[i]] / PAGE;
        page[2 * i + 1] = ((uintptr_t)object[living[i]] + SIZE - 1) / PAGE;
    }
    qsort(page, 2 * left, sizeof *page, by_number);
    for (uint32_t i = 0; i < 2 * left; i++)
        different += i == 0 || page[i] != page[i - 1];
    return different;
}

static void run(const char *load, uint32_t count)
{
    prctl(PR_SET_THP_DISABLE, 1, 0, 0, 0);
    free(malloc(SIZE));
    long before = kept_pages();
    carry_out(load, count);
    give_back();
    long after = kept_pages();
    for (uint32_t i = 0; i < left; i++)
        compare(living[i]);
    printf("kept %ld under %u version %s\n", after - before, pages_under(), version);
}

int main(int words, char **word)
{
    mode = words == 7 && strcmp(word[1], "run") == 0 ? RUN : words == 7 && strcmp(word[1], "script") == 0 ? SCRIPT : REPLIES;
    if (words != 7 || (mode == REPLIES && strcmp(word[1], "replies") != 0))
        stop("usage: peak run NAME LOAD COUNT LEFT SEED, or peak script|replies LOAD COUNT LEFT SEED FIXED");
    char **rest = word + (mode == RUN ? 3 : 2);
    uint32_t count = atol(rest[1]), fixed = mode == RUN ? 0 : atol(rest[4]);
    left = atol(rest[2]);
    seed = atol(rest[3]);
    if (left < 1 || left > count / 2 || count > MOST || fixed > left || sysconf(_SC_PAGESIZE) != PAGE)
        stop("LEFT is 1 to half of COUNT, FIXED is at most LEFT, and pages have 4096 bytes");
    object = pages_for(MOST * sizeof *object);
    content = pages_for(MOST * sizeof *content);
    living = pages_for(MOST * sizeof *living);
    name = word[2];
    if (mode == RUN)
        run(rest[0], count);
    else
        carry_out(rest[0], count);
    for (uint32_t i = 0; i < fixed; i++)
        mode == SCRIPT ? printf("1 fix n%u\n", living[i]) : puts("ok");
    for (uint32_t i = 0; mode != RUN && fixed < left && i < left; i++)
        mode == SCRIPT ? printf("1 get n%u\n", living[i]) : printf("val v%u\n", content[living[i]]);
    if (fflush(stdout) || ferror(stdout))
        stop("its output can't be written");
    return 0;
}
