/* Prints how many bytes of stack each call of puffin.h takes, on a stack that is painted before: of scopes that are nested as deep as
 * they may be, and deeper, and of frames of many threads and names. Each line has bytes and calls. */
#define _GNU_SOURCE
#include "puffin.h"
#include <pthread.h>
#include <stdio.h>
#include <stdlib.h>

enum { DEEP = 1024, DEEPER = 20000, WIDE = 3000, STACK = 4 << 20, PAINT = 0xA5 };

static PuffinIds ids;
static PuffinThread thread;
static PuffinProfiler profiler;
static uint8_t *file, *deeper_file, *wide_file, *stream, *deeper_stream;
static uint64_t file_size, deeper_file_size, wide_file_size;
static void (*measured)(void);
static uint8_t *stack;
static size_t bytes_taken;
static volatile uint32_t answers;

/* Paints the stack below this frame, makes the call, and looks how far down the paint is gone. */
static void *call_it(void *unused) {
    volatile uint8_t *here = __builtin_frame_address(0), *at = stack;
    for (; at < here - 256; at++) {
        *at = PAINT;
    }
    measured();
    for (at = stack; *at == PAINT; at++) {
    }
    bytes_taken = (size_t)(here - at);
    return unused;
}

/* How many bytes of stack a function takes. */
static size_t bytes_of(void (*function)(void)) {
    pthread_attr_t attributes;
    pthread_t runs;
    measured = function;
    pthread_attr_init(&attributes);
    if (pthread_attr_setstack(&attributes, stack, STACK) || pthread_create(&runs, &attributes, call_it, NULL)) {
        exit(2);
    }
    pthread_join(runs, NULL);
    pthread_attr_destroy(&attributes);
    return bytes_taken;
}

#define LOOKED_AT(call) answers += (call)

static void version(void) { LOOKED_AT(puffin_version().minor); }
static void interface(void) { LOOKED_AT(puffin_interface()); }
static void fault_name(void) {
    char name[PUFFIN_FAULT_NAME_ROOM];
    LOOKED_AT((uint32_t)puffin_fault_name(PUFFIN_FILE_REFUSED + 256 * PUFFIN_TOO_DEEP, name, sizeof name));
}
static void ids_open(void) {
    PuffinIds own = {0};
    LOOKED_AT(puffin_ids_open(&own));
    LOOKED_AT(puffin_ids_close(&own));
}
static void thread_open(void) {
    PuffinThread own = {0};
    LOOKED_AT(puffin_thread_open_str(&own, &ids, "a thread", true));
    LOOKED_AT(puffin_thread_close(&own));
}
static void profiler_open(void) {
    PuffinProfiler own = {0};
    LOOKED_AT(puffin_profiler_open(&own, &ids));
    LOOKED_AT(puffin_profiler_close(&own));
}
static PuffinThreadName started(const char *name, int64_t start_ns) {
    const PuffinThreadName thread_name = {puffin_text(name), start_ns, true};
    return thread_name;
}
static void registering(void) {
    const PuffinPlace place = {puffin_text("s"), puffin_text("f"), puffin_text("stack.c"), 1};
    uint32_t id;
    LOOKED_AT(puffin_register(&profiler, &place, &id));
}
static void begin_and_end(void) {
    uint64_t scope;
    LOOKED_AT(puffin_begin_str(&thread, 1, 1, "\xC3\xA4 text", &scope));
    LOOKED_AT(puffin_end(&thread, 2, scope));
}
static void switches(void) {
    LOOKED_AT(puffin_set_scopes_on(&thread, true));
    LOOKED_AT(puffin_set_max_bytes(&thread, UINT64_MAX));
    LOOKED_AT(puffin_set_max_pending(&profiler, UINT64_MAX));
    LOOKED_AT(puffin_set_limits(&profiler, 10, 10));
    LOOKED_AT(puffin_snapshot(&profiler));
}
static void report(void) { LOOKED_AT(puffin_report(&thread, &profiler)); }
static void discard(void) {
    uint64_t scopes;
    LOOKED_AT(puffin_thread_discard(&thread, &scopes));
}
static void user_scopes(void) {
    const PuffinThreadName deep = started("deep", 5);
    LOOKED_AT(puffin_user_scopes(&profiler, &deep, stream, 31 * DEEP, false));
}
static void new_frame(void) {
    PuffinFrame frame;
    LOOKED_AT(puffin_new_frame(&profiler, &frame));
}
static void view_clear(void) { LOOKED_AT(puffin_view_clear(&profiler)); }
typedef uint32_t Begin(PuffinProfiler *, uint64_t *);
typedef uint32_t Next(PuffinProfiler *, uint8_t *, size_t, uint64_t *);
static void reading(Begin *begin, Next *next) {
    static uint8_t out[1 << 20];
    uint64_t size;
    LOOKED_AT(begin(&profiler, &size));
    LOOKED_AT(next(&profiler, out, sizeof out, &size));
}
static void file_reading(void) { reading(puffin_file_begin, puffin_file_next); }
static void frame_reading(void) { reading(puffin_frame_begin, puffin_frame_next); }
/* Closes the handles that have most in them: the last calls. */
static void close_all(void) {
    LOOKED_AT(puffin_thread_close(&thread));
    LOOKED_AT(puffin_profiler_close(&profiler));
    LOOKED_AT(puffin_ids_close(&ids));
}
static void count(void) {
    PuffinCount got;
    LOOKED_AT(puffin_count(deeper_stream, 31 * DEEPER, false, &got));
}
static void scopes(void) {
    PuffinScopeList list = {0};
    LOOKED_AT(puffin_scopes(deeper_stream, 31 * DEEPER, false, &list));
}
static void check_file(void) {
    uint64_t frames, offset, got;
    LOOKED_AT(puffin_check_file(deeper_file, deeper_file_size, &frames, &offset, &got));
    LOOKED_AT(puffin_check_file(wide_file, wide_file_size, &frames, &offset, &got));
}
static void frame_streams(void) {
    PuffinStreamList list = {0};
    LOOKED_AT(puffin_frame_streams(deeper_file, deeper_file_size, 0, &list));
    LOOKED_AT(puffin_frame_streams(wide_file, wide_file_size, 0, &list));
}
static void file_threads(void) {
    PuffinFileThreadList list = {0};
    LOOKED_AT(puffin_file_threads(deeper_file, deeper_file_size, &list));
    LOOKED_AT(puffin_file_threads(wide_file, wide_file_size, &list));
}
static void merge_file(void) {
    const PuffinThreadName deep = started("deep", 5), two = started("2", 5);
    PuffinMergedList list = {0};
    LOOKED_AT(puffin_merge_file(file, file_size, &deep, &list));
    LOOKED_AT(puffin_merge_file(wide_file, wide_file_size, &two, &list));
    LOOKED_AT(puffin_merge_file(deeper_file, deeper_file_size, &deep, &list));
}
static void merge_view(void) {
    const PuffinThreadName deep = started("deep", 5);
    PuffinMergedList list = {0};
    LOOKED_AT(puffin_merge_view(&profiler, 10, &deep, &list));
}

static const struct {
    const char *name;
    void (*function)(void);
} calls[] = {
    {"puffin_version", version},
    {"puffin_interface", interface},
    {"puffin_fault_name", fault_name},
    {"puffin_ids_open puffin_ids_close", ids_open},
    {"puffin_thread_open puffin_thread_close", thread_open},
    {"puffin_profiler_open puffin_profiler_close", profiler_open},
    {"puffin_register", registering},
    {"puffin_begin puffin_end", begin_and_end},
    {"puffin_set_scopes_on puffin_set_max_bytes puffin_set_max_pending puffin_set_limits puffin_snapshot", switches},
    {"puffin_report", report},
    {"puffin_thread_discard", discard},
    {"puffin_user_scopes", user_scopes},
    {"puffin_new_frame", new_frame},
    {"puffin_file_begin puffin_file_next", file_reading},
    {"puffin_frame_begin puffin_frame_next", frame_reading},
    {"puffin_merge_view", merge_view},
    {"puffin_view_clear", view_clear},
    {"puffin_count", count},
    {"puffin_scopes", scopes},
    {"puffin_check_file", check_file},
    {"puffin_frame_streams", frame_streams},
    {"puffin_file_threads", file_threads},
    {"puffin_merge_file", merge_file},
    {"puffin_thread_close puffin_profiler_close puffin_ids_close", close_all},
};

/* The bytes of scopes that are nested so deep. */
static uint8_t *nested(size_t deep) {
    uint8_t *bytes = calloc(31, deep);
    for (size_t i = 0; i < deep; i++) {
        uint64_t children = 31 * (deep - 1 - i);
        uint8_t *begin = bytes + 22 * i, *end = bytes + 22 * deep + 9 * i;
        begin[0] = '(';
        begin[1] = 1;
        begin[5] = 5;
        memcpy(begin + 14, &children, sizeof children);
        end[0] = ')';
        end[1] = 9;
    }
    return bytes;
}

/* Scopes and a name for each of many threads, which wait for a frame. */
static uint32_t wait_wide(void) {
    uint32_t fault = PUFFIN_OK, id;
    for (int i = 0; i < WIDE; i++) {
        char name[20];
        snprintf(name, sizeof name, "%d", i * 7919 % WIDE);
        const PuffinPlace place = {puffin_text(NULL), puffin_text(name), puffin_text("stack.c"), 1};
        const PuffinThreadName thread_name = started(name, WIDE - i);
        fault |= puffin_register(&profiler, &place, &id);
        fault |= puffin_user_scopes(&profiler, &thread_name, stream + 22 * (DEEP - 1), 31, false);
    }
    return fault;
}

/* The file of one frame of these scopes, which the view has too. */
static uint8_t *file_of(const uint8_t *bytes, size_t size, uint64_t *file_bytes) {
    const PuffinThreadName deep = started("deep", 5);
    PuffinFrame frame;
    uint8_t *made;
    uint32_t fault = puffin_view_clear(&profiler);
    fault |= bytes ? puffin_user_scopes(&profiler, &deep, bytes, size, false) : wait_wide();
    fault |= puffin_new_frame(&profiler, &frame) | puffin_file_begin(&profiler, file_bytes);
    made = malloc(*file_bytes);
    fault |= puffin_file_next(&profiler, made, *file_bytes, file_bytes);
    if (fault != PUFFIN_OK) {
        exit(3);
    }
    return made;
}

int main(void) {
    stack = aligned_alloc(4096, STACK);
    stream = nested(DEEP);
    deeper_stream = nested(DEEPER);
    if (puffin_ids_open(&ids) | puffin_profiler_open(&profiler, &ids) | puffin_thread_open_str(&thread, &ids, "main", false)) {
        return 3;
    }
    wide_file = file_of(NULL, 0, &wide_file_size);
    deeper_file = file_of(deeper_stream, 31 * DEEPER, &deeper_file_size);
    file = file_of(stream, 31 * DEEP, &file_size);
    for (size_t i = 0; i < sizeof calls / sizeof *calls; i++) {
        if (calls[i].function == report || calls[i].function == discard || calls[i].function == close_all) {
            begin_and_end();
        }
        if ((calls[i].function == new_frame || calls[i].function == close_all) && wait_wide() != PUFFIN_OK) {
            return 3;
        }
        if (calls[i].function == close_all) {
            new_frame();
        }
        printf("%zu %s\n", bytes_of(calls[i].function), calls[i].name);
    }
    return 0;
}
