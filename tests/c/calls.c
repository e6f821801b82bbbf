/* Calls each function of puffin.h. calls.c FILE writes the file of a profiler's view there; two threads record at once, with
 * a lock around what they share. With a number as second argument they record one after the other, and the allocation with
 * that number is refused: the program tries once more what was refused for memory. */
#include "puffin.h"
#include <inttypes.h>
#include <pthread.h>
#include <stdio.h>
#include <stdlib.h>
#include <string.h>

/* The library's allocations are counted, and one of them is refused. The linker puts these in place of malloc and realloc
 * (--wrap), but not within the C library, as when a thread is started. */
void *__real_malloc(size_t size);
void *__real_realloc(void *block, size_t size);
static long allocations, refused_one = -1;
/* how many calls were refused for memory */
static long refused_calls;
static bool counts;

static bool refuses(void) {
    return __atomic_load_n(&counts, __ATOMIC_SEQ_CST) && __atomic_add_fetch(&allocations, 1, __ATOMIC_SEQ_CST) == refused_one;
}
void *__wrap_malloc(size_t size) { return refuses() ? NULL : __real_malloc(size); }
void *__wrap_realloc(void *block, size_t size) { return refuses() ? NULL : __real_realloc(block, size); }

#define TEXT(s) (const uint8_t *)(s), sizeof(s) - 1
#define PLACE(name, function, file, line) &(const PuffinPlace){{TEXT(name)}, {TEXT(function)}, {TEXT(file)}, line}

static const PuffinThreadName gpu = {{TEXT("gpu")}, 5, true}, main_thread = {{TEXT("main")}, 1000, true};
static const PuffinThreadName main_without_start = {{TEXT("main")}, 0, false}, no_text = {{TEXT("\xff")}, 0, false};

static void fail(const char *what, long got, long wanted) {
    fprintf(stderr, "%s: %ld in place of %ld\n", what, got, wanted);
    exit(1);
}
static void is(const char *what, uint64_t got, uint64_t wanted) {
    if (got != wanted)
        fail(what, (long)got, (long)wanted);
}

/* What is refused for memory is called once more. */
#define CALL(call)                                                                                                          \
    do {                                                                                                                    \
        uint32_t answer_ = call;                                                                                            \
        if (answer_ == PUFFIN_MEMORY) {                                                                                     \
            refused_calls++;                                                                                                \
            answer_ = call;                                                                                                 \
        }                                                                                                                   \
        is(#call, answer_, PUFFIN_OK);                                                                                      \
    } while (0)

/* The same of a call that is refused for another reason. */
#define REFUSED(what, call, wanted)                                                                                         \
    do {                                                                                                                    \
        uint32_t answer_ = call;                                                                                            \
        if (answer_ == PUFFIN_MEMORY) {                                                                                     \
            refused_calls++;                                                                                                \
            answer_ = call;                                                                                                 \
        }                                                                                                                   \
        is(what, answer_, wanted);                                                                                          \
    } while (0)

static PuffinIds ids;
static PuffinProfiler profiler;
static pthread_mutex_t lock = PTHREAD_MUTEX_INITIALIZER;

struct work {
    const char *name;
    int64_t start;
    bool long_texts;
};

/* A function with two scopes in it, twice, each reported under the lock. */
static void *record(void *given) {
    struct work *work = given;
    PuffinThread thread = {0};
    uint32_t whole = 0, part = 0;
    uint64_t outer, inner;
    const uint8_t *name = (const uint8_t *)work->name;
    pthread_mutex_lock(&lock);
    CALL(puffin_thread_open(&thread, &ids, name, strlen(work->name), work->long_texts));
    CALL(puffin_register(&profiler, PLACE("", "record", "calls.c", 50), &whole));
    CALL(puffin_register(&profiler, PLACE("part", "record", "calls.c", 60), &part));
    pthread_mutex_unlock(&lock);
    int64_t now = work->start;
    for (int round = 0; round < 2; round++) {
        CALL(puffin_begin(&thread, now, whole, NULL, 0, &outer));
        pthread_mutex_lock(&lock);
        is("a report while a scope is open", puffin_report(&thread, &profiler), PUFFIN_SCOPES_OPEN);
        pthread_mutex_unlock(&lock);
        for (int step = 0; step < 2; step++) {
            now += 100;
            CALL(puffin_begin(&thread, now, part, TEXT("step"), &inner));
            is("an outer scope's end", puffin_end(&thread, now, outer), PUFFIN_MISMATCHED_END);
            is("end", puffin_end(&thread, now += 50, inner), PUFFIN_OK);
        }
        is("end", puffin_end(&thread, now += 100, outer), PUFFIN_OK);
        pthread_mutex_lock(&lock);
        CALL(puffin_report(&thread, &profiler));
        pthread_mutex_unlock(&lock);
    }
    CALL(puffin_thread_close(&thread));
    is("a thread closed twice", puffin_thread_close(&thread), PUFFIN_NOT_OPEN);
    return NULL;
}

static void refusals(void) {
    PuffinIds no_ids = {0};
    PuffinThread none = {0}, thread = {0};
    PuffinProfiler nothing = {0};
    PuffinFrame frame = {.index = 7};
    uint64_t number = 7;
    uint32_t id = 7;
    uint8_t out[1] = {7};
    is("close", puffin_ids_close(&no_ids), PUFFIN_NOT_OPEN);
    is("open without ids", puffin_thread_open(&none, &no_ids, TEXT("t"), false), PUFFIN_NOT_OPEN);
    is("open without ids", puffin_profiler_open(&nothing, &no_ids), PUFFIN_NOT_OPEN);
    is("close", puffin_thread_close(&none), PUFFIN_NOT_OPEN);
    is("close", puffin_profiler_close(&nothing), PUFFIN_NOT_OPEN);
    is("begin", puffin_begin(&none, 0, 0, TEXT("\xff"), &number), PUFFIN_NOT_OPEN);
    is("what no beginning gives", number, PUFFIN_NO_SCOPE);
    number = 7;
    is("end", puffin_end(&none, 0, 0), PUFFIN_NOT_OPEN);
    is("end", puffin_end(&none, 0, 1), PUFFIN_NOT_OPEN);
    is("discard", puffin_thread_discard(&none, &number), PUFFIN_NOT_OPEN);
    is("switch", puffin_set_scopes_on(&none, true), PUFFIN_NOT_OPEN);
    is("what is closed is off", puffin_scopes_on(&none), false);
    is("limit", puffin_set_max_bytes(&none, 1), PUFFIN_NOT_OPEN);
    is("limit", puffin_set_max_pending(&nothing, 1), PUFFIN_NOT_OPEN);
    is("register", puffin_register(&nothing, PLACE("\xff", "", "", 0), &id), PUFFIN_NOT_OPEN);
    is("report", puffin_report(&none, &profiler), PUFFIN_NOT_OPEN);
    is("new frame", puffin_new_frame(&nothing, &frame), PUFFIN_NOT_OPEN);
    is("snapshot", puffin_snapshot(&nothing), PUFFIN_NOT_OPEN);
    is("limits", puffin_set_limits(&nothing, 1, 1), PUFFIN_NOT_OPEN);
    is("clear", puffin_view_clear(&nothing), PUFFIN_NOT_OPEN);
    is("packet", puffin_frame_begin(&nothing, &number), PUFFIN_NOT_OPEN);
    is("packet", puffin_frame_next(&nothing, out, 1, &number), PUFFIN_NOT_OPEN);
    is("file", puffin_file_begin(&nothing, &number), PUFFIN_NOT_OPEN);
    is("file", puffin_file_next(&nothing, out, 1, &number), PUFFIN_NOT_OPEN);
    CALL(puffin_thread_open(&thread, &ids, TEXT("t"), false));
    is("report", puffin_report(&thread, &nothing), PUFFIN_NOT_OPEN);
    is("open again", puffin_thread_open(&thread, &ids, TEXT("t"), false), PUFFIN_IS_OPEN);
    is("open again", puffin_ids_open(&ids), PUFFIN_IS_OPEN);
    is("open again", puffin_profiler_open(&profiler, &ids), PUFFIN_IS_OPEN);
    is("no id", puffin_begin(&thread, 0, 0, TEXT(""), &number), PUFFIN_NO_ID);
    is("no text", puffin_begin(&thread, 0, 1, TEXT("\xff"), &number), PUFFIN_NOT_TEXT);
    number = 7;
    REFUSED("no text", puffin_register(&profiler, PLACE("\xff", "f", "", 0), &id), PUFFIN_NOT_TEXT);
    REFUSED("no text", puffin_register(&profiler, PLACE("s", "\xff", "", 0), &id), PUFFIN_NOT_TEXT);
    REFUSED("no text", puffin_register(&profiler, PLACE("s", "f", "\xff", 0), &id), PUFFIN_NOT_TEXT);
    is("end of nothing", puffin_end(&thread, 0, 1), PUFFIN_MISMATCHED_END);
    is("end of no scope", puffin_end(&thread, 0, PUFFIN_NO_SCOPE), PUFFIN_OK);
    CALL(puffin_thread_close(&thread));
    is("what a refusal leaves", number + id + out[0] + frame.index, 28);
}

/* A report that is refused again and again is given up. Its scope is gone; the next frame has the name of its function. */
static void discarding(void) {
    PuffinThread thread = {0};
    uint64_t scope = 0, scopes = 7;
    uint32_t id = 0;
    CALL(puffin_thread_open(&thread, &ids, TEXT("main"), true));
    CALL(puffin_register(&profiler, PLACE("", "kept name", "calls.c", 7), &id));
    CALL(puffin_begin(&thread, 1000, id, TEXT("given up"), &scope));
    is("discard", puffin_thread_discard(&thread, &scopes), PUFFIN_SCOPES_OPEN);
    is("what a refusal leaves", scopes, 7);
    is("end", puffin_end(&thread, 1001, scope), PUFFIN_OK);
    for (int i = 0; i < 2; i++) {
        REFUSED("long texts", puffin_report(&thread, &profiler), PUFFIN_UNLIKE_FORMS);
    }
    is("discard", puffin_thread_discard(&thread, &scopes), PUFFIN_OK);
    is("scopes that were given up", scopes, 1);
    CALL(puffin_report(&thread, &profiler));
    is("discard", puffin_thread_discard(&thread, &scopes), PUFFIN_OK);
    is("scopes that were given up", scopes, 0);
    CALL(puffin_thread_close(&thread));
}

/* Two places have different ids, also with two profilers that were opened with the same ids. */
static void sharing(void) {
    PuffinProfiler other = {0};
    uint32_t first = 0, second = 0, third = 0;
    CALL(puffin_profiler_open(&other, &ids));
    CALL(puffin_register(&profiler, PLACE("", "one", "calls.c", 1), &first));
    CALL(puffin_register(&profiler, PLACE("", "two", "calls.c", 2), &second));
    CALL(puffin_register(&other, PLACE("", "one", "calls.c", 1), &third));
    is("a profiler's ids differ", first != second, true);
    is("the profilers' ids differ", first != third && second != third, true);
    CALL(puffin_profiler_close(&other));
}

/* Scopes that are off begin nothing, and what is open is ended. */
static void switching(void) {
    PuffinThread thread = {0};
    uint64_t outer = 0, inner = 7, scopes = 0;
    CALL(puffin_thread_open(&thread, &ids, TEXT("switched"), false));
    is("scopes are on at first", puffin_scopes_on(&thread), true);
    CALL(puffin_begin(&thread, 1, 1, TEXT(""), &outer));
    is("off", puffin_set_scopes_on(&thread, false), PUFFIN_OK);
    is("scopes are off", puffin_scopes_on(&thread), false);
    is("begin", puffin_begin(&thread, 2, 1, TEXT("off"), &inner), PUFFIN_OK);
    is("no scope", inner, PUFFIN_NO_SCOPE);
    is("end of no scope", puffin_end(&thread, 3, inner), PUFFIN_OK);
    is("end", puffin_end(&thread, 4, outer), PUFFIN_OK);
    is("nothing is open", puffin_thread_discard(&thread, &scopes), PUFFIN_OK);
    is("scopes", scopes, 1);
    is("still off", puffin_scopes_on(&thread), false);
    is("on", puffin_set_scopes_on(&thread, true), PUFFIN_OK);
    CALL(puffin_begin(&thread, 5, 1, TEXT(""), &outer));
    is("end", puffin_end(&thread, 6, outer), PUFFIN_OK);
    is("discard", puffin_thread_discard(&thread, &scopes), PUFFIN_OK);
    is("scopes", scopes, 1);
    CALL(puffin_thread_close(&thread));
    is("what is closed is off", puffin_scopes_on(&thread), false);
}

/* The bytes of one scope: id 1, from 5 to 9, without a text. */
static const uint8_t one_scope[31] = {'(', 1, 0, 0, 0, 5, 0, 0, 0, 0, 0, 0, 0, 0, 0, 0, 0, 0, 0, 0, 0, 0, ')', 9};

/* A thread that may hold one scope of 31 bytes and 127 of text, and a profiler that may hold 31 bytes. A refused call leaves what is
 * held. */
static void limiting(void) {
    PuffinThread thread = {0};
    PuffinProfiler small = {0};
    PuffinFrame frame = {0};
    uint64_t outer = 0, inner = 7;
    CALL(puffin_thread_open(&thread, &ids, TEXT("limited"), false));
    CALL(puffin_profiler_open(&small, &ids));
    is("limit", puffin_set_max_bytes(&thread, 31 + 127), PUFFIN_OK);
    is("limit", puffin_set_max_pending(&small, 31), PUFFIN_OK);
    CALL(puffin_begin(&thread, 1, 1, NULL, 0, &outer));
    is("no room for a scope", puffin_begin(&thread, 2, 1, NULL, 0, &inner), PUFFIN_MEMORY);
    is("what no beginning gives", inner, PUFFIN_NO_SCOPE);
    is("its end", puffin_end(&thread, 2, inner), PUFFIN_OK);
    is("end", puffin_end(&thread, 3, outer), PUFFIN_OK);
    CALL(puffin_user_scopes(&small, &gpu, one_scope, 31, false));
    is("no room for a report", puffin_report(&thread, &small), PUFFIN_MEMORY);
    is("no room for own scopes", puffin_user_scopes(&small, &gpu, one_scope, 31, false), PUFFIN_MEMORY);
    CALL(puffin_new_frame(&small, &frame));
    is("scopes", frame.scopes, 1);
    CALL(puffin_report(&thread, &small));
    is("no limit", puffin_set_max_bytes(&thread, UINT64_MAX), PUFFIN_OK);
    is("no limit", puffin_set_max_pending(&small, UINT64_MAX), PUFFIN_OK);
    CALL(puffin_begin(&thread, 4, 1, NULL, 0, &outer));
    CALL(puffin_begin(&thread, 5, 1, NULL, 0, &inner));
    is("end", puffin_end(&thread, 6, inner), PUFFIN_OK);
    is("end", puffin_end(&thread, 7, outer), PUFFIN_OK);
    CALL(puffin_report(&thread, &small));
    CALL(puffin_new_frame(&small, &frame));
    is("scopes", frame.scopes, 3);
    CALL(puffin_thread_close(&thread));
    CALL(puffin_profiler_close(&small));
}

static void counting(void) {
    PuffinCount count = {0};
    CALL(puffin_count(NULL, 0, false, &count));
    is("scopes", count.scopes, 0);
    is("start", (uint64_t)count.start_ns, (uint64_t)INT64_MAX);
    is("stop", (uint64_t)count.stop_ns, (uint64_t)INT64_MIN);
    CALL(puffin_count(one_scope, 31, false, &count));
    is("scopes", count.scopes, 1);
    is("depth", count.depth, 1);
    is("start", (uint64_t)count.start_ns, 5);
    is("stop", (uint64_t)count.stop_ns, 9);
    is("cut bytes", puffin_count(one_scope, 30, false, &count), PUFFIN_PREMATURE_END);
    is("what a refusal leaves", count.scopes, 1);
}

/* Appends the beginning of a scope, and its end. */
static size_t begin_at(uint8_t *at, uint8_t id, uint8_t start, const char *text, uint8_t children) {
    size_t size = strlen(text);
    at[0] = '(';
    at[1] = id;
    at[5] = start;
    at[13] = (uint8_t)size;
    memcpy(at + 14, text, size);
    at[14 + size] = children;
    return 22 + size;
}
static size_t end_at(uint8_t *at, uint8_t stop) {
    at[0] = ')';
    at[1] = stop;
    return 9;
}
static void is_scope(const PuffinScope *scope, uint32_t id, int64_t start, int64_t stop, uint64_t depth, uint64_t text_at,
                     uint64_t text_size) {
    is("id", scope->id, id);
    is("start", (uint64_t)scope->start_ns, (uint64_t)start);
    is("stop", (uint64_t)scope->stop_ns, (uint64_t)stop);
    is("depth", scope->depth, depth);
    is("place of the text", scope->text_at, text_at);
    is("size of the text", scope->text_size, text_size);
}

/* A scope with two scopes in it, the first of which has one more, and a scope behind it. */
static void listing(void) {
    static uint8_t bytes[200], texts[9];
    static PuffinScope scopes[6];
    PuffinScopeList none = {0}, one = {scopes, 1, texts, 3, 7, 7}, list = {scopes, 6, texts, sizeof texts, 7, 7};
    size_t size = 0;
    size += begin_at(bytes + size, 1, 5, "ab", 32 + 34 + 31);
    size += begin_at(bytes + size, 2, 6, "c", 34);
    size += begin_at(bytes + size, 3, 6, "def", 0);
    size += end_at(bytes + size, 7);
    size += end_at(bytes + size, 7);
    size += begin_at(bytes + size, 2, 8, "", 0);
    size += end_at(bytes + size, 8);
    size += end_at(bytes + size, 9);
    size += begin_at(bytes + size, 4, 9, "g", 0);
    size += end_at(bytes + size, 9);
    CALL(puffin_scopes(bytes, size, false, &none));
    is("scopes", none.num_rows, 5);
    is("bytes of texts", none.num_bytes, 7);
    is("the list's places", !none.rows && !none.bytes && none.room + none.bytes_room == 0, true);
    CALL(puffin_scopes(bytes, size, false, &list));
    is_scope(&scopes[0], 1, 5, 9, 0, 0, 2);
    is_scope(&scopes[1], 2, 6, 7, 1, 2, 1);
    is_scope(&scopes[2], 3, 6, 7, 2, 3, 3);
    is_scope(&scopes[3], 2, 8, 8, 1, 6, 0);
    is_scope(&scopes[4], 4, 9, 9, 0, 6, 1);
    is_scope(&scopes[5], 0, 0, 0, 0, 0, 0);
    is("texts", memcmp(texts, "abcdefg\0", 9) == 0, true);
    memset(scopes, 0, sizeof scopes);
    memset(texts, 0, sizeof texts);
    CALL(puffin_scopes(bytes, size, false, &one));
    is("scopes", one.num_rows, 5);
    is_scope(&scopes[0], 1, 5, 9, 0, 0, 2);
    is_scope(&scopes[1], 0, 0, 0, 0, 0, 0);
    is("texts", memcmp(texts, "abc\0", 5) == 0, true);
    REFUSED("cut bytes", puffin_scopes(bytes, size - 1, false, &list), PUFFIN_PREMATURE_END);
    is("what a refusal leaves", list.num_rows + scopes[1].id + texts[3], 5);
    CALL(puffin_scopes(NULL, 0, true, &list));
    is("no scopes", list.num_rows + list.num_bytes, 0);
}

/* Scopes of the program's own, under a name that no thread has. */
static void user_scopes(void) {
    PuffinProfiler nothing = {0};
    is("user scopes", puffin_user_scopes(&nothing, &no_text, one_scope, 30, false), PUFFIN_NOT_OPEN);
    REFUSED("no text", puffin_user_scopes(&profiler, &no_text, one_scope, 30, false), PUFFIN_NOT_TEXT);
    REFUSED("cut bytes", puffin_user_scopes(&profiler, &gpu, one_scope, 30, false), PUFFIN_PREMATURE_END);
    CALL(puffin_user_scopes(&profiler, &gpu, one_scope, 31, false));
    REFUSED("long texts", puffin_user_scopes(&profiler, &gpu, one_scope, 31, true), PUFFIN_UNLIKE_FORMS);
}

/* The name of a number is the one that the header gives it. */
static void is_named(uint32_t fault, const char *name) {
    char got[PUFFIN_FAULT_NAME_ROOM] = {0};
    is(name, puffin_fault_name(fault, got, sizeof got), strlen(name));
    is(got, strcmp(got, name) == 0, true);
}
#define NAMED(fault) is_named(fault, #fault)

static void names(void) {
    char few[5] = {0};
    uint64_t named = 0;
    NAMED(PUFFIN_OK);
    NAMED(PUFFIN_PREMATURE_END);
    NAMED(PUFFIN_INVALID_STREAM);
    NAMED(PUFFIN_SCOPE_NEVER_ENDED);
    NAMED(PUFFIN_INVALID_OFFSET);
    NAMED(PUFFIN_TOO_LARGE);
    NAMED(PUFFIN_RANGE_TOO_LONG);
    NAMED(PUFFIN_MISMATCHED_END);
    NAMED(PUFFIN_SCOPES_OPEN);
    NAMED(PUFFIN_MISSING_ID);
    NAMED(PUFFIN_IDS_EXHAUSTED);
    NAMED(PUFFIN_INDEX_EXHAUSTED);
    NAMED(PUFFIN_TOO_DEEP);
    NAMED(PUFFIN_MEMORY);
    NAMED(PUFFIN_UNLIKE_FORMS);
    NAMED(PUFFIN_NOT_TEXT);
    NAMED(PUFFIN_NO_ID);
    NAMED(PUFFIN_NOT_OPEN);
    NAMED(PUFFIN_IS_OPEN);
    NAMED(PUFFIN_FILE_NO_MAGIC);
    NAMED(PUFFIN_FILE_TRUNCATED);
    NAMED(PUFFIN_FILE_LEGACY);
    NAMED(PUFFIN_FILE_NEWER);
    is_named(PUFFIN_FILE_UNKNOWN_KIND + 256 * 3, "PUFFIN_FILE_UNKNOWN_KIND");
    is_named(PUFFIN_FILE_UNKNOWN_KIND + 256 * 255, "PUFFIN_FILE_UNKNOWN_KIND");
    is_named(PUFFIN_FILE_COMPRESSED + 256 * 1, "PUFFIN_FILE_COMPRESSED");
    is_named(PUFFIN_FILE_COMPRESSED + 256 * 2, "PUFFIN_FILE_COMPRESSED");
    NAMED(PUFFIN_FILE_BAD_META);
    NAMED(PUFFIN_FILE_BAD_STREAMS);
    NAMED(PUFFIN_FILE_BAD_SCOPES);
    NAMED(PUFFIN_FILE_BAD_RANGE);
    NAMED(PUFFIN_FILE_PART_TOO_LONG);
    NAMED(PUFFIN_FILE_REFUSED + 256 * PUFFIN_PREMATURE_END);
    NAMED(PUFFIN_FILE_REFUSED + 256 * PUFFIN_INVALID_STREAM);
    NAMED(PUFFIN_FILE_REFUSED + 256 * PUFFIN_SCOPE_NEVER_ENDED);
    NAMED(PUFFIN_FILE_REFUSED + 256 * PUFFIN_TOO_LARGE);
    NAMED(PUFFIN_FILE_REFUSED + 256 * PUFFIN_MISSING_ID);
    NAMED(PUFFIN_FILE_REFUSED + 256 * PUFFIN_TOO_DEEP);
    is_named(UINT32_MAX, "");
    /* the others have none: 29 have one by themselves, 8 with a number above them, and 253 compressions aren't known */
    for (uint32_t fault = 0; fault < 1 << 16; fault++) {
        named += puffin_fault_name(fault, few, 0) > 0;
    }
    is("numbers with a name", named, 290);
    is("a cut name", puffin_fault_name(PUFFIN_NO_ID, few, 4), 12);
    is("a name's beginning", strcmp(few, "PUFF") == 0, true);
    NAMED(PUFFIN_NOT_WRITTEN);
}

static uint8_t file_bytes[4096];
static uint64_t file_size;

static size_t read_file(uint8_t *file, uint64_t size) {
    uint64_t got = 1, all = 0;
    while (got) {
        size_t room = size - all < 33 ? size - all : 33;
        CALL(puffin_file_next(&profiler, file + all, room, &got));
        all += got;
    }
    return all;
}

/* The packet of the newest frame is what the file of that frame alone has behind its first four bytes. */
static void packets(const uint8_t *file, uint64_t size) {
    uint64_t packet_size = 0, got = 1, all = 0;
    static uint8_t packet[4096];
    CALL(puffin_frame_begin(&profiler, &packet_size));
    is("bytes of the packet", packet_size, size - 4);
    while (got) {
        CALL(puffin_frame_next(&profiler, packet + all, 33, &got));
        all += got;
    }
    is("bytes that were read", all, packet_size);
    is("the packet", memcmp(packet, file + 4, size - 4) == 0, true);
    is("the file's beginning", memcmp(PUFFIN_FILE_START, file, 4) == 0, true);
}

static bool has(const uint8_t *bytes, uint64_t size, const char *text) {
    size_t length = strlen(text);
    for (uint64_t at = 0; at + length <= size; at++) {
        if (memcmp(bytes + at, text, length) == 0)
            return true;
    }
    return false;
}

/* Whether the view's file has this text. */
static bool has_text(PuffinProfiler *of, const char *text) {
    static uint8_t bytes[4096];
    uint64_t size = 0, got = 0;
    CALL(puffin_file_begin(of, &size));
    CALL(puffin_file_next(of, bytes, sizeof bytes, &got));
    return has(bytes, got, text);
}

static void record_one(PuffinThread *thread, PuffinProfiler *to, uint32_t id, PuffinFrame *frame) {
    uint64_t scope = 0;
    CALL(puffin_begin_str(thread, 10, id, NULL, &scope));
    is("end", puffin_end(thread, 20, scope), PUFFIN_OK);
    CALL(puffin_report(thread, to));
    CALL(puffin_new_frame(to, frame));
}

/* The next frame lists what was registered, whichever thread uses it, and whether any does. */
static void naming(void) {
    PuffinThread first = {0}, worker = {0};
    PuffinProfiler own = {0};
    PuffinFrame frame = {0};
    uint64_t outer = 0;
    const PuffinPlace later = {.name = puffin_text("later name"), .function = puffin_text("first name"), .line = 9};
    uint32_t id = 0, part = 0, unused = 0;
    CALL(puffin_profiler_open(&own, &ids));
    CALL(puffin_thread_open_str(&first, &ids, "main", false));
    CALL(puffin_thread_open_str(&worker, &ids, "worker", false));
    CALL(puffin_register(&own, PLACE("", "first name", "calls.c", 7), &id));
    CALL(puffin_register(&own, PLACE("a zero\0in a name", "first name", "", 8), &unused));
    CALL(puffin_thread_close(&first));
    record_one(&worker, &own, id, &frame);
    is("scopes", frame.scopes, 1);
    is("a name that was registered before", has_text(&own, "first name"), true);
    is("a name that no scope has, with a zero", has_text(&own, "in a name"), true);
    /* while a scope is open on another thread */
    CALL(puffin_thread_open_str(&first, &ids, "main", false));
    CALL(puffin_begin(&first, 5, id, NULL, 0, &outer));
    CALL(puffin_register(&own, &later, &part));
    record_one(&worker, &own, part, &frame);
    is("a name that was registered later", has_text(&own, "later name"), true);
    CALL(puffin_thread_close(&first));
    CALL(puffin_thread_close(&worker));
    CALL(puffin_profiler_close(&own));
}

/* A view that is cleared has no frames, and keeps as many as its limits say. A snapshot lists all names. */
static void views(void) {
    uint64_t size = 7;
    PuffinFrame frame = {0};
    CALL(puffin_view_clear(&profiler));
    CALL(puffin_file_begin(&profiler, &size));
    is("a file of no frames", size, 4);
    CALL(puffin_frame_begin(&profiler, &size));
    is("a packet of no frame", size, 0);
    CALL(puffin_set_limits(&profiler, 1, 0));
    for (int i = 0; i < 3; i++) {
        CALL(puffin_user_scopes(&profiler, &gpu, one_scope, 31, false));
        CALL(puffin_new_frame(&profiler, &frame));
    }
    CALL(puffin_frame_begin(&profiler, &size));
    uint64_t packet_size = size;
    CALL(puffin_file_begin(&profiler, &size));
    is("a file of one frame", size, packet_size + 4);
    is("a name that isn't new", has(file_bytes, read_file(file_bytes, size), "kept name"), false);
    CALL(puffin_snapshot(&profiler));
    CALL(puffin_user_scopes(&profiler, &gpu, one_scope, 31, false));
    CALL(puffin_new_frame(&profiler, &frame));
    CALL(puffin_file_begin(&profiler, &size));
    is("a snapshot's name", has(file_bytes, read_file(file_bytes, size), "kept name"), true);
}

/* A fault in the meta of the second frame is found when the meta was read: behind its letters and its length. */
static void is_found(uint8_t *file, uint64_t size) {
    uint64_t frames = 0, end = 0, got = 0;
    uint8_t meta_size = file[size + 4], first = file[size + 8];
    file[size + 8] = 0xff;
    is("a frame without an index", puffin_check_file(file, 2 * size - 4, &frames, &end, &got), PUFFIN_FILE_BAD_META);
    is("frames before it", frames, 1);
    is("where it begins", end, size);
    is("where its meta ends", got, size + 8 + meta_size);
    file[size + 8] = first;
}

/* The threads of the file, and the streams of its frame. */
static void viewing(const uint8_t *file, uint64_t size) {
    static PuffinFileThread threads[4];
    static PuffinStream streams[4];
    static PuffinScope scopes[8];
    static uint8_t names[64], bytes[1024], texts[64];
    PuffinFileThreadList found = {threads, 4, names, sizeof names, 7, 7};
    PuffinStreamList list = {.rows = streams, .room = 4, .bytes = bytes, .bytes_room = sizeof bytes};
    PuffinScopeList last = {scopes, 8, texts, sizeof texts, 7, 7};
    CALL(puffin_file_threads(file, size, &found));
    is("threads", found.num_rows, 3);
    is("bytes of names", found.num_bytes, 13);
    is("names", memcmp(names, "gpumainworker", 14) == 0, true);
    is("start", (uint64_t)threads[0].start_ns, 5);
    is("start", (uint64_t)threads[1].start_ns, 1000);
    is("start", (uint64_t)threads[2].start_ns, 1500);
    for (int i = 0; i < 3; i++) {
        is("has a start", threads[i].has_start, true);
        is("frames", threads[i].frames, 1);
        is("scopes", threads[i].scopes, i == 0 ? 1 : 6);
    }
    is("place of a name", threads[2].name_at, 7);
    is("size of a name", threads[2].name_size, 6);
    CALL(puffin_frame_streams(file, size, 0, &list));
    is("scopes", list.frame.scopes, 13);
    is("the frame's end", list.next, size);
    is("streams", list.num_rows, 3);
    is("a short stream", streams[1].long_texts, false);
    is("a long stream", streams[2].long_texts, true);
    is("scopes", streams[2].scopes, 6);
    is("depth", streams[2].depth, 2);
    is("start", (uint64_t)streams[2].start_ns, 1500);
    is("name", memcmp(bytes + streams[2].name_at, TEXT("worker")) == 0, true);
    is("size of the name", streams[2].name_size, 6);
    is("bytes", streams[2].stream_at + streams[2].stream_size, list.num_bytes);
    CALL(puffin_scopes(bytes + streams[2].stream_at, streams[2].stream_size, true, &last));
    is("scopes", last.num_rows, 6);
    is_scope(&scopes[1], scopes[1].id, 1600, 1650, 1, 0, 4);
    is("texts", memcmp(texts, "stepstepstepstep", 17) == 0, true);
    CALL(puffin_frame_streams(file, size, list.next, &list));
    is("no frame", list.frame.is_some, false);
    is("no streams", list.num_rows + list.num_bytes, 0);
    is("the file's end", list.next, size);
    REFUSED("past the end", puffin_frame_streams(file, size, size + 1, &list), PUFFIN_INVALID_OFFSET);
    REFUSED("a cut file", puffin_frame_streams(file, size - 1, 4, &list), PUFFIN_FILE_TRUNCATED);
    REFUSED("a cut file", puffin_file_threads(file, size - 1, &found), PUFFIN_FILE_TRUNCATED);
    REFUSED("no file", puffin_frame_streams(TEXT("XUF0"), 0, &list), PUFFIN_FILE_NO_MAGIC);
    is("what a refusal leaves", list.next + found.num_rows, size + 3);
}

static void is_merged(const PuffinMerged *merged, uint32_t id, uint64_t depth, int64_t start, int64_t total, int64_t per_frame,
                      int64_t max, uint64_t pieces, uint64_t text_at, uint64_t text_size) {
    is("id", merged->id, id);
    is("depth", merged->depth, depth);
    is("start", (uint64_t)merged->start_ns, (uint64_t)start);
    is("total", (uint64_t)merged->total_ns, (uint64_t)total);
    is("per frame", (uint64_t)merged->per_frame_ns, (uint64_t)per_frame);
    is("longest", (uint64_t)merged->max_ns, (uint64_t)max);
    is("pieces", merged->pieces, pieces);
    is("place of the text", merged->text_at, text_at);
    is("size of the text", merged->text_size, text_size);
}

/* The scopes of a thread of record(), merged over the frame of the file, which is the view's only one. */
static void merging(const uint8_t *file, uint64_t size) {
    PuffinProfiler nothing = {0};
    static PuffinMerged merged[4];
    static uint8_t texts[8];
    PuffinMergedList none = {0}, list = {merged, 4, texts, sizeof texts, 7, 7};
    is("merge", puffin_merge_view(&nothing, 1, &no_text, &list), PUFFIN_NOT_OPEN);
    is("no text", puffin_merge_view(&profiler, 1, &no_text, &list), PUFFIN_NOT_TEXT);
    is("no text", puffin_merge_file(TEXT("XUF0"), &no_text, &list), PUFFIN_NOT_TEXT);
    REFUSED("a cut file", puffin_merge_file(file, size - 1, &main_thread, &list), PUFFIN_FILE_TRUNCATED);
    is("what a refusal leaves", list.num_rows + list.num_bytes + merged[0].pieces + texts[0], 14);
    for (int i = 0; i < 2; i++) {
        memset(merged, 0, sizeof merged);
        memset(texts, 0, sizeof texts);
        if (i == 0) {
            CALL(puffin_merge_file(file, size, &main_thread, &list));
        } else {
            CALL(puffin_merge_view(&profiler, 9, &main_thread, &list));
        }
        is("merged scopes", list.num_rows, 2);
        is("bytes of texts", list.num_bytes, 4);
        is_merged(&merged[0], merged[0].id, 0, 1000, 800, 800, 400, 2, 0, 0);
        is_merged(&merged[1], merged[1].id, 1, 100, 200, 200, 50, 4, 0, 4);
        is_merged(&merged[2], 0, 0, 0, 0, 0, 0, 0, 0, 0);
        is("the function and its part", merged[0].id != merged[1].id, true);
        is("texts", memcmp(texts, "step\0", 6) == 0, true);
    }
    none.num_rows = none.num_bytes = 7;
    CALL(puffin_merge_view(&profiler, 1, &main_without_start, &none));
    is("no thread without a start", none.num_rows + none.num_bytes, 0);
    none.num_rows = none.num_bytes = 7;
    CALL(puffin_merge_view(&profiler, 0, &main_thread, &none));
    is("no frames", none.num_rows + none.num_bytes, 0);
}

/* The view has one more frame, from 10 on, which is merged by itself, and with the one before it, which begins at 5. */
static void merging_two(void) {
    static uint8_t bytes[200], texts[4];
    static PuffinMerged merged[4];
    PuffinMergedList list = {merged, 4, texts, sizeof texts, 7, 7};
    PuffinFrame frame = {0};
    size_t size = 0;
    size += begin_at(bytes + size, 1, 10, "ab", 32);
    size += begin_at(bytes + size, 2, 12, "c", 0);
    size += end_at(bytes + size, 13);
    size += end_at(bytes + size, 18);
    size += begin_at(bytes + size, 1, 20, "", 0);
    size += end_at(bytes + size, 22);
    CALL(puffin_user_scopes(&profiler, &gpu, bytes, size, false));
    CALL(puffin_new_frame(&profiler, &frame));
    CALL(puffin_merge_view(&profiler, 1, &gpu, &list));
    is("merged scopes", list.num_rows, 3);
    is_merged(&merged[0], 1, 0, 10, 8, 8, 8, 1, 0, 2);
    is_merged(&merged[1], 2, 1, 2, 1, 1, 1, 1, 2, 1);
    is_merged(&merged[2], 1, 0, 20, 2, 2, 2, 1, 3, 0);
    is("texts", memcmp(texts, "abc", 4) == 0, true);
    /* Of one start, the scope without a text is first, and the other one starts where its 3 of each frame end. */
    CALL(puffin_merge_view(&profiler, 2, &gpu, &list));
    is("merged scopes", list.num_rows, 3);
    is("bytes of texts", list.num_bytes, 3);
    is_merged(&merged[0], 1, 0, 5, 6, 3, 4, 2, 0, 0);
    is_merged(&merged[1], 1, 0, 8, 8, 4, 8, 1, 0, 2);
    is_merged(&merged[2], 2, 1, 2, 1, 0, 1, 1, 2, 1);
    is("texts", memcmp(texts, "abc", 4) == 0, true);
    memset(merged, 0, sizeof merged);
    memset(texts, 0, sizeof texts);
    list.room = 1;
    list.bytes_room = 2;
    CALL(puffin_merge_view(&profiler, 2, &gpu, &list));
    is("merged scopes", list.num_rows, 3);
    is_merged(&merged[0], 1, 0, 5, 6, 3, 4, 2, 0, 0);
    is_merged(&merged[1], 0, 0, 0, 0, 0, 0, 0, 0, 0);
    is("texts", memcmp(texts, "ab\0", 4) == 0, true);
}

/* A scope in 1,024 others isn't merged: not in the view, and not in its file. */
static void merging_deep(void) {
    enum { DEEP = 1025 };
    static uint8_t bytes[31 * DEEP], file[32 * DEEP];
    PuffinMerged merged = {0};
    PuffinFrame frame = {0};
    uint64_t size = 0, got = 0;
    uint8_t text = 7;
    PuffinMergedList list = {&merged, 1, &text, 1, 7, 7};
    for (int i = 0; i < DEEP; i++) {
        size_t children = 31 * (DEEP - 1 - i);
        begin_at(bytes + 22 * i, 1, 5, "", (uint8_t)children);
        bytes[22 * i + 15] = (uint8_t)(children >> 8);
        end_at(bytes + 22 * DEEP + 9 * i, 9);
    }
    CALL(puffin_view_clear(&profiler));
    CALL(puffin_user_scopes(&profiler, &gpu, bytes, sizeof bytes, false));
    CALL(puffin_new_frame(&profiler, &frame));
    REFUSED("too deep", puffin_merge_view(&profiler, 1, &gpu, &list), PUFFIN_TOO_DEEP);
    CALL(puffin_file_begin(&profiler, &size));
    CALL(puffin_file_next(&profiler, file, sizeof file, &got));
    is("bytes of the file", got, size);
    REFUSED("too deep", puffin_merge_file(file, size, &gpu, &list), PUFFIN_FILE_REFUSED + 256 * PUFFIN_TOO_DEEP);
    is("what a refusal leaves", list.num_rows + list.num_bytes + merged.pieces + text, 21);
}

static void reading(const char *path) {
    uint64_t size = 0, frames = 0, end = 7, got = 7;
    uint8_t *file = file_bytes;
    CALL(puffin_file_begin(&profiler, &size));
    is("bytes of the file", read_file(file, size), size);
    file_size = size;
    packets(file, size);
    FILE *written = fopen(path, "wb");
    fwrite(file, 1, size, written);
    fclose(written);
    CALL(puffin_check_file(file, size, &frames, &end, &got));
    is("frames", frames, 1);
    is("the frame's end", end, size);
    is("how far the file is read", got, size);
    /* the same packet once more, which is then cut */
    memcpy(file + size, file + 4, size - 4);
    CALL(puffin_check_file(file, 2 * size - 4, &frames, &end, &got));
    is("frames", frames, 2);
    is("the last frame's end", end, 2 * size - 4);
    is("a cut file", puffin_check_file(file, 2 * size - 5, &frames, &end, &got), PUFFIN_FILE_TRUNCATED);
    is("frames before the cut", frames, 1);
    is("where the cut frame begins", end, size);
    is("how far a cut file is read", got, 2 * size - 5);
    is_found(file, size);
    is("no file", puffin_check_file(TEXT("XUF0"), &frames, &end, &got), PUFFIN_FILE_NO_MAGIC);
    is("frames of no file", frames, 0);
    is("where no file begins", end, 0);
    is("how far no file is read", got, 4);
    is("no bytes", puffin_check_file(NULL, 0, &frames, &end, &got), PUFFIN_FILE_NO_MAGIC);
    is("a name that no thread reported", has(file, size, "kept name"), true);
}

int main(int argc, char **argv) {
    struct work works[2] = {{"main", 1000, false}, {"worker", 1500, true}};
    pthread_t threads[2];
    PuffinFrame frame = {0};
    /* both threads at once, or one behind the other where allocations are numbered */
    bool at_once = argc < 3;
    refused_one = at_once ? -1 : atol(argv[2]);
    counts = true;
    CALL(puffin_ids_open(&ids));
    CALL(puffin_profiler_open(&profiler, &ids));
    refusals();
    names();
    counting();
    listing();
    limiting();
    switching();
    for (int i = 0; i < 2; i++) {
        pthread_create(&threads[i], NULL, record, &works[i]);
        if (!at_once) {
            pthread_join(threads[i], NULL);
        }
    }
    for (int i = 0; at_once && i < 2; i++) {
        pthread_join(threads[i], NULL);
    }
    discarding();
    sharing();
    naming();
    user_scopes();
    CALL(puffin_new_frame(&profiler, &frame));
    is("frame", frame.is_some, true);
    is("index", frame.index, 0);
    is("scopes", frame.scopes, 13);
    is("start", (uint64_t)frame.start_ns, 5);
    is("stop", (uint64_t)frame.stop_ns, 2300);
    CALL(puffin_new_frame(&profiler, &frame));
    is("a frame of nothing", frame.is_some, false);
    counts = false;
    reading(argv[1]);
    counts = true;
    viewing(file_bytes, file_size);
    merging(file_bytes, file_size);
    merging_two();
    merging_deep();
    views();
    CALL(puffin_ids_close(&ids));
    CALL(puffin_profiler_close(&profiler));
    counts = false;
    printf("allocations %ld refused %ld\n", allocations, refused_calls);
    return 0;
}
