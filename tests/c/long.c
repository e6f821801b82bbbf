/* A long session in little memory: so many frames (the first argument) with 1,000 names, written as they come into files of
 * 10,000 frames each, of which the folder in the second argument keeps the last two. Each file is read by the library's checker
 * as soon as it is whole. Every file has all names, as its first frame lists them. */
#define _GNU_SOURCE
#include "puffin_writer.h"
#include <stdio.h>
#include <stdlib.h>
#include <string.h>
#include <sys/resource.h>

#define NAMES 1000
#define FRAMES_OF_A_FILE 10000

static void fail(const char *what, unsigned long long got) {
    fprintf(stderr, "%s: %llu\n", what, got);
    exit(1);
}
static void call(const char *what, uint32_t fault) {
    char name[PUFFIN_FAULT_NAME_ROOM] = {0};
    if (fault != PUFFIN_OK) {
        puffin_fault_name(fault, name, sizeof name);
        fail(what[0] ? what : name, fault);
    }
}
#define CALL(it) call(#it, it)

static PuffinIds ids;
static PuffinThread thread;
static PuffinProfiler profiler;
static uint32_t names[NAMES];

static long kilobytes(void) {
    struct rusage usage;
    getrusage(RUSAGE_SELF, &usage);
    return usage.ru_maxrss;
}

/* One frame of three scopes, one within the other, with names that change from frame to frame. */
static void record(unsigned long number) {
    uint64_t scopes[3];
    int64_t now = (int64_t)number * 1000;
    for (int depth = 0; depth < 3; depth++) {
        CALL(puffin_begin(&thread, now + depth, names[(number * 7 + depth) % NAMES], NULL, 0, &scopes[depth]));
    }
    for (int depth = 2; depth >= 0; depth--) {
        CALL(puffin_end(&thread, now + 100 - depth, scopes[depth]));
    }
    CALL(puffin_report(&thread, &profiler));
}

/* Reads a whole file. */
static void check(const char *path, uint64_t wanted) {
    static uint8_t bytes[4 << 20];
    uint64_t frames, offset, read;
    FILE *file = fopen(path, "rb");
    size_t size = fread(bytes, 1, sizeof bytes, file);
    fclose(file);
    CALL(puffin_check_file(bytes, size, &frames, &offset, &read));
    if (frames != wanted || offset != size) {
        fail("frames in the file", frames);
    }
    /* the last name that was registered */
    if (!memmem(bytes, size, "name 999", 8)) {
        fail("a name is missing", size);
    }
}

static char newest[512], older[512];

/* Looks at the frame with this number: it is written, a file that is whole has all of its frames, and memory doesn't grow. */
static void look(unsigned long number, const PuffinFrame *frame, const PuffinWriter *writer) {
    static long early;
    if (!frame->is_some || frame->index != number || writer->frames != number % FRAMES_OF_A_FILE + 1) {
        fail("the frame's index", frame->index);
    }
    if (writer->frames == FRAMES_OF_A_FILE) {
        check(newest, FRAMES_OF_A_FILE);
    }
    if (number == FRAMES_OF_A_FILE + 100) {
        early = kilobytes();
        check(older, FRAMES_OF_A_FILE);
    }
    if (number % 1000 == 0 && early && kilobytes() - early > 1024) {
        fail("kilobytes more than after the first file", (unsigned long long)(kilobytes() - early));
    }
}

int main(int argc, char **argv) {
    unsigned long frames = argc > 2 ? strtoul(argv[1], NULL, 10) : 0;
    PuffinFrame frame;
    snprintf(newest, sizeof newest, "%s/long.puffin", argc > 2 ? argv[2] : ".");
    snprintf(older, sizeof older, "%s/long.1.puffin", argc > 2 ? argv[2] : ".");
    CALL(puffin_ids_open(&ids));
    CALL(puffin_thread_open_str(&thread, &ids, "main", false));
    CALL(puffin_profiler_open(&profiler, &ids));
    for (int i = 0; i < NAMES; i++) {
        char name[20];
        snprintf(name, sizeof name, "name %d", i);
        const PuffinPlace place = {.function = puffin_text(name), .file = puffin_text("long.c")};
        CALL(puffin_register(&profiler, &place, &names[i]));
    }
    /* listing: writer */
    PuffinWriter writer = {0};
    writer.path = newest;                     /* "long.puffin" */
    writer.max_frames = 10000;                /* then the next file begins, with all names */
    writer.older_files = 1;                   /* the one before it stays, as "long.1.puffin" */
    CALL(puffin_set_limits(&profiler, 1, 0)); /* the view keeps the newest frame alone */
    CALL(puffin_writer_open(&writer));
    for (unsigned long number = 0; number < frames; number++) {
        record(number);
        if (puffin_writer_frame(&writer, &profiler, &frame) == PUFFIN_NOT_WRITTEN) {
            fprintf(stderr, "%s: %s\n", writer.failed, strerror(writer.error)); /* the next frame tries again */
        }
        look(number, &frame, &writer);
    }
    CALL(puffin_writer_close(&writer));
    /* end of listing */
    check(newest, (frames + FRAMES_OF_A_FILE - 1) % FRAMES_OF_A_FILE + 1);
    CALL(puffin_thread_close(&thread));
    CALL(puffin_profiler_close(&profiler));
    CALL(puffin_ids_close(&ids));
    printf("frames %lu\n", frames);
    return 0;
}
