/* Hands damaged files to the listings of viewer.c and totals.c: the file in the first argument, twice over, cut at each byte, with
 * each byte changed, and one whose frame has 150 streams. Each is read from a block of its own size, so that the address sanitizer
 * sees a byte that is read too far. */
#define main viewer_main
#include "viewer.c"
#undef main
#define main totals_main

#include "totals.c"

#undef main
#include <string.h>
#include <sys/resource.h>
#include <unistd.h>

static long files, faults;
static int told;

static void fail(const char *what, long got, long wanted) {
    dprintf(told, "%s: %ld in place of %ld\n", what, got, wanted);
    exit(1);
}

/* Views a copy of these bytes, and returns whether that ends without a fault. */
static bool is_viewed(const uint8_t *bytes, size_t size) {
    uint8_t *copy = malloc(size ? size : 1);
    memcpy(copy, bytes, size);
    bool is_sound = print_frames(copy, size) == PUFFIN_OK;
    print_threads(copy, size);
    const PuffinThreadName thread = {puffin_text("main"), 1000, true};
    print_file_totals(copy, size, &thread);
    free(copy);
    files++;
    faults += !is_sound;
    return is_sound;
}

/* A file of one frame, which has so many threads with a scope each. */
static size_t of_many_streams(uint8_t *bytes, size_t room, int number) {
    PuffinIds ids = {0};
    PuffinProfiler profiler = {0};
    PuffinFrame frame = {0};
    uint64_t size = 0;
    static const uint8_t scope[31] = {'(', 1, 0, 0, 0, 5, 0, 0, 0, 0, 0, 0, 0, 0, 0, 0, 0, 0, 0, 0, 0, 0, ')', 9};
    uint32_t fault = puffin_ids_open(&ids) | puffin_profiler_open(&profiler, &ids);
    for (int i = 0; i < number; i++) {
        char name[200];
        snprintf(name, sizeof name, "%0150d", i);
        const PuffinThreadName thread = {puffin_text(name), i, true};
        fault |= puffin_user_scopes(&profiler, &thread, scope, sizeof scope, false);
    }
    fault |= puffin_new_frame(&profiler, &frame) | puffin_file_begin(&profiler, &size);
    fault |= puffin_file_next(&profiler, bytes, room, &size);
    fault |= puffin_profiler_close(&profiler) | puffin_ids_close(&ids);
    if (fault != PUFFIN_OK || frame.scopes != (uint64_t)number) {
        fail("a file of many streams", (long)fault, 0);
    }
    return size;
}

int main(int argc, char **argv) {
    static uint8_t bytes[1 << 17];
    const struct rlimit minute = {60, 60};
    FILE *read = argc > 1 ? fopen(argv[1], "rb") : NULL;
    size_t one = read ? fread(bytes, 1, 8000, read) : 0, size;
    if (one < 100 || fclose(read)) {
        return 2;
    }
    told = dup(1);
    if (!freopen("/dev/null", "w", stdout)) {
        return 2;
    }
    setrlimit(RLIMIT_CPU, &minute); /* a loop that doesn't end is ended so */
    memcpy(bytes + one, bytes + 4, one - 4);
    size = 2 * one - 4;
    long sound = 0;
    for (size_t cut = 0; cut <= size; cut++) {
        sound += is_viewed(bytes, cut);
    }
    /* behind each of the two frames and the file's first letters, and up to three bytes behind that, which aren't read */
    if (sound != 4 + 4 + 1) {
        fail("cuts at the end of a frame", sound, 9);
    }
    for (size_t at = 0; at < size; at++) {
        for (int change = 1; change < 256; change = 2 * change + 1) {
            bytes[at] ^= (uint8_t)change;
            is_viewed(bytes, size);
            bytes[at] ^= (uint8_t)change;
        }
    }
    size = of_many_streams(bytes, sizeof bytes, 150);
    if (!is_viewed(bytes, size)) {
        fail("many streams", 0, 1);
    }
    fflush(stdout);
    dprintf(told, "files %ld\n", files);
    return faults > 1000 ? 0 : 1;
}
