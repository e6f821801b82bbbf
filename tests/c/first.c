/* The first program of docs/C.md: one scope, written to the file that the first argument names. */
#include "puffin.h"
#include <stdio.h>

static void call(const char *what, uint32_t fault) {
    char name[PUFFIN_FAULT_NAME_ROOM] = {0};
    if (fault != PUFFIN_OK) {
        puffin_fault_name(fault, name, sizeof name);
        fprintf(stderr, "%s: %s\n", what, name);
    }
}
#define CALL(it) call(#it, it)

int main(int argc, char **argv) {
    FILE *file = argc > 1 ? fopen(argv[1], "wb") : NULL;
    if (!file) {
        return 2;
    }
    /* listing: record */
    PuffinIds ids = {0};
    PuffinThread thread = {0};
    PuffinProfiler profiler = {0};
    PuffinFrame frame = {0};
    const PuffinPlace load = {.function = puffin_text("load"), .file = puffin_text("load.c"), .line = 12};
    uint32_t id = 0;
    uint64_t scope, size = 0;
    uint8_t buffer[4096];

    CALL(puffin_ids_open(&ids));
    CALL(puffin_thread_open_str(&thread, &ids, "main", false));
    CALL(puffin_profiler_open(&profiler, &ids));
    CALL(puffin_register(&profiler, &load, &id));
    CALL(puffin_begin_str(&thread, puffin_now_ns(), id, "image-12.png", &scope));
    CALL(puffin_end(&thread, puffin_now_ns(), scope));
    CALL(puffin_report(&thread, &profiler));   /* the closed scopes go to the profiler */
    CALL(puffin_new_frame(&profiler, &frame)); /* everything reported becomes a frame, which the profiler's view keeps */
    CALL(puffin_file_begin(&profiler, &size)); /* the size of the view's .puffin file */
    while (puffin_file_next(&profiler, buffer, sizeof buffer, &size) == PUFFIN_OK && size > 0) {
        fwrite(buffer, 1, size, file);
    }
    /* end of listing */

    printf("%lld\n", (long long)frame.start_ns);
    CALL(puffin_thread_close(&thread));
    CALL(puffin_profiler_close(&profiler));
    CALL(puffin_ids_close(&ids));
    return fclose(file) ? 1 : 0;
}
