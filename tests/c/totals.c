/* Prints where the time of a thread went: in the newest frames of a profiler's view, and in a file of any origin. */
#include "puffin.h"
#include <inttypes.h>
#include <stdio.h>
#include <stdlib.h>

/* listing: totals */
static void print_merged(const PuffinMergedList *list) {
    for (uint64_t i = 0; i < list->num_rows && i < list->room; i++) { /* each merged scope before those in it, with its depth */
        const PuffinMerged *merged = &list->rows[i];
        printf("%*s%" PRIu32 " %" PRIi64 " ns per frame\n", (int)(2 * merged->depth), "", merged->id, merged->per_frame_ns);
    }
}

/* The newest 60 frames of a view, for example once a second. */
static uint32_t print_totals(PuffinProfiler *profiler, int64_t first_start_ns, const char *name) {
    PuffinMerged merged[100];
    PuffinMergedList list = {.rows = merged, .room = 100};
    const PuffinThreadName thread = {.name = puffin_text(name), .start_ns = first_start_ns, .has_start = true};
    uint32_t fault = puffin_merge_view(profiler, 60, &thread, &list);
    print_merged(&list);
    return fault;
}
/* end of listing */

/* All frames of a file. */
static uint32_t print_file_totals(const uint8_t *file, size_t size, const PuffinThreadName *thread) {
    PuffinMerged merged[100];
    PuffinMergedList list = {.rows = merged, .room = 100};
    uint32_t fault = puffin_merge_file(file, size, thread, &list);
    print_merged(&list);
    return fault;
}

int main(void) {
    PuffinIds ids = {0};
    PuffinProfiler profiler = {0};
    PuffinThread thread = {0};
    PuffinFrame frame = {0};
    const PuffinPlace turn = {.function = puffin_text("turn"), .file = puffin_text("totals.c"), .line = 1};
    const PuffinThreadName main_thread = {.name = puffin_text("main"), .start_ns = 100, .has_start = true};
    uint8_t file[4096];
    uint64_t outer, inner, size = 0;
    uint32_t id = 0, fault = puffin_ids_open(&ids);
    fault |= puffin_profiler_open(&profiler, &ids);
    fault |= puffin_thread_open_str(&thread, &ids, "main", false);
    fault |= puffin_register(&profiler, &turn, &id);
    for (int64_t now = 100; now < 300; now += 100) {
        fault |= puffin_begin_str(&thread, now, id, NULL, &outer);
        fault |= puffin_begin_str(&thread, now + 10, id, "within", &inner);
        fault |= puffin_end(&thread, now + 30, inner);
        fault |= puffin_end(&thread, now + 90, outer);
        fault |= puffin_report(&thread, &profiler);
        fault |= puffin_new_frame(&profiler, &frame);
    }
    fault |= print_totals(&profiler, 100, "main");
    fault |= puffin_file_begin(&profiler, &size);
    fault |= puffin_file_next(&profiler, file, sizeof file, &size);
    fault |= print_file_totals(file, size, &main_thread);
    fault |= puffin_thread_close(&thread);
    fault |= puffin_profiler_close(&profiler);
    fault |= puffin_ids_close(&ids);
    return fault != PUFFIN_OK;
}
