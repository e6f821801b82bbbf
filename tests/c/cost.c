/* Begins and ends so many scopes (the second argument), one after the other, with a report every 128. The first argument is "on" or
 * "text" for scopes that are on, without and with a text of 12 bytes, and "off" for scopes that are off. "zone" and "zone-off" have
 * zones in place of these, within one zone. It prints the number of scopes that were reported. run.py counts its instructions. */
#include "puffin_zones.h"
#include <inttypes.h>
#include <stdio.h>
#include <stdlib.h>
#include <string.h>

#define TEXT(s) (const uint8_t *)(s), sizeof(s) - 1

static PuffinIds ids;
static PuffinThread thread;
static PuffinProfiler profiler;

static void scopes_without_text(uint32_t id, int64_t number) {
    uint64_t scope;
    for (int64_t now = 0; now < number; now++) {
        puffin_begin(&thread, now, id, NULL, 0, &scope);
        puffin_end(&thread, now, scope);
    }
}

static void scopes_with_text(uint32_t id, int64_t number) {
    uint64_t scope;
    for (int64_t now = 0; now < number; now++) {
        puffin_begin(&thread, now, id, TEXT("image-12.png"), &scope);
        puffin_end(&thread, now, scope);
    }
}

static int zones(bool are_on, int64_t number) {
    PuffinFrame frame;
    uint32_t fault = puffin_session_open();
    puffin_zones_set_on(are_on);
    {
        PUFFIN_ZONE("around");
        for (int64_t now = 0; now < number; now++) {
            PUFFIN_ZONE("one");
        }
    }
    fault |= puffin_session_frame(&frame);
    printf("%" PRIu64 "\n", frame.is_some ? frame.scopes - 1 : 0);
    return fault != PUFFIN_OK || puffin_session_close() != PUFFIN_OK;
}

int main(int argc, char **argv) {
    if (argc < 3) {
        return 2;
    }
    if (strncmp(argv[1], "zone", 4) == 0) {
        return zones(strcmp(argv[1], "zone") == 0, strtoll(argv[2], NULL, 10));
    }
    PuffinFrame frame = {0};
    const PuffinPlace place = {.function = puffin_text("main"), .file = puffin_text("cost.c"), .line = 1};
    uint64_t reported = 0;
    uint32_t id = 0, fault = puffin_ids_open(&ids);
    fault |= puffin_thread_open(&thread, &ids, TEXT("main"), false);
    fault |= puffin_profiler_open(&profiler, &ids);
    fault |= puffin_register(&profiler, &place, &id);
    fault |= puffin_set_limits(&profiler, 1, 0);
    fault |= puffin_set_scopes_on(&thread, strcmp(argv[1], "off") != 0);
    for (int64_t left = strtoll(argv[2], NULL, 10); left > 0; left -= 128) {
        if (strcmp(argv[1], "text") == 0) {
            scopes_with_text(id, left < 128 ? left : 128);
        } else {
            scopes_without_text(id, left < 128 ? left : 128);
        }
        fault |= puffin_report(&thread, &profiler);
    }
    fault |= puffin_new_frame(&profiler, &frame);
    reported = frame.is_some ? frame.scopes : 0;
    fault |= puffin_thread_close(&thread);
    fault |= puffin_profiler_close(&profiler);
    fault |= puffin_ids_close(&ids);
    printf("%" PRIu64 "\n", reported);
    return fault != 0;
}
