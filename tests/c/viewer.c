/* Prints what is in a file of any origin (the first argument): its threads, its frames, and of each frame its threads with their
 * scopes, nested by two spaces each, with start, duration and text. It asks for each list twice: first how long it is, then for the
 * list itself. */
#include "puffin.h"
#include <inttypes.h>
#include <stdio.h>
#include <stdlib.h>

/* listing: scopes */
static void *room_for(uint64_t number, size_t size) {
    return calloc(number ? (size_t)number : 1, size);
}

/* Prints the scopes of a stream. Returns 0, or a fault. */
static uint32_t print_scopes(const uint8_t *stream, uint64_t size, bool long_texts) {
    PuffinScopeList list = {0};
    uint32_t fault = puffin_scopes(stream, size, long_texts, &list); /* how many are there? */
    if (fault != PUFFIN_OK) {
        return fault;
    }
    list.rows = room_for(list.room = list.num_rows, sizeof *list.rows);
    list.bytes = room_for(list.bytes_room = list.num_bytes, 1);
    fault = list.rows && list.bytes ? puffin_scopes(stream, size, long_texts, &list) : PUFFIN_MEMORY;
    for (uint64_t i = 0; fault == PUFFIN_OK && i < list.num_rows; i++) { /* each before its children, with its depth */
        const PuffinScope *scope = &list.rows[i];
        printf("%*s%" PRIi64 " %" PRIi64, (int)(2 * scope->depth + 4), "", scope->start_ns, scope->stop_ns - scope->start_ns);
        printf("%s%.*s\n", scope->text_size ? " " : "", (int)scope->text_size, (const char *)list.bytes + scope->text_at);
    }
    free(list.rows);
    free(list.bytes);
    return fault;
}
/* end of listing */

/* Prints the frame at *offset, and sets *offset to that of the next one, if there is a frame. */
static uint32_t print_frame(const uint8_t *file, size_t size, uint64_t *offset, bool *is_some) {
    PuffinStreamList streams = {0};
    uint32_t fault = puffin_frame_streams(file, size, *offset, &streams);
    *is_some = streams.frame.is_some;
    if (fault != PUFFIN_OK || !*is_some) {
        return fault;
    }
    streams.rows = room_for(streams.room = streams.num_rows, sizeof *streams.rows);
    streams.bytes = room_for(streams.bytes_room = streams.num_bytes, 1);
    fault = streams.rows && streams.bytes ? puffin_frame_streams(file, size, *offset, &streams) : PUFFIN_MEMORY;
    *offset = streams.next;
    printf("frame %" PRIu64 " scopes %" PRIu64 "\n", streams.frame.index, streams.frame.scopes);
    for (uint64_t i = 0; fault == PUFFIN_OK && i < streams.num_rows; i++) {
        const PuffinStream *stream = &streams.rows[i];
        if (stream->has_start) {
            printf("  %" PRIi64, stream->start_ns);
        }
        printf(":%.*s scopes %" PRIu64 " depth %" PRIu64 "\n", (int)stream->name_size, (const char *)streams.bytes + stream->name_at,
               stream->scopes, stream->depth);
        fault = print_scopes(streams.bytes + stream->stream_at, stream->stream_size, stream->long_texts);
    }
    free(streams.rows);
    free(streams.bytes);
    return fault;
}

/* Prints all frames of a file, up to its end or to the first fault, which it returns. */
static uint32_t print_frames(const uint8_t *file, size_t size) {
    uint64_t offset = 0;
    uint32_t fault;
    bool is_some;
    do {
        fault = print_frame(file, size, &offset, &is_some);
    } while (fault == PUFFIN_OK && is_some);
    return fault;
}

static uint32_t print_threads(const uint8_t *file, size_t size) {
    PuffinFileThreadList threads = {0};
    uint32_t fault = puffin_file_threads(file, size, &threads);
    if (fault != PUFFIN_OK) {
        return fault;
    }
    threads.rows = room_for(threads.room = threads.num_rows, sizeof *threads.rows);
    threads.bytes = room_for(threads.bytes_room = threads.num_bytes, 1);
    fault = threads.rows && threads.bytes ? puffin_file_threads(file, size, &threads) : PUFFIN_MEMORY;
    for (uint64_t i = 0; fault == PUFFIN_OK && i < threads.num_rows; i++) {
        const PuffinFileThread *thread = &threads.rows[i];
        if (thread->has_start) {
            printf("%" PRIi64, thread->start_ns);
        }
        printf(":%.*s frames %" PRIu64 " scopes %" PRIu64 "\n", (int)thread->name_size, (const char *)threads.bytes + thread->name_at,
               thread->frames, thread->scopes);
    }
    free(threads.rows);
    free(threads.bytes);
    return fault;
}

int main(int argc, char **argv) {
    static uint8_t file[1 << 20];
    char name[PUFFIN_FAULT_NAME_ROOM] = {0};
    FILE *read = argc > 1 ? fopen(argv[1], "rb") : NULL;
    if (!read) {
        return 2;
    }
    size_t size = fread(file, 1, sizeof file, read);
    fclose(read);
    uint32_t fault = print_threads(file, size);
    fault = fault == PUFFIN_OK ? print_frames(file, size) : fault;
    puffin_fault_name(fault, name, sizeof name);
    if (fault != PUFFIN_OK) {
        fprintf(stderr, "%s\n", name);
    }
    return fault != PUFFIN_OK;
}
