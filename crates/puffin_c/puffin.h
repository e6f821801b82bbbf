/* The calls of libpuffin_c.a, for C programs, from C99 on, and for C++ programs, from C++11 on. docs/C.md says how to link it.
 * puffin_zones.h has scopes without handles, puffin_writer.h writes files as frames come, and puffin.hpp has both for C++.
 *
 * Each call that returns a uint32_t returns 0, or the number of a fault (below). A call that fails changes nothing, unless its
 * comment says otherwise.
 *
 * A program has to follow these rules. Nothing checks them, either here or in the library:
 *
 * - Pass no NULL, except for a text, for bytes that a call only reads (const uint8_t *), and for the rows and bytes of a list, if
 *   their length is 0. A pointer must point to as many bytes as its length says. While a call runs, no other thread may write
 *   bytes that the call reads, or read or write bytes that the call may write. No two places that a call gets may overlap, unless
 *   both are only read.
 * - Fill a handle (PuffinIds, PuffinThread, PuffinProfiler) with zeros ({0}) before its first call. It isn't open then:
 *   every call on it except the one that opens it fails with PUFFIN_NOT_OPEN. Don't read or write its fields. A handle may be
 *   moved, open or not: copy its bytes to another place, and fill the old place with zeros, or never use it again. Two copies of
 *   an open handle must not both be used. Close an open handle before its storage goes away; otherwise its memory leaks.
 * - Pass a handle to one call at a time. It may go to another thread between two calls if a lock, the start of a thread or a
 *   join orders them.
 * - Make no call from a signal handler, or in a forked child of a process with threads.
 * - malloc, realloc and free must belong together, and must align memory as the C standard demands.
 * - Leave each call as much stack as it takes at most, whatever bytes and scopes it gets:
 *     1 KiB: puffin_version, puffin_interface, puffin_fault_name, puffin_ids_open, puffin_thread_open, puffin_profiler_open,
 *       puffin_begin, puffin_end, puffin_set_scopes_on, puffin_set_max_bytes, puffin_set_max_pending, puffin_set_limits,
 *       puffin_snapshot, puffin_thread_discard, puffin_count
 *     4 KiB: puffin_ids_close, puffin_thread_close, puffin_profiler_close, puffin_view_clear, puffin_register, puffin_report,
 *       puffin_user_scopes, puffin_file_begin, puffin_file_next, puffin_frame_begin, puffin_frame_next, puffin_scopes,
 *       puffin_check_file, puffin_frame_streams, puffin_file_threads
 *     8 KiB: puffin_new_frame
 *     192 KiB: puffin_merge_view, puffin_merge_file
 */
#ifndef PUFFIN_H
#define PUFFIN_H
#include <stdbool.h>
#include <stddef.h>
#include <stdint.h>
#include <string.h>
#include <time.h>
#ifdef __cplusplus
#define PUFFIN_INLINE_ inline
#define PUFFIN_CAST_(type, value) static_cast<type>(value)
extern "C" {
#else
#define PUFFIN_INLINE_ static inline
#define PUFFIN_CAST_(type, value) ((type)(value))
#endif
/* A call whose result has to be looked at, since it may leave undone what the next call needs. */
#ifdef __GNUC__
#define PUFFIN_RESULT_ __attribute__((warn_unused_result))
#else
#define PUFFIN_RESULT_
#endif

/* ---- versions: of this header, and of the library that is linked */

#define PUFFIN_VERSION_MAJOR 0
#define PUFFIN_VERSION_MINOR 20
#define PUFFIN_VERSION_PATCH 0

typedef struct PuffinVersion {
    uint32_t major, minor, patch;
} PuffinVersion;

PuffinVersion puffin_version(void);

/* The number of this interface, which a change of a struct or of a call raises. A program whose library may be another one than
 * that of its header, as with a shared library, compares it with the library's number before any other call. */
#define PUFFIN_INTERFACE 3
uint32_t puffin_interface(void);

/* ---- faults */

enum {
    PUFFIN_OK = 0,
    PUFFIN_PREMATURE_END = 1,     /* the bytes end within a scope, or an id in them is 0 */
    PUFFIN_INVALID_STREAM = 2,    /* the bytes aren't scopes */
    PUFFIN_SCOPE_NEVER_ENDED = 3, /* a scope in the bytes was begun and not ended */
    PUFFIN_INVALID_OFFSET = 4,    /* the offset is past the file's end */
    PUFFIN_TOO_LARGE = 6,         /* a count or a merged time doesn't fit 64 bits */
    PUFFIN_RANGE_TOO_LONG = 7,    /* the frame's duration wouldn't fit int64_t */
    PUFFIN_MISMATCHED_END = 8,    /* the scope isn't the innermost open one */
    PUFFIN_SCOPES_OPEN = 9,       /* a report while a scope is open */
    PUFFIN_MISSING_ID = 10,       /* only of a file: scope details without an id */
    PUFFIN_IDS_EXHAUSTED = 11,    /* all ids are used up */
    PUFFIN_INDEX_EXHAUSTED = 12,  /* the frame's index is the last one */
    PUFFIN_TOO_DEEP = 14,         /* only of a merge: a scope is nested in 1,024 others */
    PUFFIN_MEMORY = 16,           /* an allocation failed, or a limit that was set is reached */
    PUFFIN_UNLIKE_FORMS = 17,     /* long and short texts under one thread's name and start */
    PUFFIN_NOT_TEXT = 32,         /* a text isn't UTF-8 */
    PUFFIN_NO_ID = 33,            /* the id is 0 */
    PUFFIN_NOT_OPEN = 34,         /* a handle isn't open */
    PUFFIN_IS_OPEN = 35,          /* the handle is open already */
    PUFFIN_NOT_WRITTEN = 48,      /* only of puffin_writer.h and puffin_zones.h: a file wasn't written, and errno says why */
    /* Faults of a file. Three of them hold a number, which is multiplied by 256 and added. */
    PUFFIN_FILE_NO_MAGIC = 66,     /* the first four bytes aren't PUF0 */
    PUFFIN_FILE_TRUNCATED = 67,    /* the file ends within a packet */
    PUFFIN_FILE_LEGACY = 68,       /* a version that is no longer read */
    PUFFIN_FILE_NEWER = 69,        /* a version that isn't known yet */
    PUFFIN_FILE_UNKNOWN_KIND = 70, /* + 256 * the number of the compression, which isn't known */
    PUFFIN_FILE_COMPRESSED = 71,   /* + 256 * the number of the compression, which isn't decompressed here */
    PUFFIN_FILE_BAD_META = 72,
    PUFFIN_FILE_BAD_STREAMS = 73,
    PUFFIN_FILE_BAD_SCOPES = 74,
    PUFFIN_FILE_BAD_RANGE = 75,
    PUFFIN_FILE_PART_TOO_LONG = 76, /* a part of a packet has 2^32 bytes or more */
    PUFFIN_FILE_REFUSED = 77        /* + 256 * PUFFIN_MISSING_ID or, of a merge, the fault of a stream (1 to 3), PUFFIN_TOO_LARGE
                                       or PUFFIN_TOO_DEEP */
};

/* Copies the name that a number has here to the front of name, as much of it as fits, and returns the size of the whole name in
 * bytes. No zero is added: fill name with zeros first. A file that is refused for another fault has both names, as in
 * "PUFFIN_FILE_REFUSED + 256 * PUFFIN_TOO_DEEP". Returns 0 if no call returns the number. PUFFIN_MISSING_ID has its name, although
 * calls return it only in the number of a file's fault. */
size_t puffin_fault_name(uint32_t fault, char *name, size_t room);
/* No name is longer, with a zero. */
enum { PUFFIN_FAULT_NAME_ROOM = 64 };

/* ---- texts in structs: bytes with a size, in UTF-8, which stay elsewhere. NULL is an empty text. */

typedef struct PuffinText {
    const uint8_t *bytes;
    size_t size;
} PuffinText;

PUFFIN_INLINE_ PuffinText puffin_text_of(const char *text, size_t size) {
    const void *bytes = text;
    const PuffinText made = {PUFFIN_CAST_(const uint8_t *, bytes), size};
    return made;
}
/* The same of a text that ends with a zero. */
PUFFIN_INLINE_ PuffinText puffin_text(const char *text) {
    return puffin_text_of(text, text ? strlen(text) : 0);
}

/* ---- bytes of any origin */

/* The counts of a stream. */
typedef struct PuffinCount {
    uint64_t scopes, depth;    /* the number of scopes, and the greatest nesting depth */
    int64_t start_ns, stop_ns; /* the least start and the greatest stop, or INT64_MAX and INT64_MIN if there is no scope */
} PuffinCount;

/* Counts the scopes of a stream, which has long texts if long_texts is set. Fails with the first fault in the bytes, or with
 * PUFFIN_MEMORY. */
PUFFIN_RESULT_ uint32_t puffin_count(const uint8_t *bytes, size_t size, bool long_texts, PuffinCount *count);

/* Reads a file, and sets *frames to the number of its frames, *offset to the offset at which the last of them ends, and *read to
 * how many bytes were read. Fails with the first fault in the file; *frames is then the number of frames that were read before
 * the fault, or before memory ran out. The fault is in the next frame, which begins at *offset, or at the file's beginning if
 * *offset is 0: in the last part that was read, which ends at *read. */
PUFFIN_RESULT_ uint32_t puffin_check_file(const uint8_t *file, size_t size, uint64_t *frames, uint64_t *offset, uint64_t *read);

/* ---- the scopes of a stream, one after the other */

/* A list consists of rows and of bytes, into which the rows point. A call that makes one copies the rows to the front of rows, at
 * most room of them, and the bytes to the front of bytes, at most bytes_room, and sets num_rows and num_bytes to how many there are:
 * a program may ask with no room first. Fill the struct with zeros before that. */

/* A scope, nested in depth others. Its text is at text_at in the bytes of all texts. */
typedef struct PuffinScope {
    int64_t start_ns, stop_ns;
    uint64_t depth, text_at, text_size;
    uint32_t id;
} PuffinScope;

typedef struct PuffinScopeList {
    PuffinScope *rows;
    size_t room;
    uint8_t *bytes;
    size_t bytes_room;
    uint64_t num_rows, num_bytes;
} PuffinScopeList;

/* Lists the scopes of a stream, each before its children, and their texts, one behind the other. Fails like puffin_count. */
PUFFIN_RESULT_ uint32_t puffin_scopes(const uint8_t *bytes, size_t size, bool long_texts, PuffinScopeList *list);

/* ---- the frames of a file, one after the other */

/* Describes a frame. */
typedef struct PuffinFrame {
    uint64_t index, scopes, bytes;
    int64_t start_ns, stop_ns;
    bool is_some; /* whether there is a frame: none is made if no scope was reported, and none is at the end of a file */
} PuffinFrame;

/* A thread's scopes in a frame. The name of the thread and its stream are at name_at and stream_at in the bytes of all streams.
 * has_start tells whether it is known when the thread's first scope began; start_ns is 0 otherwise. */
typedef struct PuffinStream {
    int64_t start_ns;
    uint64_t scopes, depth, name_at, name_size, stream_at, stream_size;
    bool has_start, long_texts;
} PuffinStream;

typedef struct PuffinStreamList {
    PuffinStream *rows;
    size_t room;
    uint8_t *bytes;
    size_t bytes_room;
    uint64_t num_rows, num_bytes, next; /* next: the offset at which the frame ends and the next one begins */
    PuffinFrame frame;
} PuffinStreamList;

/* Reads the frame at an offset of a file, and fills in list->frame and list->next. The first frame is at offset 0. Lists the
 * frame's streams, ordered by start and name, and the name of each thread, followed by its stream. puffin_scopes lists the scopes of
 * a stream. At the file's end, sets list->frame.is_some to false, list->next, and the numbers to 0. Fails with
 * PUFFIN_INVALID_OFFSET past the file's end, or with the frame's fault. */
PUFFIN_RESULT_ uint32_t puffin_frame_streams(const uint8_t *file, size_t size, uint64_t offset, PuffinStreamList *list);

/* What the frames of a file have of one thread. Its name is at name_at in the bytes of all names. has_start tells whether it is
 * known when the thread's first scope began; start_ns is 0 otherwise. */
typedef struct PuffinFileThread {
    int64_t start_ns;
    uint64_t frames, scopes, name_at, name_size;
    bool has_start;
} PuffinFileThread;

typedef struct PuffinFileThreadList {
    PuffinFileThread *rows;
    size_t room;
    uint8_t *bytes;
    size_t bytes_room;
    uint64_t num_rows, num_bytes;
} PuffinFileThreadList;

/* Lists the threads of a file, ordered by start and name, and their names, one behind the other. Fails with the first fault in the
 * file. */
PUFFIN_RESULT_ uint32_t puffin_file_threads(const uint8_t *file, size_t size, PuffinFileThreadList *list);

/* ---- the scopes of one thread, merged over frames */

/* A merged scope, nested in depth others: all scopes of a thread with the same path of ids and texts, which are its pieces. Its
 * text is at text_at in the bytes of all texts. per_frame_ns is total_ns divided by the number of frames, rounded down; max_ns is
 * the duration of the longest piece. start_ns is the least start of the pieces, each measured from the start of the scope around
 * it or, at the top, as if every frame began when the first did. It is greater if that is below 0, or before the end of the merged
 * scope in front of it within the same one, which is that one's start_ns plus its per_frame_ns. */
typedef struct PuffinMerged {
    int64_t start_ns, total_ns, per_frame_ns, max_ns;
    uint64_t pieces, depth, text_at, text_size;
    uint32_t id;
} PuffinMerged;

typedef struct PuffinMergedList {
    PuffinMerged *rows;
    size_t room;
    uint8_t *bytes;
    size_t bytes_room;
    uint64_t num_rows, num_bytes;
} PuffinMergedList;

/* The thread with this name and this start, or with this name and no start if has_start isn't set. */
typedef struct PuffinThreadName {
    PuffinText name;
    int64_t start_ns;
    bool has_start;
} PuffinThreadName;

/* Merges the scopes of a thread over the frames of a file. Lists the merged scopes, each before those in it, and their texts, one
 * behind the other; there are none if no frame has the thread. Fails with PUFFIN_NOT_TEXT if the name isn't UTF-8, whatever the
 * file contains. Otherwise fails with the first fault in the file. */
PUFFIN_RESULT_ uint32_t puffin_merge_file(const uint8_t *file, size_t size, const PuffinThreadName *thread, PuffinMergedList *list);

/* ---- ids, which threads and profilers share */

typedef struct PuffinIds {
    void *at_;
    bool is_open_;
} PuffinIds;

PUFFIN_RESULT_ uint32_t puffin_ids_open(PuffinIds *ids);
/* Threads and profilers that were opened with the handle keep the ids. */
uint32_t puffin_ids_close(PuffinIds *ids);

/* ---- recording the scopes of one thread; the program passes the times, in nanoseconds */

typedef struct PuffinThread {
    void *at_;
    bool is_open_, is_on_;
} PuffinThread;

/* Opens a handle for the scopes of one thread, which is to report to profilers that were opened with these ids. The texts of the
 * scopes are cut to at most 127 bytes, or 16,383 if long_texts is set. */
PUFFIN_RESULT_ uint32_t puffin_thread_open(PuffinThread *thread, PuffinIds *ids, const uint8_t *name, size_t name_size,
                                           bool long_texts);
/* Drops the scopes that weren't reported. */
uint32_t puffin_thread_close(PuffinThread *thread);
/* Gives up a thread's waiting scopes, for example those of a report that is refused again and again, and sets *scopes to how many
 * there were. Fails while a scope is open. */
uint32_t puffin_thread_discard(PuffinThread *thread, uint64_t *scopes);

/* Sets how many bytes of scopes the thread may hold, open ones and closed ones that no report took. A scope takes 31 bytes and its
 * text; puffin_begin asks for 31 bytes and the longest text (127 or 16,383), and fails with PUFFIN_MEMORY where that is more than is
 * left. The scopes before it stay. At first there is no such limit. */
uint32_t puffin_set_max_bytes(PuffinThread *thread, uint64_t bytes);

/* Begins a scope with this id and text at this time, and sets *scope to its offset, which puffin_end takes, or to PUFFIN_NO_SCOPE
 * if it fails. A negative time counts as 0, and a time before the thread's last one counts as the last one. */
uint32_t puffin_begin(PuffinThread *thread, int64_t now_ns, uint32_t id, const uint8_t *text, size_t text_size,
                      uint64_t *scope);
/* Ends this scope, which must be the innermost open one. Does nothing if scope is PUFFIN_NO_SCOPE. */
uint32_t puffin_end(PuffinThread *thread, int64_t now_ns, uint64_t scope);

/* Turns a thread's scopes on or off. They are on when the thread is opened. While they are off, puffin_begin begins no scope,
 * whatever its id and text are, and sets *scope to PUFFIN_NO_SCOPE. A scope that is open already is ended as usual. */
uint32_t puffin_set_scopes_on(PuffinThread *thread, bool is_on);
/* Whether a scope would begin now. A program can ask this before it reads its clock or makes a text. */
PUFFIN_INLINE_ bool puffin_scopes_on(const PuffinThread *thread) {
    return thread->is_on_;
}
enum { PUFFIN_NO_SCOPE = 0 };

/* ---- a clock for a program that has none of its own: the library itself reads no clock */

#if defined(CLOCK_MONOTONIC) && !defined(PUFFIN_NO_CLOCK)
/* The time in nanoseconds by the system's monotonic clock, which is one clock for all threads of a process. It is declared where
 * <time.h> has that clock: in POSIX systems, if the program doesn't ask for ISO C alone (as -std=c99 does). */
PUFFIN_INLINE_ int64_t puffin_now_ns(void) {
    struct timespec now;
    clock_gettime(CLOCK_MONOTONIC, &now);
    const int64_t seconds = now.tv_sec;
    return seconds * 1000000000 + now.tv_nsec;
}
#endif

/* ---- collecting what threads report into frames, and a view of the frames */

typedef struct PuffinProfiler {
    void *at_;
    bool is_open_;
} PuffinProfiler;

/* The view keeps the last 1,000 frames and the 256 slowest ones, unless puffin_set_limits sets other limits. */
PUFFIN_RESULT_ uint32_t puffin_profiler_open(PuffinProfiler *profiler, PuffinIds *ids);
uint32_t puffin_profiler_close(PuffinProfiler *profiler);

/* A place in the code: a function, if name is empty, or a scope within a function under a name of its own. line is 0 if it is
 * unknown. */
typedef struct PuffinPlace {
    PuffinText name, function, file;
    uint32_t line;
} PuffinPlace;

/* Registers a place, and sets *id, under which any thread begins scopes there. The next frame that is made lists it, so a file has
 * its name. Call it once for each place, between any two other calls. If the call fails, an id may be used up, and a later frame
 * may list the place under it. */
PUFFIN_RESULT_ uint32_t puffin_register(PuffinProfiler *profiler, const PuffinPlace *place, uint32_t *id);

/* Reports a thread's waiting scopes to a profiler: those that ended since the thread's last accepted report. Does nothing if
 * no scope is waiting or open. If the call fails, the scopes keep waiting. */
uint32_t puffin_report(PuffinThread *thread, PuffinProfiler *profiler);

/* Appends the scopes of a stream to those that wait for the next frame, under a thread that needn't exist. See puffin_count for
 * bytes and long_texts. Fails with the first fault in the bytes. */
PUFFIN_RESULT_ uint32_t puffin_user_scopes(PuffinProfiler *profiler, const PuffinThreadName *thread, const uint8_t *bytes,
                                           size_t size, bool long_texts);

/* Makes a frame of everything that was reported since the last one, adds it to the view, and fills in *frame. If the call
 * fails, nothing is lost: if the view has no memory for the frame, the frame waits, and the next call adds it instead of
 * making a new one. */
PUFFIN_RESULT_ uint32_t puffin_new_frame(PuffinProfiler *profiler, PuffinFrame *frame);
/* Makes the next frame list every known scope, not only the new ones. A program that begins a new file calls it, so that the
 * file has all names. */
uint32_t puffin_snapshot(PuffinProfiler *profiler);

/* Sets how many recent and how many slow frames the view keeps at most. This takes effect when the next frame is added. */
uint32_t puffin_set_limits(PuffinProfiler *profiler, size_t recent, size_t slow);
/* Sets how many bytes of scopes may wait for the next frame, of all threads together. puffin_report and puffin_user_scopes fail with
 * PUFFIN_MEMORY where there would be more; while nothing waits, they take scopes of any size. What waits stays. At first there is
 * no such limit. */
uint32_t puffin_set_max_pending(PuffinProfiler *profiler, uint64_t bytes);
/* Drops all frames of the view, recent and slow, and keeps its limits. What waits for the next frame stays. */
uint32_t puffin_view_clear(PuffinProfiler *profiler);

/* Merges the scopes of one thread over the newest frames of the view: over as many as frames says, or over all recent ones if
 * there are fewer. 1 means the newest frame. Gives the merged scopes like puffin_merge_file. Fails with PUFFIN_NOT_TEXT if the
 * name isn't UTF-8, or with PUFFIN_TOO_DEEP or PUFFIN_TOO_LARGE if the scopes can't be merged. */
PUFFIN_RESULT_ uint32_t puffin_merge_view(PuffinProfiler *profiler, size_t frames, const PuffinThreadName *thread,
                                          PuffinMergedList *list);

/* Makes a .puffin file in memory from the view's frames, and sets *size to its size in bytes. Its first frame lists every scope
 * that the view knows. */
PUFFIN_RESULT_ uint32_t puffin_file_begin(PuffinProfiler *profiler, uint64_t *size);
/* Copies that file's next bytes to the front of out, as many as fit, and sets *size to how many were copied: 0 at the end. */
PUFFIN_RESULT_ uint32_t puffin_file_next(PuffinProfiler *profiler, uint8_t *out, size_t room, uint64_t *size);

/* A file consists of these four letters and of packets, so a program can write it as frames come. */
#define PUFFIN_FILE_START "PUF0"
/* Makes the packet of the view's newest frame in memory, and sets *size to its size in bytes, or to 0 if the view keeps no
 * recent frame. */
PUFFIN_RESULT_ uint32_t puffin_frame_begin(PuffinProfiler *profiler, uint64_t *size);
/* Copies that packet's next bytes to the front of out, as many as fit, and sets *size to how many were copied: 0 at the end. */
PUFFIN_RESULT_ uint32_t puffin_frame_next(PuffinProfiler *profiler, uint8_t *out, size_t room, uint64_t *size);

/* ---- empty texts and lists: the calls above get a pointer that isn't NULL. Scopes that are off: no call is made, and the answer is
 * the library's own. */

PUFFIN_INLINE_ const uint8_t *puffin_bytes_(const uint8_t *bytes) {
    static const uint8_t none = 0;
    return bytes ? bytes : &none;
}
PUFFIN_INLINE_ PuffinText puffin_text_(PuffinText text) {
    text.bytes = puffin_bytes_(text.bytes);
    return text;
}
PUFFIN_INLINE_ PuffinThreadName puffin_thread_name_(const PuffinThreadName *thread) {
    PuffinThreadName named = *thread;
    named.name = puffin_text_(named.name);
    return named;
}
/* Has call fill in to, which is *list with pointers that aren't NULL, and returns what it returns. */
#define PUFFIN_LIST_(Row, List, call)                                                                                          \
    Row no_row;                                                                                                                \
    uint8_t no_byte;                                                                                                           \
    List to = *list;                                                                                                           \
    to.rows = to.rows ? to.rows : &no_row;                                                                                     \
    to.bytes = to.bytes ? to.bytes : &no_byte;                                                                                 \
    const uint32_t fault = call;                                                                                               \
    to.rows = list->rows;                                                                                                      \
    to.bytes = list->bytes;                                                                                                    \
    *list = to;                                                                                                                \
    return fault

PUFFIN_RESULT_ PUFFIN_INLINE_ uint32_t puffin_count_(const uint8_t *bytes, size_t size, bool long_texts, PuffinCount *count) {
    return puffin_count(puffin_bytes_(bytes), size, long_texts, count);
}
PUFFIN_RESULT_ PUFFIN_INLINE_ uint32_t puffin_scopes_(const uint8_t *bytes, size_t size, bool long_texts, PuffinScopeList *list) {
    PUFFIN_LIST_(PuffinScope, PuffinScopeList, puffin_scopes(puffin_bytes_(bytes), size, long_texts, &to));
}
PUFFIN_RESULT_ PUFFIN_INLINE_ uint32_t puffin_frame_streams_(const uint8_t *file, size_t size, uint64_t offset,
                                                             PuffinStreamList *list) {
    PUFFIN_LIST_(PuffinStream, PuffinStreamList, puffin_frame_streams(puffin_bytes_(file), size, offset, &to));
}
PUFFIN_RESULT_ PUFFIN_INLINE_ uint32_t puffin_file_threads_(const uint8_t *file, size_t size, PuffinFileThreadList *list) {
    PUFFIN_LIST_(PuffinFileThread, PuffinFileThreadList, puffin_file_threads(puffin_bytes_(file), size, &to));
}
PUFFIN_RESULT_ PUFFIN_INLINE_ uint32_t puffin_check_file_(const uint8_t *file, size_t size, uint64_t *frames, uint64_t *offset,
                                                          uint64_t *read) {
    return puffin_check_file(puffin_bytes_(file), size, frames, offset, read);
}
PUFFIN_RESULT_ PUFFIN_INLINE_ uint32_t puffin_merge_file_(const uint8_t *file, size_t size, const PuffinThreadName *thread,
                                                          PuffinMergedList *list) {
    const PuffinThreadName named = puffin_thread_name_(thread);
    PUFFIN_LIST_(PuffinMerged, PuffinMergedList, puffin_merge_file(puffin_bytes_(file), size, &named, &to));
}
PUFFIN_RESULT_ PUFFIN_INLINE_ uint32_t puffin_merge_view_(PuffinProfiler *profiler, size_t frames, const PuffinThreadName *thread,
                                                          PuffinMergedList *list) {
    const PuffinThreadName named = puffin_thread_name_(thread);
    PUFFIN_LIST_(PuffinMerged, PuffinMergedList, puffin_merge_view(profiler, frames, &named, &to));
}
PUFFIN_RESULT_ PUFFIN_INLINE_ uint32_t puffin_thread_open_(PuffinThread *thread, PuffinIds *ids, const uint8_t *name,
                                                           size_t name_size, bool long_texts) {
    return puffin_thread_open(thread, ids, puffin_bytes_(name), name_size, long_texts);
}
PUFFIN_RESULT_ PUFFIN_INLINE_ uint32_t puffin_register_(PuffinProfiler *profiler, const PuffinPlace *place, uint32_t *id) {
    const PuffinPlace named = {puffin_text_(place->name), puffin_text_(place->function), puffin_text_(place->file), place->line};
    return puffin_register(profiler, &named, id);
}
PUFFIN_INLINE_ uint32_t puffin_begin_(PuffinThread *thread, int64_t now_ns, uint32_t id, const uint8_t *text,
                                      size_t text_size, uint64_t *scope) {
    *scope = PUFFIN_NO_SCOPE;
    if (!thread->is_on_ && thread->is_open_) {
        return PUFFIN_OK;
    }
    return puffin_begin(thread, now_ns, id, puffin_bytes_(text), text_size, scope);
}
PUFFIN_INLINE_ uint32_t puffin_end_(PuffinThread *thread, int64_t now_ns, uint64_t scope) {
    if (scope == PUFFIN_NO_SCOPE && thread->is_open_) {
        return PUFFIN_OK;
    }
    return puffin_end(thread, now_ns, scope);
}
PUFFIN_RESULT_ PUFFIN_INLINE_ uint32_t puffin_user_scopes_(PuffinProfiler *profiler, const PuffinThreadName *thread,
                                                           const uint8_t *bytes, size_t size, bool long_texts) {
    const PuffinThreadName named = puffin_thread_name_(thread);
    return puffin_user_scopes(profiler, &named, puffin_bytes_(bytes), size, long_texts);
}
PUFFIN_INLINE_ size_t puffin_fault_name_(uint32_t fault, char *name, size_t room) {
    static const char written[] = "PUFFIN_NOT_WRITTEN";
    if (fault != PUFFIN_NOT_WRITTEN) {
        return puffin_fault_name(fault, name, room);
    }
    memcpy(name, written, room < sizeof written - 1 ? room : sizeof written - 1);
    return sizeof written - 1;
}
#define puffin_fault_name puffin_fault_name_
#define puffin_count puffin_count_
#define puffin_scopes puffin_scopes_
#define puffin_frame_streams puffin_frame_streams_
#define puffin_file_threads puffin_file_threads_
#define puffin_check_file puffin_check_file_
#define puffin_merge_file puffin_merge_file_
#define puffin_merge_view puffin_merge_view_
#define puffin_thread_open puffin_thread_open_
#define puffin_register puffin_register_
#define puffin_begin puffin_begin_
#define puffin_end puffin_end_
#define puffin_user_scopes puffin_user_scopes_

/* ---- the same calls with texts that end with a zero; a text with a zero in it needs the forms above. NULL is an empty text. */

PUFFIN_RESULT_ PUFFIN_INLINE_ uint32_t puffin_thread_open_str(PuffinThread *thread, PuffinIds *ids, const char *name,
                                                              bool long_texts) {
    const PuffinText text = puffin_text(name);
    return puffin_thread_open(thread, ids, text.bytes, text.size, long_texts);
}
PUFFIN_INLINE_ uint32_t puffin_begin_str(PuffinThread *thread, int64_t now_ns, uint32_t id, const char *text,
                                         uint64_t *scope) {
    const PuffinText given = puffin_text(puffin_scopes_on(thread) ? text : NULL);
    return puffin_begin(thread, now_ns, id, given.bytes, given.size, scope);
}

#ifdef __cplusplus
}
#endif
#endif
