/* The files of PuffinWriter, in the folder of the first argument: killed between any two of its system calls, on a full disk, and
 * with a folder in place of a file. The linker puts the calls below in place of the system's (--wrap). */
#define _GNU_SOURCE
#include "puffin_writer.h"
#include <inttypes.h>
#include <signal.h>
#include <sys/mman.h>
#include <sys/resource.h>
#include <sys/wait.h>

#define FRAMES 14
#define IN_A_FILE 3
#define OLDER 2

static long steps, last_step = -1; /* the process is killed at that one */
static int64_t disk = -1;          /* how many bytes fit on the disk, or -1 */

static void step(void) {
    if (++steps == last_step) {
        kill(getpid(), SIGKILL);
    }
}
ssize_t __real_write(int file, const void *bytes, size_t size);
ssize_t __wrap_write(int file, const void *bytes, size_t size) {
    step();
    if (steps % 5 == 0) {
        errno = EINTR;
        return -1;
    }
    if (disk >= 0 && (int64_t)size > disk) {
        size = (size_t)disk;
        errno = ENOSPC;
    }
    if (disk == 0 || size == 0) {
        return -1;
    }
    ssize_t half = __real_write(file, bytes, (size + 1) / 2); /* a write may be short */
    disk -= disk > 0 ? half : 0;
    return half;
}
int __real_rename(const char *from, const char *to);
int __wrap_rename(const char *from, const char *to) {
    step();
    return __real_rename(from, to);
}
int __real_close(int file);
int __wrap_close(int file) {
    step();
    return __real_close(file);
}
int __wrap_fsync(int file) {
    step();
    return file < 0 ? -1 : 0;
}

static const char *folder;
static PuffinIds ids;
static PuffinThread thread;
static PuffinProfiler profiler;
static char path[4096];

static void fail(const char *what, uint64_t got, uint64_t wanted) {
    fprintf(stderr, "%s: %" PRIu64 " in place of %" PRIu64 ", at step %ld\n", what, got, wanted, last_step);
    exit(1);
}
static void is(const char *what, uint64_t got, uint64_t wanted) {
    if (got != wanted) {
        fail(what, got, wanted);
    }
}
#define CALL(call) is(#call, call, PUFFIN_OK)

static const char *at(const char *name) {
    static char all[4200];
    snprintf(all, sizeof all, "%s/%s", folder, name);
    return all;
}

static void begin(void) {
    CALL(puffin_ids_open(&ids));
    CALL(puffin_thread_open_str(&thread, &ids, "main", false));
    CALL(puffin_profiler_open(&profiler, &ids));
    CALL(puffin_set_limits(&profiler, 1, 0));
}
static void end(void) {
    CALL(puffin_thread_close(&thread));
    CALL(puffin_profiler_close(&profiler));
    CALL(puffin_ids_close(&ids));
}

/* A scope of one name, which is registered before the first frame, and of one that is registered in the seventh. */
static void record(uint64_t number) {
    static uint32_t first, later;
    const PuffinPlace first_place = {.function = puffin_text("the first name"), .file = puffin_text("writer.c"), .line = 1};
    const PuffinPlace later_place = {.function = puffin_text("the later name"), .file = puffin_text("writer.c"), .line = 2};
    uint64_t scope;
    if (number == 0) {
        CALL(puffin_register(&profiler, &first_place, &first));
    }
    if (number == 6) {
        CALL(puffin_register(&profiler, &later_place, &later));
    }
    CALL(puffin_begin_str(&thread, (int64_t)number * 10, number < 6 ? first : later, "", &scope));
    CALL(puffin_end(&thread, (int64_t)number * 10 + 5, scope));
    CALL(puffin_report(&thread, &profiler));
}

static uint8_t file[1 << 16];
static size_t read_file(const char *name) {
    FILE *opened = fopen(at(name), "rb");
    size_t size = opened ? fread(file, 1, sizeof file, opened) : 0;
    if (opened) {
        fclose(opened);
    }
    return size;
}

/* Reads a file: its frames follow on *next, the first of them has all names, and a cut frame may be at its end. */
static void read_frames(const char *name, bool may_be_cut, uint64_t *first, uint64_t *next) {
    uint64_t frames, offset, got;
    PuffinStreamList list = {0};
    size_t size = read_file(name);
    if (size == 0) {
        is("a file without a byte", access(at(name), F_OK) == 0, false);
        return;
    }
    uint32_t fault = puffin_check_file(file, size, &frames, &offset, &got);
    is("a file of whole frames", fault == PUFFIN_OK || (may_be_cut && fault == PUFFIN_FILE_TRUNCATED), true);
    size = fault == PUFFIN_OK ? size : offset > 4 ? offset : 4;
    for (uint64_t number = 0, place = 0; number < frames; number++, place = list.next) {
        CALL(puffin_frame_streams(file, size, place, &list));
        const uint64_t index = list.frame.index;
        if (number == 0) {
            is("the first name", memmem(file + place, list.next - place, "the first name", 14) != NULL, true);
            is("the later name", memmem(file + place, list.next - place, "the later name", 14) != NULL, index >= 6);
        }
        *first = *first == UINT64_MAX ? index : *first;
        if (*next != UINT64_MAX && index != *next) {
            fail("a frame's index", index, *next);
        }
        *next = index + 1;
    }
}

static void read_all(bool may_be_cut, uint64_t *first, uint64_t *next) {
    *first = *next = UINT64_MAX;
    read_frames("work.2.puffin", false, first, next);
    read_frames("work.1.puffin", false, first, next);
    read_frames("work.puffin", may_be_cut, first, next);
}

static void clear(void) {
    const char *names[] = {"work.puffin", "work.1.puffin", "work.2.puffin", "work.3.puffin", "work.puffin.part"};
    for (int i = 0; i < 5; i++) {
        remove(at(names[i]));
    }
}

static PuffinWriter new_writer(void) {
    PuffinWriter writer = {0};
    snprintf(path, sizeof path, "%s/work.puffin", folder);
    writer.path = path;
    writer.max_frames = IN_A_FILE;
    writer.older_files = OLDER;
    return writer;
}

/* A run that writes its frames, and tells how many calls returned. */
static void write_frames(volatile uint64_t *returned, bool syncs) {
    PuffinWriter writer = new_writer();
    PuffinFrame frame;
    writer.syncs = syncs;
    begin();
    CALL(puffin_writer_open(&writer));
    for (uint64_t number = 0; number < FRAMES; number++) {
        record(number);
        CALL(puffin_writer_frame(&writer, &profiler, &frame));
        is("index", frame.index, number);
        *returned = number + 1;
    }
    CALL(puffin_writer_close(&writer));
    is("closed twice", puffin_writer_close(&writer), PUFFIN_NOT_OPEN);
    end();
}

/* Runs that are killed, each at the next system call, until one ends by itself. */
static long kills(bool syncs) {
    volatile uint64_t *returned = mmap(NULL, 4096, PROT_READ | PROT_WRITE, MAP_SHARED | MAP_ANONYMOUS, -1, 0);
    int status = 1;
    long runs = 0;
    for (; status != 0; runs++) {
        uint64_t first, next;
        clear();
        *returned = 0;
        pid_t child = fork();
        if (child == 0) {
            last_step = runs + 1;
            write_frames(returned, syncs);
            _exit(0);
        }
        waitpid(child, &status, 0);
        is("how a run ends", status == 0 || (WIFSIGNALED(status) && WTERMSIG(status) == SIGKILL), true);
        read_all(status != 0, &first, &next);
        uint64_t kept = next == UINT64_MAX ? 0 : next - first, wanted = *returned < OLDER * IN_A_FILE ? *returned : OLDER * IN_A_FILE;
        if (kept < wanted || (*returned > 0 && next < *returned)) {
            fail("frames that are kept", kept, wanted);
        }
        is("files past the last one", access(at("work.3.puffin"), F_OK) == 0, false);
    }
    is("the frames of a whole run", *returned, FRAMES);
    munmap((void *)(uintptr_t)returned, 4096);
    return runs - 1;
}

/* A disk with room for so many bytes: what is on it are whole frames, and what was refused is written when there is room. */
static void full_disk(int64_t room) {
    PuffinWriter writer = new_writer();
    PuffinFrame frame;
    uint64_t first = UINT64_MAX, next = UINT64_MAX, lost = UINT64_MAX;
    clear();
    begin();
    disk = room;
    if (puffin_writer_open(&writer) == PUFFIN_NOT_WRITTEN) {
        is("what failed", strcmp(writer.failed, at("work.puffin.part")) == 0, true);
    }
    for (uint64_t number = 0; number < FRAMES; number++) {
        record(number);
        if (puffin_writer_frame(&writer, &profiler, &frame) == PUFFIN_OK) {
            continue;
        }
        is("the error", (uint64_t)writer.error, ENOSPC);
        is("errno", (uint64_t)errno, ENOSPC);
        is("what failed", strncmp(writer.failed, path, strlen(path)) == 0, true);
        disk = 0;
        read_all(false, &first, &next);
        is("the frames before", next == UINT64_MAX ? 0 : next, number);
        is("again", puffin_writer_write(&writer), PUFFIN_NOT_WRITTEN);
        disk = -1;
        if (room % 2 == 0) {
            CALL(puffin_writer_write(&writer));
        } else {
            lost = number; /* the next frame has its names */
        }
    }
    disk = -1;
    CALL(puffin_writer_close(&writer));
    if (lost == UINT64_MAX) {
        read_all(false, &first, &next);
        is("all frames", next, FRAMES);
    } else {
        read_file("work.puffin");
    }
    end();
}

/* A frame that is left out, since it couldn't be written, has a name that is new: the next frame lists it. */
static void lost_names(void) {
    PuffinWriter writer = new_writer();
    PuffinFrame frame;
    uint64_t frames = 0, offset, got;
    clear();
    begin();
    writer.max_frames = 0;
    CALL(puffin_writer_open(&writer));
    for (uint64_t number = 0; number < 8; number++) {
        record(number);
        disk = number == 6 ? 0 : -1;
        is("a frame", puffin_writer_frame(&writer, &profiler, &frame), number == 6 ? PUFFIN_NOT_WRITTEN : PUFFIN_OK);
    }
    CALL(puffin_writer_close(&writer));
    size_t size = read_file("work.puffin");
    CALL(puffin_check_file(file, size, &frames, &offset, &got));
    is("frames", frames, 7);
    is("the later name", memmem(file, size, "the later name", 14) != NULL, true);
    end();
}

/* The same by the system, which lets no file grow further. */
static void limited_file(void) {
    PuffinWriter writer = new_writer();
    PuffinFrame frame;
    uint64_t first = UINT64_MAX, next = UINT64_MAX, number = 0;
    struct rlimit before, few;
    uint32_t fault = PUFFIN_OK;
    clear();
    begin();
    getrlimit(RLIMIT_FSIZE, &before);
    few = before;
    few.rlim_cur = 500;
    signal(SIGXFSZ, SIG_IGN);
    setrlimit(RLIMIT_FSIZE, &few);
    writer.max_frames = 0;
    CALL(puffin_writer_open(&writer));
    for (; fault == PUFFIN_OK && number < FRAMES; number++) {
        record(number);
        fault = puffin_writer_frame(&writer, &profiler, &frame);
    }
    setrlimit(RLIMIT_FSIZE, &before);
    is("a file that may not grow", fault, PUFFIN_NOT_WRITTEN);
    is("the error", (uint64_t)writer.error, EFBIG);
    read_frames("work.puffin", false, &first, &next);
    is("frames", next, number - 1);
    CALL(puffin_writer_close(&writer)); /* writes the frame that was refused */
    first = next = UINT64_MAX;
    read_frames("work.puffin", false, &first, &next);
    is("frames", next, number);
    end();
}

/* A folder has the name of a file, which is told, and is left alone. */
static void folders(void) {
    PuffinWriter writer = new_writer();
    PuffinFrame frame;
    uint64_t first, next;
    clear();
    begin();
    mkdir(at("work.puffin"), 0777);
    is("a folder", puffin_writer_open(&writer), PUFFIN_NOT_WRITTEN);
    is("which file", strcmp(writer.failed, at("work.puffin")) == 0, true);
    is("why", (uint64_t)writer.error, EISDIR);
    record(0);
    is("still a folder", puffin_writer_frame(&writer, &profiler, &frame), PUFFIN_NOT_WRITTEN);
    is("the folder is there", (uint64_t)rmdir(at("work.puffin")), 0);
    CALL(puffin_writer_write(&writer));
    mkdir(at("work.1.puffin"), 0777);
    for (uint64_t number = 1; number <= IN_A_FILE; number++) {
        record(number);
        is("a folder behind the first file", puffin_writer_frame(&writer, &profiler, &frame),
           number < IN_A_FILE ? PUFFIN_OK : PUFFIN_NOT_WRITTEN);
    }
    is("which file", strcmp(writer.failed, at("work.1.puffin")) == 0, true);
    is("why", (uint64_t)writer.error, EISDIR);
    is("the folder is there", (uint64_t)rmdir(at("work.1.puffin")), 0);
    CALL(puffin_writer_write(&writer));
    CALL(puffin_writer_close(&writer));
    read_all(false, &first, &next);
    is("all frames", next - first, IN_A_FILE + 1);
    writer = new_writer();
    snprintf(path, sizeof path, "%s/nowhere/work.puffin", folder);
    is("no folder", puffin_writer_open(&writer), PUFFIN_NOT_WRITTEN);
    is("why", (uint64_t)writer.error, ENOENT);
    is("close", puffin_writer_close(&writer), PUFFIN_OK);
    end();
}

/* The next file begins after so many bytes, and an earlier run's file becomes an older one. */
static void bytes_of_files(void) {
    uint64_t first, next;
    clear();
    begin();
    for (uint64_t number = 0, run = 0; run < 2; run++) {
        PuffinWriter writer = new_writer();
        PuffinFrame frame;
        writer.max_frames = 0;
        writer.max_bytes = run == 0 ? 0 : 1;
        CALL(puffin_writer_open(&writer));
        is("opened twice", puffin_writer_open(&writer), PUFFIN_IS_OPEN);
        for (uint64_t last = number + 2; number < last; number++) {
            record(number);
            CALL(puffin_writer_frame(&writer, &profiler, &frame));
        }
        if (run == 1) {
            CALL(puffin_writer_frame(&writer, &profiler, &frame));
            is("nothing was recorded", frame.is_some, false);
        }
        is("frames of the newest file", writer.frames, run == 0 ? 2 : 1);
        CALL(puffin_writer_close(&writer));
    }
    read_all(false, &first, &next);
    is("all frames", first == 0 ? next : 0, 4);
    end();
}

int main(int argc, char **argv) {
    folder = argc > 1 ? argv[1] : ".";
    long killed = kills(false), synced = kills(true);
    is("kills of a run", killed > 100, true);
    /* each frame is synced, the first bytes of each file, and its folder, which is closed too */
    is("kills of a run that syncs", synced - killed >= FRAMES + 3 * ((FRAMES + IN_A_FILE - 1) / IN_A_FILE), true);
    for (int64_t room = 0; room < 1500; room += 7) {
        full_disk(room);
    }
    lost_names();
    limited_file();
    folders();
    bytes_of_files();
    clear();
    puts("writer");
    return 0;
}
