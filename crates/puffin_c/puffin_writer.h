/* Writes a profiler's frames to .puffin files as they come, for programs that run for hours. Header only; POSIX.
 *
 * Each file begins with a frame that lists all names, so it can be read by itself. A file game.puffin has its name only once its
 * first four letters are in it; until then it is game.puffin.part. So whenever the program is killed, each file that has a name is
 * read up to its last whole frame, and no frame is lost that a call returned PUFFIN_OK for (with `syncs` neither if the machine
 * stops).
 *
 * The calls return 0 or the number of a fault, like those of puffin.h. PUFFIN_NOT_WRITTEN means that the system refused something;
 * `failed` then names the file and `error` is errno. The file keeps its whole frames, and the next call tries again: the frame of a
 * call that failed is written by puffin_writer_write, or left out by the next puffin_writer_take, whose frame then lists all names
 * again. */
#ifndef PUFFIN_WRITER_H
#define PUFFIN_WRITER_H
#include "puffin.h"
#include <errno.h>
#include <fcntl.h>
#include <stdio.h>
#include <stdlib.h>
#include <sys/stat.h>
#include <unistd.h>
#ifndef O_CLOEXEC
#error "puffin_writer.h needs POSIX: compile for gnu99 or newer, or define _POSIX_C_SOURCE as 200809L"
#endif
#ifdef __cplusplus
extern "C" {
#endif

typedef struct PuffinWriter {
    /* Set these before the writer is opened, which copies the path. */
    const char *path;     /* the newest file */
    uint64_t max_frames;  /* the next file begins when the newest has so many frames; 0: no limit */
    uint64_t max_bytes;   /* the next file begins when the newest has so many bytes or more; 0: no limit */
    uint32_t older_files; /* how many older files stay, also of earlier runs: game.1.puffin is the newest of them. With 0 the next
                           * file replaces the one before it */
    bool syncs;           /* a frame is on the disk when its call returns (fsync) */
    /* Read these after PUFFIN_NOT_WRITTEN. `failed` is NULL after puffin_writer_close: then it is the newest file. */
    int error;
    const char *failed;
    /* The frames and bytes of the newest file. */
    uint64_t frames, bytes;
    /* The writer's own. */
    char *path_; /* the path, and behind it room for three names, each of so many bytes */
    size_t name_room_;
    uint8_t *packet_;
    uint64_t packet_size_, room_;
    int file_;
    bool is_open_, begins_, wants_names_;
} PuffinWriter;

PUFFIN_INLINE_ uint32_t puffin_writer_refused_(PuffinWriter *writer, const char *name) {
    writer->error = errno;
    writer->failed = name;
    return PUFFIN_NOT_WRITTEN;
}

/* Copies the path, with room for the names of other files. */
PUFFIN_INLINE_ bool puffin_writer_named_(PuffinWriter *writer) {
    const size_t room = strlen(writer->path) + 16;
    void *names = malloc(4 * room);
    if (names) {
        memcpy(names, writer->path, room - 15);
    }
    writer->path_ = PUFFIN_CAST_(char *, names);
    writer->name_room_ = room;
    writer->file_ = -1;
    return names != NULL;
}

/* The name of an older file: its number stands before the last dot of the path, or at the end if the file's name has no dot. */
PUFFIN_INLINE_ void puffin_writer_name_(const PuffinWriter *writer, char *to, unsigned number) {
    const char *slash = strrchr(writer->path_, '/'), *name = slash ? slash + 1 : writer->path_, *dot = strrchr(name, '.');
    const size_t all = strlen(writer->path_), head = dot && dot != name ? all - strlen(dot) : all;
    memcpy(to, writer->path_, all + 1);
    if (number > 0) {
        snprintf(to + head, 12, ".%u", number);
        strcat(to, writer->path_ + head);
    }
}

PUFFIN_INLINE_ bool puffin_writer_wrote_(int file, const uint8_t *bytes, uint64_t size) {
    while (size > 0) {
        const ssize_t wrote = write(file, bytes, size);
        if (wrote > 0) {
            const uint64_t more = PUFFIN_CAST_(uint64_t, wrote);
            bytes += more;
            size -= more;
        } else if (wrote == 0 || errno != EINTR) {
            return false;
        }
    }
    return true;
}

/* Whether a name is taken by a file, which may be renamed or replaced, or -1 with errno if something else has it. */
PUFFIN_INLINE_ int puffin_writer_taken_(const char *name) {
    struct stat found;
    if (stat(name, &found) != 0) {
        return errno == ENOENT ? 0 : -1;
    }
    if (!S_ISREG(found.st_mode)) {
        errno = S_ISDIR(found.st_mode) ? EISDIR : EEXIST;
        return -1;
    }
    return 1;
}

/* Makes the path free: each older file gets the next number, up to the first number that is free, or the last one. */
PUFFIN_INLINE_ uint32_t puffin_writer_make_way_(PuffinWriter *writer, char *from, char *to) {
    unsigned number = 0;
    for (;; number++) {
        puffin_writer_name_(writer, to, number);
        const int taken = puffin_writer_taken_(to);
        if (taken < 0) {
            return puffin_writer_refused_(writer, to);
        }
        if (taken == 0 || number == writer->older_files) {
            break;
        }
    }
    for (; number > 0; number--) {
        puffin_writer_name_(writer, from, number - 1);
        puffin_writer_name_(writer, to, number);
        if (rename(from, to) != 0) {
            return puffin_writer_refused_(writer, to);
        }
    }
    return PUFFIN_OK;
}

/* Syncs the folder of the path, so that the file's name is on the disk too. */
PUFFIN_INLINE_ bool puffin_writer_synced_folder_(const PuffinWriter *writer, char *folder) {
    const char *slash = strrchr(writer->path_, '/');
    strcpy(folder, slash ? writer->path_ : ".");
    if (slash) {
        folder[slash == writer->path_ ? 1 : strlen(writer->path_) - strlen(slash)] = 0;
    }
    const int opened = open(folder, O_RDONLY | O_CLOEXEC);
    const bool is_synced = opened >= 0 && fsync(opened) == 0;
    if (opened >= 0) {
        close(opened);
    }
    return is_synced;
}

/* Writes these bytes to a new file, gives it the path as its name, and keeps it open. */
PUFFIN_INLINE_ uint32_t puffin_writer_place_(PuffinWriter *writer, const uint8_t *bytes, uint64_t size) {
    const size_t room = writer->name_room_;
    char *part = writer->path_ + room, *from = part + room, *to = from + room;
    uint32_t fault = PUFFIN_OK;
    memcpy(part, writer->path_, room - 16);
    memcpy(part + room - 16, ".part", 6);
    const int file = open(part, O_WRONLY | O_CREAT | O_TRUNC | O_CLOEXEC, 0666);
    if (file < 0) {
        return puffin_writer_refused_(writer, part);
    }
    if (!puffin_writer_wrote_(file, bytes, size) || (writer->syncs && fsync(file) != 0)) {
        fault = puffin_writer_refused_(writer, part);
    } else {
        fault = puffin_writer_make_way_(writer, from, to);
    }
    if (fault == PUFFIN_OK && rename(part, writer->path_) != 0) {
        fault = puffin_writer_refused_(writer, writer->path_);
    }
    if (fault != PUFFIN_OK) {
        close(file);
        unlink(part);
        errno = writer->error;
        return fault;
    }
    writer->file_ = file;
    writer->bytes = size;
    writer->frames = 0;
    writer->begins_ = false;
    if (writer->syncs && !puffin_writer_synced_folder_(writer, from)) {
        return puffin_writer_refused_(writer, writer->path_);
    }
    return PUFFIN_OK;
}

PUFFIN_INLINE_ uint32_t puffin_writer_end_file_(PuffinWriter *writer) {
    const int file = writer->file_;
    writer->file_ = -1;
    if (file >= 0 && close(file) != 0) {
        return puffin_writer_refused_(writer, writer->path_);
    }
    return PUFFIN_OK;
}

PUFFIN_INLINE_ uint32_t puffin_writer_begin_file_(PuffinWriter *writer) {
    static const uint8_t start[] = {'P', 'U', 'F', '0'};
    const uint32_t fault = puffin_writer_end_file_(writer);
    return fault != PUFFIN_OK ? fault : puffin_writer_place_(writer, start, sizeof start);
}

/* Writes the frame that was taken last, unless it is written. Needs no lock: only one thread at a time may use the writer. */
PUFFIN_RESULT_ PUFFIN_INLINE_ uint32_t puffin_writer_write(PuffinWriter *writer) {
    if (!writer->is_open_) {
        return PUFFIN_NOT_OPEN;
    }
    if (writer->packet_size_ == 0) {
        return PUFFIN_OK;
    }
    if (writer->begins_) {
        const uint32_t fault = puffin_writer_begin_file_(writer);
        if (fault != PUFFIN_OK) {
            return fault;
        }
    }
    if (!puffin_writer_wrote_(writer->file_, writer->packet_, writer->packet_size_) ||
        (writer->syncs && fsync(writer->file_) != 0)) {
        const uint32_t fault = puffin_writer_refused_(writer, writer->path_);
        const off_t whole = PUFFIN_CAST_(off_t, writer->bytes);
        if (ftruncate(writer->file_, whole) != 0 || lseek(writer->file_, whole, SEEK_SET) != whole) {
            /* the file ends within a frame, so nothing may follow in it */
            writer->begins_ = writer->wants_names_ = true;
            writer->packet_size_ = 0;
        }
        errno = writer->error;
        return fault;
    }
    writer->bytes += writer->packet_size_;
    writer->frames++;
    writer->packet_size_ = 0;
    return PUFFIN_OK;
}

/* Closes the file, and gives back the memory, whatever it returns. A frame that isn't written is tried once more. */
PUFFIN_INLINE_ uint32_t puffin_writer_close(PuffinWriter *writer) {
    if (!writer->is_open_) {
        return PUFFIN_NOT_OPEN;
    }
    const uint32_t wrote = puffin_writer_write(writer);
    const uint32_t ended = puffin_writer_end_file_(writer);
    free(writer->path_);
    free(writer->packet_);
    writer->path_ = NULL;
    writer->packet_ = NULL;
    writer->room_ = writer->packet_size_ = 0;
    writer->is_open_ = false;
    writer->failed = NULL;
    return wrote != PUFFIN_OK ? wrote : ended;
}

/* Begins the first file. After PUFFIN_NOT_WRITTEN the writer is open all the same, and its next frame tries again. */
PUFFIN_RESULT_ PUFFIN_INLINE_ uint32_t puffin_writer_open(PuffinWriter *writer) {
    if (writer->is_open_) {
        return PUFFIN_IS_OPEN;
    }
    if (!puffin_writer_named_(writer)) {
        return PUFFIN_MEMORY;
    }
    writer->wants_names_ = true;
    const uint32_t fault = puffin_writer_begin_file_(writer);
    writer->is_open_ = true;
    writer->begins_ = writer->file_ < 0;
    return fault;
}

/* Makes a new frame as puffin_new_frame does, and copies its packet. A program with several threads holds the profiler's lock
 * during this call, and needs none for puffin_writer_write. The view has to keep one recent frame at least. */
PUFFIN_RESULT_ PUFFIN_INLINE_ uint32_t puffin_writer_take(PuffinWriter *writer, PuffinProfiler *profiler,
                                                          PuffinFrame *frame) {
    uint64_t size = 0;
    uint32_t fault = PUFFIN_OK;
    if (!writer->is_open_) {
        return PUFFIN_NOT_OPEN;
    }
    if (writer->packet_size_ > 0) { /* it wasn't written, and its names are missing */
        writer->packet_size_ = 0;
        writer->wants_names_ = true;
    }
    if ((writer->max_frames > 0 && writer->frames >= writer->max_frames) ||
        (writer->max_bytes > 0 && writer->bytes >= writer->max_bytes && writer->frames > 0)) {
        writer->begins_ = true;
    }
    if (writer->begins_ || writer->wants_names_) {
        fault = puffin_snapshot(profiler);
    }
    if (fault == PUFFIN_OK) {
        fault = puffin_new_frame(profiler, frame);
    }
    if (fault != PUFFIN_OK || !frame->is_some) {
        return fault;
    }
    writer->wants_names_ = true; /* unless all of the packet is copied */
    fault = puffin_frame_begin(profiler, &size);
    if (fault == PUFFIN_OK && size == 0) {
        errno = EINVAL;
        return puffin_writer_refused_(writer, writer->path_);
    }
    if (fault == PUFFIN_OK && size > writer->room_) {
        void *packet = realloc(writer->packet_, size);
        if (!packet) {
            return PUFFIN_MEMORY;
        }
        writer->packet_ = PUFFIN_CAST_(uint8_t *, packet);
        writer->room_ = size;
    }
    if (fault == PUFFIN_OK) {
        fault = puffin_frame_next(profiler, writer->packet_, writer->room_, &writer->packet_size_);
    }
    writer->wants_names_ = fault != PUFFIN_OK;
    return fault;
}

/* Replaces a file by one of these bytes. */
PUFFIN_INLINE_ uint32_t puffin_writer_save_(const char *path, const uint8_t *bytes, uint64_t size) {
    PuffinWriter writer;
    memset(&writer, 0, sizeof writer);
    writer.path = path;
    if (!puffin_writer_named_(&writer)) {
        return PUFFIN_MEMORY;
    }
    uint32_t fault = puffin_writer_place_(&writer, bytes, size);
    if (fault == PUFFIN_OK) {
        fault = puffin_writer_end_file_(&writer);
    }
    free(writer.path_);
    errno = fault == PUFFIN_NOT_WRITTEN ? writer.error : errno;
    return fault;
}

/* Makes a new frame, and writes it. */
PUFFIN_RESULT_ PUFFIN_INLINE_ uint32_t puffin_writer_frame(PuffinWriter *writer, PuffinProfiler *profiler, PuffinFrame *frame) {
    const uint32_t fault = puffin_writer_take(writer, profiler, frame);
    return fault != PUFFIN_OK ? fault : puffin_writer_write(writer);
}

#ifdef __cplusplus
}
#endif
#endif
