/* Zones: scopes that last as long as their block, on any thread, without handles. Header only, for GCC and clang; C and C++ files
 * of a program share one session. C++ programs include puffin.hpp, which has puffin::Session.
 *
 *     puffin_session_open()          opens the session: until then, and after puffin_session_close, zones are off
 *     PUFFIN_THREAD("worker");       names this thread
 *     PUFFIN_FUNCTION();             a zone from here to the end of the block, with the function's name
 *     PUFFIN_ZONE("update");         the same with a name of its own, a text that stays, as a literal does
 *     PUFFIN_ZONE_TEXT("load", path) adds a text, which is evaluated only while zones are on
 *     puffin_session_frame(&frame)   makes a frame of what has ended on all threads, once per turn of the program
 *     puffin_session_save(path)      writes the file of the frames that the session keeps
 *
 * A place is registered when it is first reached. A thread's scopes are reported when its outermost zone ends, under a lock in here,
 * and its handle is closed when the thread ends. What fails in a zone is counted: puffin_zones_refused. With PUFFIN_OFF defined,
 * nothing of this is compiled in, and the library isn't needed. */
#ifndef PUFFIN_ZONES_H
#define PUFFIN_ZONES_H
#include "puffin_writer.h"
#include <pthread.h>
#include <sys/prctl.h>
#ifdef __cplusplus
extern "C" {
#endif

#ifdef PUFFIN_OFF
#define PUFFIN_FUNCTION() PUFFIN_NO_ZONE_()
#define PUFFIN_ZONE(name) PUFFIN_NO_ZONE_()
#define PUFFIN_ZONE_TEXT(name, text) PUFFIN_NO_ZONE_()
#define PUFFIN_THREAD(name) PUFFIN_NO_ZONE_()
#define PUFFIN_NO_ZONE_() ((void)0)
PUFFIN_INLINE_ uint32_t puffin_session_open(void) {
    return PUFFIN_OK;
}
PUFFIN_INLINE_ uint32_t puffin_session_close(void) {
    return PUFFIN_OK;
}
PUFFIN_INLINE_ uint32_t puffin_session_frame(PuffinFrame *frame) {
    if (frame) {
        frame->is_some = false;
    }
    return PUFFIN_OK;
}
PUFFIN_INLINE_ uint32_t puffin_session_save(const char *path) {
    (void)path;
    return PUFFIN_OK;
}
PUFFIN_INLINE_ uint32_t puffin_session_record(const PuffinWriter *settings) {
    (void)settings;
    return PUFFIN_OK;
}
PUFFIN_INLINE_ const PuffinWriter *puffin_session_writer(void) {
    return NULL;
}
PUFFIN_INLINE_ PuffinProfiler *puffin_session_lock(void) {
    return NULL;
}
PUFFIN_INLINE_ void puffin_session_unlock(void) {}
PUFFIN_INLINE_ void puffin_zones_set_on(bool is_on) {
    (void)is_on;
}
PUFFIN_INLINE_ bool puffin_zones_on(void) {
    return false;
}
PUFFIN_INLINE_ uint64_t puffin_zones_refused(void) {
    return 0;
}
#else
#if !defined(__GNUC__)
#error "puffin_zones.h needs GCC or clang; with PUFFIN_OFF defined any compiler takes it"
#elif !defined(CLOCK_MONOTONIC) || defined(PUFFIN_NO_CLOCK)
#error "puffin_zones.h needs a clock: compile for gnu99 or newer, or define _POSIX_C_SOURCE as 200809L, and not PUFFIN_NO_CLOCK"
#endif

/* What all files of a program share. */
#define PUFFIN_SHARED_ __attribute__((weak))

/* Everything but the atomic numbers is used under the lock. */
typedef struct PuffinZones_ {
    PuffinIds ids;
    PuffinProfiler profiler;
    PuffinWriter writer;
    pthread_key_t key;
    bool has_key, is_open;
    uint32_t session;  /* the number of the session that is open, or was */
    uint32_t active;   /* atomic: that number while zones are on, or 0 */
    bool is_off;       /* atomic */
    uint64_t refused;  /* atomic */
} PuffinZones_;
PUFFIN_SHARED_ PuffinZones_ puffin_zones_;
PUFFIN_SHARED_ pthread_mutex_t puffin_zones_lock_ = PTHREAD_MUTEX_INITIALIZER;

/* A thread's own: its handle, the session that it was opened in, and how many zones are open. */
typedef struct PuffinZonesThread_ {
    PuffinThread thread;
    uint32_t session, depth;
    bool is_renamed;
    char name[64];
} PuffinZonesThread_;
PUFFIN_SHARED_ __thread PuffinZonesThread_ puffin_zones_thread_;

/* A place in the code, and its id in a session: id + 2^32 * the session's number. */
typedef struct PuffinZonePlace_ {
    const char *name, *file;
    uint32_t line;
    uint64_t id;
} PuffinZonePlace_;

PUFFIN_INLINE_ bool puffin_zones_fine_(uint32_t fault) {
    if (fault != PUFFIN_OK) {
        __atomic_fetch_add(&puffin_zones_.refused, 1, __ATOMIC_RELAXED);
    }
    return fault == PUFFIN_OK;
}

/* Returns how many beginnings, ends and reports of zones failed. */
PUFFIN_INLINE_ uint64_t puffin_zones_refused(void) {
    return __atomic_load_n(&puffin_zones_.refused, __ATOMIC_RELAXED);
}

/* Returns whether a zone would begin now: a session is open, and zones aren't turned off. */
PUFFIN_INLINE_ bool puffin_zones_on(void) {
    return __atomic_load_n(&puffin_zones_.active, __ATOMIC_RELAXED) != 0;
}

PUFFIN_INLINE_ void puffin_zones_activate_(void) {
    PuffinZones_ *all = &puffin_zones_;
    __atomic_store_n(&all->active, all->is_open && !all->is_off ? all->session : 0, __ATOMIC_RELAXED);
}

/* Turns zones off and on, on all threads. They are on at first. A zone that is open is ended as usual. */
PUFFIN_INLINE_ void puffin_zones_set_on(bool is_on) {
    pthread_mutex_lock(&puffin_zones_lock_);
    puffin_zones_.is_off = !is_on;
    puffin_zones_activate_();
    pthread_mutex_unlock(&puffin_zones_lock_);
}

/* Closes the handle of a thread without open zones: its next zone opens it again. */
PUFFIN_INLINE_ void puffin_zones_leave_(void *own) {
    PuffinZonesThread_ *thread = PUFFIN_CAST_(PuffinZonesThread_ *, own);
    puffin_thread_close(&thread->thread);
    thread->session = 0;
    thread->is_renamed = false;
}

/* Opens the thread's handle in this session, under the lock. */
PUFFIN_INLINE_ uint32_t puffin_zones_enter_(PuffinZonesThread_ *own, uint32_t session) {
    PuffinZones_ *all = &puffin_zones_;
    char name[64] = {0};
    if (own->depth > 0) { /* in a zone of an earlier session */
        return PUFFIN_IS_OPEN;
    }
    puffin_zones_leave_(own);
    memcpy(name, own->name, sizeof name);
    if (!name[0]) {
        prctl(PR_GET_NAME, name);
    }
    uint32_t fault = puffin_thread_open_str(&own->thread, &all->ids, name, false);
    if (fault == PUFFIN_NOT_TEXT) {
        fault = puffin_thread_open_str(&own->thread, &all->ids, "unnamed", false);
    }
    if (fault == PUFFIN_OK) {
        own->session = session;
        pthread_setspecific(all->key, own); /* without memory for this, the handle's memory leaks when the thread ends */
    }
    return fault;
}

/* Opens the thread's handle, and registers the place, where that isn't done. */
PUFFIN_INLINE_ uint32_t puffin_zones_prepare_(PuffinZonesThread_ *own, PuffinZonePlace_ *place, const char *function,
                                              uint32_t session) {
    PuffinZones_ *all = &puffin_zones_;
    uint32_t fault = PUFFIN_OK, id = 0;
    pthread_mutex_lock(&puffin_zones_lock_);
    if (!all->is_open || all->session != session) {
        fault = PUFFIN_NOT_OPEN;
    } else if (own->session != session) {
        fault = puffin_zones_enter_(own, session);
    }
    if (fault == PUFFIN_OK && place->id >> 32 != session) {
        const PuffinPlace here = {puffin_text(place->name), puffin_text(function), puffin_text(place->file), place->line};
        fault = puffin_register(&all->profiler, &here, &id);
        if (fault == PUFFIN_OK) {
            const uint64_t number = session;
            __atomic_store_n(&place->id, number << 32 | id, __ATOMIC_RELAXED);
        }
    }
    pthread_mutex_unlock(&puffin_zones_lock_);
    return fault;
}

/* Begins a zone, and returns its offset, or PUFFIN_NO_SCOPE. */
PUFFIN_INLINE_ uint64_t puffin_zone_begin_(PuffinZonePlace_ *place, const char *function, PuffinText text) {
    PuffinZonesThread_ *own = &puffin_zones_thread_;
    const uint32_t session = __atomic_load_n(&puffin_zones_.active, __ATOMIC_RELAXED);
    uint64_t id = __atomic_load_n(&place->id, __ATOMIC_RELAXED), scope = PUFFIN_NO_SCOPE;
    if (session == 0) {
        return scope;
    }
    if (own->session != session || id >> 32 != session) {
        if (!puffin_zones_fine_(puffin_zones_prepare_(own, place, function, session))) {
            return scope;
        }
        id = __atomic_load_n(&place->id, __ATOMIC_RELAXED);
    }
    if (puffin_zones_fine_(puffin_begin(&own->thread, puffin_now_ns(), PUFFIN_CAST_(uint32_t, id), text.bytes, text.size, &scope))) {
        own->depth++;
    }
    return scope;
}

/* Reports what has ended, or gives it up where its session is closed. */
PUFFIN_INLINE_ void puffin_zones_report_(PuffinZonesThread_ *own) {
    PuffinZones_ *all = &puffin_zones_;
    uint64_t scopes;
    pthread_mutex_lock(&puffin_zones_lock_);
    if (all->is_open && all->session == own->session) {
        puffin_zones_fine_(puffin_report(&own->thread, &all->profiler));
    } else {
        puffin_thread_discard(&own->thread, &scopes);
    }
    pthread_mutex_unlock(&puffin_zones_lock_);
    if (own->is_renamed) {
        puffin_zones_leave_(own);
    }
}

/* Ends the zone that begins at this offset. */
PUFFIN_INLINE_ void puffin_zone_end_(const uint64_t *scope) {
    PuffinZonesThread_ *own = &puffin_zones_thread_;
    if (*scope == PUFFIN_NO_SCOPE) {
        return;
    }
    puffin_zones_fine_(puffin_end(&own->thread, puffin_now_ns(), *scope));
    if (--own->depth == 0) {
        puffin_zones_report_(own);
    }
}

PUFFIN_INLINE_ void puffin_zones_name_(const char *name, size_t size) {
    PuffinZonesThread_ *own = &puffin_zones_thread_;
    if (size > sizeof own->name - 1) {
        for (size = sizeof own->name - 1; size > 0 && (name[size] & 0xC0) == 0x80; size--) {
        }
    }
    memset(own->name, 0, sizeof own->name);
    if (size > 0) {
        memcpy(own->name, name, size);
    }
    own->is_renamed = true;
    if (own->depth == 0) {
        puffin_zones_leave_(own);
    }
}
/* Names this thread, from its next outermost zone on. A name is cut to 63 bytes. A thread without a name has the system's name for
 * it, but that which opens the session is "main". */
PUFFIN_INLINE_ void puffin_zones_thread(const char *name) {
    puffin_zones_name_(name, puffin_text(name).size);
}

/* Opens the session of the program. Fails with PUFFIN_IS_OPEN, or PUFFIN_MEMORY. */
PUFFIN_RESULT_ PUFFIN_INLINE_ uint32_t puffin_session_open(void) {
    PuffinZones_ *all = &puffin_zones_;
    PuffinZonesThread_ *own = &puffin_zones_thread_;
    uint32_t fault = PUFFIN_MEMORY;
    pthread_mutex_lock(&puffin_zones_lock_);
    all->has_key = all->has_key || pthread_key_create(&all->key, puffin_zones_leave_) == 0;
    if (all->has_key && (fault = puffin_ids_open(&all->ids)) == PUFFIN_OK) {
        if ((fault = puffin_profiler_open(&all->profiler, &all->ids)) != PUFFIN_OK) {
            puffin_ids_close(&all->ids);
        }
    }
    if (fault == PUFFIN_OK) {
        all->is_open = true;
        all->session++;
        puffin_zones_activate_();
        if (!own->name[0]) {
            memcpy(own->name, "main", 5);
        }
    }
    pthread_mutex_unlock(&puffin_zones_lock_);
    return fault;
}

/* Closes the session: zones are off then. Those that are open on other threads are given up when they end. Returns the fault of the
 * writer's last frame, if there is one. */
PUFFIN_INLINE_ uint32_t puffin_session_close(void) {
    PuffinZones_ *all = &puffin_zones_;
    PuffinZonesThread_ *own = &puffin_zones_thread_;
    pthread_mutex_lock(&puffin_zones_lock_);
    uint32_t fault = puffin_profiler_close(&all->profiler);
    puffin_ids_close(&all->ids);
    all->is_open = false;
    puffin_zones_activate_();
    pthread_mutex_unlock(&puffin_zones_lock_);
    if (own->depth == 0) {
        puffin_zones_leave_(own);
    }
    return all->writer.is_open_ ? puffin_writer_close(&all->writer) : fault;
}

/* Locks the session, and returns its profiler, for the calls of puffin.h that have no form here, or NULL if none is open. Either
 * way puffin_session_unlock follows, and no zone begins or ends on this thread before it. */
PUFFIN_INLINE_ PuffinProfiler *puffin_session_lock(void) {
    pthread_mutex_lock(&puffin_zones_lock_);
    return puffin_zones_.is_open ? &puffin_zones_.profiler : NULL;
}
PUFFIN_INLINE_ void puffin_session_unlock(void) {
    pthread_mutex_unlock(&puffin_zones_lock_);
}

/* Has each frame from now on written by a writer with these settings: the path and the limits. puffin_session_close closes it. Fails
 * with PUFFIN_IS_OPEN if the session has one. */
PUFFIN_RESULT_ PUFFIN_INLINE_ uint32_t puffin_session_record(const PuffinWriter *settings) {
    PuffinWriter *writer = &puffin_zones_.writer;
    uint32_t fault = PUFFIN_NOT_OPEN;
    if (puffin_session_lock()) {
        if (!writer->is_open_) {
            *writer = *settings;
        }
        fault = puffin_writer_open(writer);
    }
    puffin_session_unlock();
    return fault;
}
/* Returns the session's writer, which tells which file failed, to the thread that makes the frames. */
PUFFIN_INLINE_ const PuffinWriter *puffin_session_writer(void) {
    return &puffin_zones_.writer;
}

/* Makes a frame of the zones that have been reported, and has it written, if a writer is there. Fills in *frame unless it is NULL. One
 * thread makes all frames. */
PUFFIN_INLINE_ uint32_t puffin_session_frame(PuffinFrame *frame) {
    PuffinFrame unread;
    PuffinProfiler *profiler = puffin_session_lock();
    PuffinWriter *writer = &puffin_zones_.writer;
    uint32_t fault = PUFFIN_NOT_OPEN;
    frame = frame ? frame : &unread;
    frame->is_some = false;
    if (profiler) {
        fault = writer->is_open_ ? puffin_writer_take(writer, profiler, frame) : puffin_new_frame(profiler, frame);
    }
    puffin_session_unlock();
    return fault == PUFFIN_OK && writer->is_open_ ? puffin_writer_write(writer) : fault;
}

/* Writes the .puffin file of the frames that the session keeps: the newest 1,000 and the 256 slowest, unless puffin_set_limits says
 * otherwise. The path has the old file or the whole new one. */
PUFFIN_RESULT_ PUFFIN_INLINE_ uint32_t puffin_session_save(const char *path) {
    PuffinProfiler *profiler = puffin_session_lock();
    uint64_t size = 0;
    uint32_t fault = PUFFIN_NOT_OPEN;
    void *room = NULL;
    if (profiler && (fault = puffin_file_begin(profiler, &size)) == PUFFIN_OK) {
        room = malloc(size);
        fault = PUFFIN_MEMORY;
    }
    uint8_t *bytes = PUFFIN_CAST_(uint8_t *, room);
    if (bytes) {
        fault = puffin_file_next(profiler, bytes, size, &size);
    }
    puffin_session_unlock();
    if (fault == PUFFIN_OK) {
        fault = puffin_writer_save_(path, bytes, size);
    }
    free(room);
    return fault;
}

PUFFIN_INLINE_ uint64_t puffin_zone_begin_str_(PuffinZonePlace_ *place, const char *function, const char *text) {
    return puffin_zone_begin_(place, function, puffin_text(text));
}
#ifndef PUFFIN_ZONE_BEGIN_ /* puffin.hpp has one that takes any text */
#define PUFFIN_ZONE_BEGIN_ puffin_zone_begin_str_
#endif
#define PUFFIN_NAMED__(word, line) puffin_##word##_##line
#define PUFFIN_NAMED_(word, line) PUFFIN_NAMED__(word, line)
#define PUFFIN_PLACE_ PUFFIN_NAMED_(place, __LINE__)
/* A zone is a variable with a cleanup, which an exception runs too. */
#define PUFFIN_ZONE_(name, text)                                                                                            \
    static PuffinZonePlace_ PUFFIN_PLACE_ = {name, __FILE__, __LINE__, 0};                                                      \
    __attribute__((cleanup(puffin_zone_end_), unused)) const uint64_t PUFFIN_NAMED_(zone, __LINE__) =                       \
        puffin_zones_on() ? PUFFIN_ZONE_BEGIN_(&PUFFIN_PLACE_, __func__, text) : PUFFIN_CAST_(uint64_t, PUFFIN_NO_SCOPE)
#define PUFFIN_FUNCTION() PUFFIN_ZONE_(NULL, "")
#define PUFFIN_ZONE(name) PUFFIN_ZONE_(name, "")
#define PUFFIN_ZONE_TEXT(name, text) PUFFIN_ZONE_(name, text)
#define PUFFIN_THREAD(name) PUFFIN_ZONES_THREAD_(name)
#ifndef PUFFIN_ZONES_THREAD_
#define PUFFIN_ZONES_THREAD_ puffin_zones_thread
#endif
#endif

#ifdef __cplusplus
}
#endif
#endif
