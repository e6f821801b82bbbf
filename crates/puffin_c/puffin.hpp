/* Zones, handles, scopes and names for C++11 over puffin.h, puffin_writer.h and puffin_zones.h. Header only; nothing here throws,
 * apart from what std::string throws for want of memory. A whole program:
 *
 *     #include "puffin.hpp"
 *     static void update() {
 *         PUFFIN_FUNCTION();
 *     }
 *     int main() {
 *         puffin::Session session;
 *         for (int turn = 0; turn < 100; turn++) {
 *             update();
 *             session.frame();
 *         }
 *         return session.save("game.puffin") != PUFFIN_OK;
 *     }
 *
 * Each call returns 0, or the number of a fault, like those of puffin.h. A handle closes itself. It can be moved, and not copied. */
#ifndef PUFFIN_HPP
#define PUFFIN_HPP
#define PUFFIN_ZONE_BEGIN_ ::puffin::begin_zone_
#define PUFFIN_ZONES_THREAD_ ::puffin::name_thread
#include "puffin_zones.h"
#include <cstddef>
#include <cstdint>
#include <string>
#if __cplusplus >= 201703L
#include <string_view>
#endif

namespace puffin {

/* The time in nanoseconds by the system's monotonic clock. */
inline std::int64_t now_ns() noexcept {
    return puffin_now_ns();
}

/* A text that stays elsewhere: a literal, a std::string, a std::string_view, or bytes of this size, which may have zeros in it. */
class Text {
  public:
    Text() noexcept : Text("", 0) {}
    Text(const char *text) noexcept : given(puffin_text(text)) {}
    Text(const std::string &text) noexcept : Text(text.data(), text.size()) {}
#if __cplusplus >= 201703L
    Text(std::string_view text) noexcept : Text(text.data(), text.size()) {}
#endif
    Text(const char *text, std::size_t length) noexcept : given(puffin_text_of(text, length)) {}
    const char *data() const noexcept { return static_cast<const char *>(static_cast<const void *>(given.bytes)); }
    const std::uint8_t *bytes() const noexcept { return given.bytes; }
    std::size_t size() const noexcept { return given.size; }
    operator PuffinText() const noexcept { return given; }

  private:
    PuffinText given;
};

/* The name that puffin.h gives to the number of a fault, or no text if there is none. */
inline std::string fault_name(std::uint32_t fault) {
    char name[PUFFIN_FAULT_NAME_ROOM];
    return std::string(name, puffin_fault_name(fault, name, sizeof name));
}

/* A handle that closes itself. */
template <class Raw, std::uint32_t (*close)(Raw *)> class Handle {
  public:
    Handle() noexcept : raw() {}
    Handle(Handle &&from) noexcept : raw(from.raw) { from.raw = Raw(); }
    Handle &operator=(Handle &&from) noexcept {
        if (this != &from) {
            close(&raw);
            raw = from.raw;
            from.raw = Raw();
        }
        return *this;
    }
    ~Handle() { close(&raw); }
    Raw *get() noexcept { return &raw; }

  protected:
    Raw raw;
};

/* A set of ids, which threads and profilers share. */
class Ids : public Handle<PuffinIds, puffin_ids_close> {
  public:
    PUFFIN_RESULT_ std::uint32_t open() noexcept { return puffin_ids_open(&raw); }
};

/* Records the scopes of one thread. */
class Thread : public Handle<PuffinThread, puffin_thread_close> {
  public:
    PUFFIN_RESULT_ std::uint32_t open(Ids &ids, Text name, bool long_texts = false) noexcept {
        return puffin_thread_open(&raw, ids.get(), name.bytes(), name.size(), long_texts);
    }
    std::uint32_t begin(std::int64_t time_ns, std::uint32_t id, Text text, std::uint64_t &scope) noexcept {
        return puffin_begin(&raw, time_ns, id, text.bytes(), text.size(), &scope);
    }
    std::uint32_t end(std::int64_t time_ns, std::uint64_t scope) noexcept { return puffin_end(&raw, time_ns, scope); }
    /* While scopes are off, none begins, and a Scope reads no clock. */
    std::uint32_t set_scopes_on(bool is_on) noexcept { return puffin_set_scopes_on(&raw, is_on); }
    bool are_scopes_on() const noexcept { return puffin_scopes_on(&raw); }
    std::uint32_t set_max_bytes(std::uint64_t bytes) noexcept { return puffin_set_max_bytes(&raw, bytes); }
    /* Gives up the waiting scopes, and counts them. */
    std::uint32_t discard(std::uint64_t &scopes) noexcept { return puffin_thread_discard(&raw, &scopes); }
};

/* A scope that lasts as long as this object, by now_ns. A scope that is off or whose beginning is refused isn't ended. */
class Scope {
  public:
    Scope(Thread &recorder, std::uint32_t id, Text text = {}) noexcept
        : thread(recorder), fault(thread.begin(thread.are_scopes_on() ? now_ns() : 0, id, text, place)) {}
    Scope(const Scope &) = delete;
    Scope &operator=(const Scope &) = delete;
    ~Scope() {
        if (place != PUFFIN_NO_SCOPE) {
            thread.end(now_ns(), place);
        }
    }
    /* The fault of the beginning, or 0. */
    std::uint32_t begin_fault() const noexcept { return fault; }

  private:
    Thread &thread;
    std::uint64_t place = PUFFIN_NO_SCOPE;
    std::uint32_t fault;
};

/* Collects what threads report into frames, and keeps a view of them. */
class Profiler : public Handle<PuffinProfiler, puffin_profiler_close> {
  public:
    PUFFIN_RESULT_ std::uint32_t open(Ids &ids) noexcept { return puffin_profiler_open(&raw, ids.get()); }
    PUFFIN_RESULT_ std::uint32_t register_function(Text function, Text file, std::uint32_t line, std::uint32_t &id) noexcept {
        return register_scope(Text(), function, file, line, id);
    }
    PUFFIN_RESULT_ std::uint32_t register_scope(Text name, Text function, Text file, std::uint32_t line,
                                                std::uint32_t &id) noexcept {
        const PuffinPlace place = {name, function, file, line};
        return puffin_register(&raw, &place, &id);
    }
    std::uint32_t set_limits(std::size_t recent, std::size_t slow) noexcept { return puffin_set_limits(&raw, recent, slow); }
    std::uint32_t set_max_pending(std::uint64_t bytes) noexcept { return puffin_set_max_pending(&raw, bytes); }
    std::uint32_t report(Thread &thread) noexcept { return puffin_report(thread.get(), &raw); }
    PUFFIN_RESULT_ std::uint32_t new_frame(PuffinFrame &frame) noexcept { return puffin_new_frame(&raw, &frame); }
    std::uint32_t snapshot() noexcept { return puffin_snapshot(&raw); }
    std::uint32_t clear_view() noexcept { return puffin_view_clear(&raw); }
    /* Hands the view's file to write, piece by piece: write(const std::uint8_t *, std::size_t). */
    template <class Write> PUFFIN_RESULT_ std::uint32_t file(Write write) {
        return pieces(puffin_file_begin, puffin_file_next, write);
    }
    /* Hands the packet of the newest frame to write. A file consists of PUFFIN_FILE_START and of packets. */
    template <class Write> PUFFIN_RESULT_ std::uint32_t packet(Write write) {
        return pieces(puffin_frame_begin, puffin_frame_next, write);
    }

  private:
    template <class Begin, class Next, class Write> std::uint32_t pieces(Begin begin, Next next, Write write) {
        std::uint8_t piece[4096];
        std::uint64_t size = 0;
        std::uint32_t fault = begin(&raw, &size);
        while (fault == PUFFIN_OK && (fault = next(&raw, piece, sizeof piece, &size)) == PUFFIN_OK && size > 0) {
            write(static_cast<const std::uint8_t *>(piece), static_cast<std::size_t>(size));
        }
        return fault;
    }
};

#ifndef PUFFIN_OFF
inline std::uint64_t begin_zone_(PuffinZonePlace_ *place, const char *function, Text text) noexcept {
    return puffin_zone_begin_(place, function, text);
}
#endif
/* Names this thread: PUFFIN_THREAD. */
inline void name_thread(Text name) noexcept {
#ifdef PUFFIN_OFF
    (void)name;
#else
    puffin_zones_name_(name.data(), name.size());
#endif
}

/* The session of the zones, from here until this is destroyed. */
class Session {
  public:
    Session() noexcept : opened(puffin_session_open()) {}
    Session(const Session &) = delete;
    Session &operator=(const Session &) = delete;
    ~Session() {
        if (opened == PUFFIN_OK) {
            puffin_session_close();
        }
    }
    /* The fault of opening it, or 0: PUFFIN_IS_OPEN while another Session is there. */
    std::uint32_t open_fault() const noexcept { return opened; }
    /* Makes a frame of the zones that have been reported. */
    std::uint32_t frame() noexcept { return puffin_session_frame(nullptr); }
    std::uint32_t frame(PuffinFrame &made) noexcept { return puffin_session_frame(&made); }
    /* Writes the file of the frames that are kept. */
    PUFFIN_RESULT_ std::uint32_t save(const std::string &path) noexcept { return puffin_session_save(path.c_str()); }
    /* Has each frame written as it is made, by a writer with these settings, or with a path and no limits. */
    PUFFIN_RESULT_ std::uint32_t record(const PuffinWriter &settings) noexcept { return puffin_session_record(&settings); }
    PUFFIN_RESULT_ std::uint32_t record(const std::string &path) noexcept {
        PuffinWriter settings = PuffinWriter();
        settings.path = path.c_str();
        return record(settings);
    }
    /* The session's writer, which tells which file failed. */
    const PuffinWriter *writer() const noexcept { return puffin_session_writer(); }
    /* Calls call(PuffinProfiler *) under the session's lock, for the calls of puffin.h. Returns what it returns, or PUFFIN_NOT_OPEN. */
    template <class Call> std::uint32_t with_profiler(Call call) {
        PuffinProfiler *profiler = puffin_session_lock();
        std::uint32_t fault = PUFFIN_NOT_OPEN;
        if (profiler != nullptr) {
            fault = call(profiler);
        }
        puffin_session_unlock();
        return fault;
    }

  private:
    std::uint32_t opened;
};

} // namespace puffin

#define PUFFIN_JOIN_(one, other) one##other
#define PUFFIN_NAME_(line) PUFFIN_JOIN_(puffin_scope_, line)
/* A scope from here to the end of the block. */
#define PUFFIN_SCOPE(thread, id, text) ::puffin::Scope PUFFIN_NAME_(__LINE__)((thread), (id), (text))

#endif
