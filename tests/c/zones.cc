/* Zones on many threads, in two sessions of one program, with zones of a C file; the folder for files is the first argument. */
#include "puffin.hpp"
#include <algorithm>
#include <atomic>
#include <cstdio>
#include <cstdlib>
#include <stdexcept>
#include <thread>
#include <vector>

extern "C" int zones_of_c(int number);

static void is(const char *what, std::uint64_t got, std::uint64_t wanted) {
    if (got != wanted) {
        std::fprintf(stderr, "%s: %llu in place of %llu\n", what, static_cast<unsigned long long>(got),
                     static_cast<unsigned long long>(wanted));
        std::exit(1);
    }
}
#define CALL(call) is(#call, call, PUFFIN_OK)

static std::string folder;
static std::vector<std::uint8_t> file;

/* The next frame's number of scopes. */
static std::uint64_t scopes_of_frame(puffin::Session &session) {
    PuffinFrame frame;
    CALL(session.frame(frame));
    return frame.is_some ? frame.scopes : 0;
}

static void read_file(const std::string &path) {
    std::FILE *opened = std::fopen(path.c_str(), "rb");
    file.assign(1 << 20, 0);
    file.resize(opened ? std::fread(file.data(), 1, file.size(), opened) : 0);
    if (opened) {
        std::fclose(opened);
    }
}
static std::size_t count_of(const std::string &text) {
    std::size_t number = 0;
    for (auto at = file.begin(); (at = std::search(at, file.end(), text.begin(), text.end())) != file.end(); ++at) {
        number++;
    }
    return number;
}
static std::string names_of_threads() {
    PuffinFileThread threads[64];
    std::uint8_t names[1024];
    PuffinFileThreadList list = {threads, 64, names, sizeof names, 0, 0};
    std::vector<std::string> all;
    CALL(puffin_file_threads(file.data(), file.size(), &list));
    for (std::uint64_t i = 0; i < list.num_rows; i++) {
        all.push_back(std::string(names + threads[i].name_at, names + threads[i].name_at + threads[i].name_size));
    }
    std::sort(all.begin(), all.end());
    std::string told;
    for (const auto &name : all) {
        told += name + " ";
    }
    return told;
}

static void part(int number) {
    PUFFIN_ZONE_TEXT("part of the work", std::to_string(number));
}
static void work(int rounds) {
    for (int round = 0; round < rounds; round++) {
        PUFFIN_FUNCTION();
        part(round);
        part(round);
    }
}

/* Ends a zone when its thread ends. */
struct AtTheEnd {
    bool is_used = false;
    ~AtTheEnd() {
        PUFFIN_ZONE("at the thread's end");
        is_used = false;
    }
};
static thread_local AtTheEnd at_the_end;

static void threads(puffin::Session &session) {
    std::vector<std::thread> all;
    for (int number = 0; number < 4; number++) {
        all.emplace_back([number] {
            PUFFIN_THREAD("worker " + std::to_string(number));
            at_the_end.is_used = true;
            work(50);
        });
    }
    work(50);
    for (auto &it : all) {
        it.join();
    }
    is("zones of five threads", scopes_of_frame(session), 5 * 50 * 3 + 4);
    CALL(session.save(folder + "/zones.puffin"));
    read_file(folder + "/zones.puffin");
    is("the threads' names", names_of_threads() == "main worker 0 worker 1 worker 2 worker 3 ", true);
    /* each place is registered once, whichever threads come first */
    is("a place", count_of("part of the work"), 1);
    is("a place", count_of("at the thread's end"), 1);
    is("a function", count_of("workn"), 0);
    std::uint64_t frames, offset, read;
    CALL(puffin_check_file(file.data(), file.size(), &frames, &offset, &read));
}

/* A place for each number, which four threads reach at once. */
template <int number> static void place(std::atomic<int> &arrived) {
    for (arrived++; arrived < 4 * (number + 1);) {
        std::this_thread::yield();
    }
    PUFFIN_ZONE("shared place");
}
template <int number> struct Places {
    static void reach(std::atomic<int> &arrived) {
        Places<number - 1>::reach(arrived);
        place<number - 1>(arrived);
    }
};
template <> struct Places<0> {
    static void reach(std::atomic<int> &) {}
};

static void shared_places(puffin::Session &session) {
    std::atomic<int> arrived(0);
    std::vector<std::thread> all;
    for (int number = 0; number < 4; number++) {
        all.emplace_back([&arrived] { Places<20>::reach(arrived); });
    }
    for (auto &it : all) {
        it.join();
    }
    is("zones of shared places", scopes_of_frame(session), 80);
    CALL(session.save(folder + "/zones.puffin"));
    read_file(folder + "/zones.puffin");
    /* in their own frame, and in the file's first, which lists all */
    is("shared places", count_of("shared place"), 2 * 20);
}

static int evaluated;
static const char *text() {
    evaluated++;
    return "a text";
}

static void switched(puffin::Session &session) {
    {
        PUFFIN_ZONE("outer");
        puffin_zones_set_on(false);
        is("zones are off", puffin_zones_on(), false);
        PUFFIN_ZONE_TEXT("off", text());
        puffin_zones_set_on(true);
    }
    is("a zone that was open is ended", scopes_of_frame(session), 1);
    is("the text of a zone that is off", static_cast<std::uint64_t>(evaluated), 0);
    {
        PUFFIN_ZONE_TEXT("on", text());
    }
    is("a zone that is on", scopes_of_frame(session), 1);
    is("its text", static_cast<std::uint64_t>(evaluated), 1);
}

static void thrown(puffin::Session &session) {
    try {
        PUFFIN_ZONE("throws");
        throw std::runtime_error("thrown");
    } catch (const std::runtime_error &) {
    }
    is("a zone that an exception ends", scopes_of_frame(session), 1);
}

/* A long name is cut before the letter that doesn't fit, and a thread may be named anew, also while it is in a zone. */
static void named(puffin::Session &session) {
    std::thread([] {
        std::string name(62, 'x');
        PUFFIN_THREAD(name + "\xC3\xA4");
        {
            PUFFIN_ZONE("before");
            PUFFIN_THREAD("anew");
        }
        PUFFIN_ZONE("after");
    }).join();
    is("zones of a thread with two names", scopes_of_frame(session), 2);
    CALL(session.save(folder + "/zones.puffin"));
    read_file(folder + "/zones.puffin");
    is("the first name", count_of(std::string(62, 'x') + "\xC3"), 0);
    is("the first name, cut", count_of(std::string(62, 'x')), 1);
    is("the second name", count_of("anew"), 1);
}

static void many_threads(puffin::Session &session) {
    for (int number = 0; number < 200; number++) {
        std::thread([] { PUFFIN_ZONE("of a short thread"); }).join();
    }
    is("zones of many threads", scopes_of_frame(session), 200);
}

/* What waits for a frame may be limited; what is refused is counted, and waits. */
static void limited(puffin::Session &session) {
    const std::uint64_t refused = puffin_zones_refused();
    auto limit = [&session](std::uint64_t bytes) {
        CALL(session.with_profiler([bytes](PuffinProfiler *profiler) { return puffin_set_max_pending(profiler, bytes); }));
    };
    limit(0);
    for (int zone = 0; zone < 2; zone++) {
        PUFFIN_ZONE("refused");
    }
    /* the first is taken, since nothing waits */
    is("a refused report", puffin_zones_refused() - refused, 1);
    is("zones of a refused report", scopes_of_frame(session), 1);
    limit(1000000);
    {
        PUFFIN_ZONE("refused");
    }
    is("zones that waited", scopes_of_frame(session), 2);
}

/* Each frame is written as it comes. */
static void recorded(puffin::Session &session) {
    const std::string path = folder + "/recorded.puffin";
    std::uint64_t frames, offset, read;
    CALL(session.record(path));
    is("a second writer", session.record(path), PUFFIN_IS_OPEN);
    for (int turn = 0; turn < 3; turn++) {
        work(1);
        is("zones of a turn", scopes_of_frame(session), 3);
        read_file(path);
        CALL(puffin_check_file(file.data(), file.size(), &frames, &offset, &read));
        is("frames that are written", frames, static_cast<std::uint64_t>(turn) + 1);
        is("their names", count_of("part of the work"), 1);
    }
}

static void first_session() {
    puffin::Session session, second;
    CALL(session.open_fault());
    is("a second session", second.open_fault(), PUFFIN_IS_OPEN);
    threads(session);
    shared_places(session);
    switched(session);
    thrown(session);
    named(session);
    many_threads(session);
    limited(session);
    zones_of_c(3);
    is("zones of C", scopes_of_frame(session), 5);
    is("a folder in place of the file", session.save(folder), PUFFIN_NOT_WRITTEN);
    is("why", static_cast<std::uint64_t>(errno), EISDIR);
    recorded(session);
}

/* A zone that is open when its session is closed is given up; the next session has the places anew, on each thread. */
static void sessions() {
    std::thread other([] {
        PUFFIN_THREAD("other");
        {
            puffin::Session session;
            PUFFIN_ZONE("open at the end");
            puffin_session_close();
        }
        const std::uint64_t refused = puffin_zones_refused();
        puffin::Session session;
        CALL(session.open_fault());
        {
            PUFFIN_ZONE("of the second session");
            puffin_session_close();
            CALL(puffin_session_open());
            PUFFIN_ZONE("within a zone of another session");
        }
        is("a zone that can't begin", puffin_zones_refused() - refused, 1);
        is("zones of another session", scopes_of_frame(session), 0);
        work(2);
        std::thread(work, 1).join();
        is("zones of the next session", scopes_of_frame(session), 9);
        CALL(session.save(folder + "/zones.puffin"));
        read_file(folder + "/zones.puffin");
        is("a name", count_of("part of the work"), 1);
        is("a name of the earlier session", count_of("open at the end"), 0);
    });
    other.join();
}

int main(int argc, char **argv) {
    folder = argc > 1 ? argv[1] : ".";
    work(1); /* no session is open */
    is("refused without a session", puffin_zones_refused(), 0);
    is("a frame of no session", puffin_session_frame(nullptr), PUFFIN_NOT_OPEN);
    is("a file of no session", puffin_session_save("nowhere"), PUFFIN_NOT_OPEN);
    first_session();
    const std::uint64_t refused = puffin_zones_refused();
    sessions();
    is("refused", puffin_zones_refused() - refused, 1);
    std::puts("zones");
    return 0;
}
