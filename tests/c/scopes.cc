/* Scopes by puffin.hpp on two threads, each with its own recorder; the file of one frame goes to the first argument. */
#include "puffin.hpp"
#include <algorithm>
#include <cstdio>
#include <cstdlib>
#include <mutex>
#include <thread>
#include <utility>
#include <vector>

static puffin::Ids ids;
static puffin::Profiler profiler;
static std::mutex lock;
/* texts with a zero in them */
static const std::string part_name("part\0of it", 10), step_text("step\0by step", 12);

static void call(const char *what, std::uint32_t fault) {
    if (fault != PUFFIN_OK) {
        std::fprintf(stderr, "%s: %s\n", what, puffin::fault_name(fault).c_str());
        std::exit(1);
    }
}
#define CALL(it) call(#it, it)

static void work(const char *name) {
    puffin::Thread thread;
    std::uint32_t whole, part;
    {
        std::lock_guard<std::mutex> held(lock);
        CALL(thread.open(ids, name));
        CALL(profiler.register_function("work", __FILE__, __LINE__, whole));
        CALL(profiler.register_scope(part_name, "work", __FILE__, __LINE__, part));
    }
    {
        PUFFIN_SCOPE(thread, whole, puffin::Text());
        for (int step = 0; step < 3; step++) {
            PUFFIN_SCOPE(thread, part, puffin::Text(step_text.data(), step_text.size()));
        }
    }
    std::lock_guard<std::mutex> held(lock);
    CALL(profiler.report(thread));
}

/* Scopes that are off begin nothing. */
static bool are_off() {
    puffin::Thread thread;
    std::uint64_t scopes = 7;
    CALL(thread.open(ids, "off"));
    CALL(thread.set_scopes_on(false));
    {
        PUFFIN_SCOPE(thread, 1, "off");
#if __cplusplus >= 201703L
        PUFFIN_SCOPE(thread, 1, std::string_view("off"));
#endif
    }
    CALL(thread.discard(scopes));
    return !thread.are_scopes_on() && scopes == 0;
}

/* A handle that is moved goes on where it was, and what it is moved from is closed. */
static bool is_moved() {
    puffin::Thread thread;
    std::uint64_t place, scopes = 0;
    CALL(thread.open(ids, "moved"));
    CALL(thread.begin(1, 1, "a text", place));
    puffin::Thread other(std::move(thread));
    CALL(other.end(2, place));
    thread = std::move(other);
    CALL(thread.discard(scopes));
    return scopes == 1 && other.discard(scopes) == PUFFIN_NOT_OPEN;
}

/* The packet of the frame behind the letters of a file is a file, which has both threads and whole texts. */
static bool is_seen() {
    const std::string start = PUFFIN_FILE_START;
    std::vector<std::uint8_t> file(start.begin(), start.end());
    auto append = [&file](const std::uint8_t *bytes, std::size_t size) { file.insert(file.end(), bytes, bytes + size); };
    CALL(profiler.packet(append));
    PuffinFileThread threads[3];
    std::uint8_t names[20];
    PuffinFileThreadList list = {threads, 3, names, sizeof names, 0, 0};
    CALL(puffin_file_threads(file.data(), file.size(), &list));
    for (const std::string &text : {part_name, step_text}) {
        if (std::search(file.begin(), file.end(), text.begin(), text.end()) == file.end()) {
            return false;
        }
    }
    return list.num_rows == 2 && list.num_bytes == 10 && threads[0].scopes == 4 && threads[1].scopes == 4;
}

int main(int argc, char **argv) {
    PuffinFrame frame;
    CALL(ids.open());
    CALL(profiler.open(ids));
    std::int64_t before = puffin::now_ns();
    std::thread one(work, "main"), other(work, "worker");
    one.join();
    other.join();
    CALL(profiler.new_frame(frame));
    if (frame.scopes != 8 || frame.start_ns < before || frame.stop_ns > puffin::now_ns()) {
        std::fprintf(stderr, "scopes %llu\n", static_cast<unsigned long long>(frame.scopes));
        return 1;
    }
    {
        puffin::Thread closed;
        puffin::Scope scope(closed, 1);
        if (puffin::fault_name(scope.begin_fault()) != "PUFFIN_NOT_OPEN") {
            return 1;
        }
    }
    std::FILE *file = argc > 1 ? std::fopen(argv[1], "wb") : nullptr;
    if (!file) {
        return 2;
    }
    auto write = [file](const std::uint8_t *bytes, std::size_t size) { std::fwrite(bytes, 1, size, file); };
    CALL(profiler.file(write));
    if (std::fclose(file) || !are_off() || !is_moved() || !is_seen()) {
        return 1;
    }
    return 0;
}
