/* mvs.hpp: mvs.h for C++17. A Session frees itself, can be moved and not copied, and keeps the rules of mvs.h for pointers, sizes and
 * lengths. One call at a time uses a session. Nothing throws, except std::bad_alloc where memory is exhausted. */
#ifndef MVS_HPP
#define MVS_HPP

#include "mvs.h"

#include <algorithm>
#include <array>
#include <cstddef>
#include <cstdint>
#include <new>
#include <optional>
#include <string>
#include <string_view>
#include <utility>
#include <vector>

namespace mvs {

/* The reply to a statement or a request: the status of the call, and the event if it is one that has an event. */
struct Reply {
    mvs_status status;
    mvs_event event;

    /* Whether the call was served, and the event has this kind. */
    bool is(mvs_event_kind kind) const { return status == MVS_STATUS_OK && event.kind == kind; }
};

/* Makes a request of a task, with all other fields 0. */
inline mvs_ask ask(mvs_ask_kind kind, std::string_view task, std::string_view name = {}) {
    mvs_ask made{};
    made.size = sizeof made;
    made.kind = kind;
    mvs_name(made.task, std::string(task).c_str());
    if (!name.empty()) mvs_name(made.name, std::string(name).c_str());
    return made;
}

/* Returns a name of eight bytes without its padding. */
inline std::string name_of(const uint8_t (&field)[8]) {
    std::string name(reinterpret_cast<const char *>(field), 8);
    name.erase(name.find_last_not_of(' ') + 1);
    return name;
}

/* Returns the statement of a request that was served, as mvs_statement does; nothing if there is none. */
inline std::string statement(const mvs_ask &ask, const mvs_event &event) {
    std::string out(240, '\0');
    size_t wanted = 0;
    uint32_t status = mvs_statement(&ask, &event, out.data(), out.size(), &wanted);
    out.resize(status == MVS_STATUS_OK ? wanted : 0);
    return out;
}

class Session {
public:
    /* The place is one of mvs_place, with MVS_NO_BYTES or without. */
    explicit Session(uint32_t place = MVS_PLACE_LOW) {
        if (mvs_new(&held, place) != MVS_STATUS_OK) throw std::bad_alloc();
    }

    Session(Session &&other) noexcept : held(std::exchange(other.held, mvs_session MVS_SESSION_INIT)) {}

    Session &operator=(Session &&other) noexcept {
        std::swap(held, other.held);
        return *this;
    }

    Session(const Session &) = delete;
    Session &operator=(const Session &) = delete;

    ~Session() { mvs_free(&held); }

    /* Returns a copy, which continues as this session would: mvs_clone. */
    Session clone() {
        mvs_session copy = MVS_SESSION_INIT;
        if (mvs_clone(&held, &copy) == MVS_STATUS_NO_MEMORY) throw std::bad_alloc();
        return Session(copy);
    }

    /* Executes a statement. One with a fault changes nothing: mvs_try. */
    Reply line(std::string_view text) {
        return reply([&](mvs_event *event) { return mvs_try(&held, text.empty() ? "" : text.data(), text.size(), event); });
    }

    /* Begins a step with these numbers of pages: mvs_begin. */
    Reply begin(std::string_view task, uint32_t below, uint32_t above = 0, uint8_t fill = 0, bool resides_above = false) {
        mvs_region region{};
        region.size = sizeof region;
        region.below = below, region.above = above, region.fill = fill, region.resides_above = resides_above;
        mvs_name(region.task, std::string(task).c_str());
        return reply([&](mvs_event *event) { return mvs_begin(&held, &region, event); });
    }

    Reply request(const mvs_ask &ask) {
        return reply([&](mvs_event *event) { return mvs_request(&held, &ask, event); });
    }

    /* Makes a request for a list of areas: mvs_list. */
    Reply list(const mvs_ask &ask, std::vector<mvs_area> &areas) {
        mvs_area none{};
        return reply([&](mvs_event *event) { return mvs_list(&held, &ask, areas.empty() ? &none : areas.data(), areas.size(), event); });
    }

    Reply end() {
        return reply([&](mvs_event *event) { return mvs_end(&held, event); });
    }

    /* Returns the reply to the last line as mvsjob prints it; nothing if there is no session. */
    std::string text() {
        std::string out(256, '\0');
        size_t wanted = 0;
        uint32_t status = mvs_text(&held, out.data(), out.size(), &wanted);
        if (status == MVS_STATUS_TOO_SMALL) {
            out.resize(wanted);
            status = mvs_text(&held, out.data(), out.size(), &wanted);
        }
        if (status == MVS_STATUS_NO_MEMORY) throw std::bad_alloc();
        out.resize(status == MVS_STATUS_OK ? wanted : 0);
        return out;
    }

    /* Returns why the last request was refused, as mvsjob --explain prints it; nothing if it was granted. */
    std::string why() {
        std::string out(240, '\0');
        size_t wanted = 0;
        uint32_t status = mvs_why(&held, out.data(), out.size(), &wanted);
        out.resize(status == MVS_STATUS_OK ? wanted : 0);
        return out;
    }

    /* Returns the same as fields; nothing if it was granted. */
    std::optional<mvs_reason> reason() {
        mvs_reason found = MVS_REASON_INIT;
        if (mvs_why_fields(&held, &found) != MVS_STATUS_OK) return std::nullopt;
        return found;
    }

    /* Records each request from now on, so that effects returns what it changed: mvs_record. */
    void record() {
        if (mvs_record(&held) == MVS_STATUS_NO_MEMORY) throw std::bad_alloc();
    }

    /* Returns what the last request changed, and what the end of its task freed; nothing if the session does not record. */
    std::vector<mvs_effect_line> effects() {
        std::vector<mvs_effect_line> found;
        mvs_effect_line effect = MVS_EFFECT_LINE_INIT;
        while (mvs_effect(&held, found.size(), &effect) == MVS_STATUS_OK) found.push_back(effect);
        return found;
    }

    /* Returns bytes from an address on, or nothing if one of them cannot be accessed. */
    std::optional<std::vector<uint8_t>> read(uint32_t address, size_t length) {
        std::vector<uint8_t> out(length ? length : 1);
        if (mvs_read(&held, address, out.data(), length) != MVS_STATUS_OK) return std::nullopt;
        return out;
    }

    /* Returns where the bytes from an address on are in the memory of the session, and how many can be read from there without a break; a
     * null pointer and 0 if the first one cannot be accessed. They stay there until the next call for this session: mvs_lend. */
    mvs_bytes lend(uint32_t address) {
        mvs_bytes lent{nullptr, 0};
        mvs_lend(&held, address, &lent.bytes, &lent.length);
        return lent;
    }

    /* Writes bytes from an address on; false if one of them cannot be accessed. */
    bool write(uint32_t address, const std::vector<uint8_t> &bytes) {
        uint8_t none = 0;
        return mvs_write(&held, address, bytes.empty() ? &none : bytes.data(), bytes.size()) == MVS_STATUS_OK;
    }

    /* Returns the tasks that ended with the one that abended, if the last request abended. */
    std::vector<std::string> fallen() {
        std::vector<std::string> names;
        uint8_t name[8] = {};
        while (mvs_fallen(&held, names.size(), name) == MVS_STATUS_OK) names.push_back(name_of(name));
        return names;
    }

    /* Returns the subpool numbers of a task; nothing if the task is not active. */
    std::vector<mvs_subpool_line> subpools(std::string_view task) {
        std::vector<mvs_subpool_line> lines;
        mvs_subpool_line line = MVS_SUBPOOL_LINE_INIT;
        uint8_t name[8];
        mvs_name(name, std::string(task).c_str());
        for (unsigned from = 0; from < 256 && mvs_subpool(&held, name, static_cast<uint8_t>(from), &line) == MVS_STATUS_OK; from = line.number + 1)
            lines.push_back(line);
        return lines;
    }

    /* Returns the runs of pages that are assigned alike. */
    std::vector<mvs_map_run> pages() {
        std::vector<mvs_map_run> runs;
        mvs_map_run run = MVS_MAP_RUN_INIT;
        for (uint32_t from = 0; mvs_map(&held, from, &run) == MVS_STATUS_OK; from = run.address + run.length) runs.push_back(run);
        return runs;
    }

    /* Returns the first and the last page that changed since the call before, of a session without bytes; nothing if there are none:
     * mvs_changed_pages. */
    std::optional<mvs_pages> changed_pages() {
        mvs_pages found = MVS_PAGES_INIT;
        if (mvs_changed_pages(&held, &found) != MVS_STATUS_OK) return std::nullopt;
        return found;
    }

    /* Returns the runs of held doublewords. */
    std::vector<mvs_held_run> held_runs() {
        std::vector<mvs_held_run> runs;
        mvs_held_run run = MVS_HELD_RUN_INIT;
        for (uint32_t from = 0; mvs_held(&held, from, &run) == MVS_STATUS_OK; from = run.address + run.length) runs.push_back(run);
        return runs;
    }

    /* Returns the active tasks, in the byte order of their names. */
    std::vector<mvs_task_line> tasks() {
        std::vector<mvs_task_line> lines;
        mvs_task_line line = MVS_TASK_LINE_INIT;
        for (uint8_t after[8] = {}; mvs_next_task(&held, after, &line) == MVS_STATUS_OK; std::copy_n(line.name, 8, after)) lines.push_back(line);
        return lines;
    }

    /* Returns the names of the cell pools, in byte order and padded with blanks. */
    std::vector<std::array<uint8_t, 8>> pools() {
        std::vector<std::array<uint8_t, 8>> names;
        std::array<uint8_t, 8> after{}, name{};
        for (; mvs_next_pool(&held, after.data(), name.data()) == MVS_STATUS_OK; after = name) names.push_back(name);
        return names;
    }

    /* Returns the cell pool of a name; nothing if there is none. */
    std::optional<mvs_pool_line> pool(std::string_view name) {
        mvs_pool_line found = MVS_POOL_LINE_INIT;
        uint8_t field[8];
        mvs_name(field, std::string(name).c_str());
        if (mvs_pool(&held, field, &found) != MVS_STATUS_OK) return std::nullopt;
        return found;
    }

    /* The session for the functions of mvs.h. */
    mvs_session *get() { return &held; }

private:
    explicit Session(mvs_session owned) : held(owned) {}

    template <typename Call> Reply reply(Call call) {
        mvs_event event = MVS_EVENT_INIT;
        auto status = static_cast<mvs_status>(call(&event));
        return {status, event};
    }

    mvs_session held = MVS_SESSION_INIT;
};

} // namespace mvs

#endif
