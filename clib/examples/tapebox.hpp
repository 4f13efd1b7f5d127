// A tape, a subscriber and a table of the C library as C++17 objects: an example to copy. An object frees what it holds at its end; it moves, and is
// not copied. Texts and bytes are views, of which nothing is kept. A refused call throws `refused`, with TAPEBOX_BUSY if another thread's call uses the object.
#ifndef TAPEBOX_HPP
#define TAPEBOX_HPP

#include "../tapebox.h"

#include <cstdint>
#include <optional>
#include <stdexcept>
#include <string>
#include <string_view>
#include <utility>

namespace tapebox {

// A refusal: its number, and as its text number and name, as "35 Stale".
struct refused : std::runtime_error {
    explicit refused(uint32_t code, const std::string &why = "")
        : std::runtime_error(std::to_string(code) + ' ' + tapebox_refusal_name(code) + (why.empty() ? "" : ": " + why)), code(code) {}
    uint32_t code;
};

inline void check(uint32_t code) {
    if (code) throw refused(code);
}

inline const uint8_t *bytes_of(std::string_view text) { return reinterpret_cast<const uint8_t *>(text.data()); }

// A handle of the library.
class handle {
public:
    handle() = default;
    handle(handle &&other) noexcept : raw(std::exchange(other.raw, tapebox_handle{})) {}
    handle &operator=(handle &&other) noexcept {
        std::swap(raw, other.raw);
        return *this;
    }
    ~handle() { tapebox_free(&raw); }

protected:
    tapebox_handle raw = TAPEBOX_HANDLE;
};

// What a tape and a subscriber share: both hold a tape that is read in the same way.
class readable : public handle {
public:
    uint32_t size() const {
        uint32_t count = tapebox_count(&raw);
        if (count == TAPEBOX_NO_COUNT) throw refused(TAPEBOX_BUSY);
        return count;
    }

    // The consolidated figures of a symbol, or a participant's own.
    tapebox_figures summary(std::string_view symbol, std::optional<char> who = std::nullopt) const {
        tapebox_figures row;
        check(who ? tapebox_summary_of(&raw, bytes_of(symbol), symbol.size(), static_cast<uint8_t>(*who), &row)
                  : tapebox_summary(&raw, bytes_of(symbol), symbol.size(), &row));
        return row;
    }

    // The entry of a tape number, from 1.
    tapebox_entry_row entry(uint32_t number) const {
        tapebox_entry_row row;
        check(tapebox_entry(&raw, number, &row));
        return row;
    }
};

// A tape for at most `limit` entries. Names have single spaces between them ("AB CD", "N Q").
class tape : public readable {
public:
    tape(std::string_view symbols, std::string_view participants, uint32_t matrix = 1, uint32_t limit = 1048576) {
        check(tapebox_open(&raw, bytes_of(symbols), symbols.size(), bytes_of(participants), participants.size(), matrix, limit));
    }

    // Admits the message that all the bytes are, and returns its tape number and the figures that its entry carries.
    tapebox_answer admit(std::string_view message) {
        tapebox_answer answer;
        check(tapebox_admit(&raw, bytes_of(message), message.size(), &answer));
        return answer;
    }

    void close() { check(tapebox_close(&raw)); }

    // The bytes of a packet of the entries from a number on.
    std::string packet(uint64_t session, uint32_t from, uint32_t to = UINT32_MAX, uint32_t version = 2) const {
        tapebox_packet row;
        check(tapebox_cut(&raw, version, session, from, to, &row));
        return {reinterpret_cast<const char *>(row.bytes), row.len};
    }
};

// A receiver of a session, with a tape of its own. Line 0 is A, 1 is B, 2 the retransmission.
class subscriber : public readable {
public:
    subscriber(std::string_view symbols, std::string_view participants, uint64_t session, uint32_t matrix = 1, uint32_t limit = 1048576) {
        check(tapebox_subscribe(&raw, bytes_of(symbols), symbols.size(), bytes_of(participants), participants.size(), matrix, limit, session));
    }

    tapebox_taken deliver(uint32_t line, std::string_view packet) {
        tapebox_taken row;
        check(tapebox_deliver(&raw, line, bytes_of(packet), packet.size(), &row));
        return row;
    }

    // Replays what is ready, and returns how many entries that were.
    uint32_t drain() {
        uint32_t drained = 0;
        check(tapebox_drain(&raw, &drained));
        return drained;
    }

    // The bytes of a request for what is missing, if anything is.
    std::optional<std::string> missing() const {
        tapebox_request row;
        check(tapebox_missing(&raw, &row));
        return row.count ? std::optional<std::string>({reinterpret_cast<const char *>(row.bytes), sizeof row.bytes}) : std::nullopt;
    }

    tapebox_news news() const {
        tapebox_news row;
        check(tapebox_news_of(&raw, &row));
        return row;
    }
};

// A table that was read, of which texts are made. `refused` says what is wrong with one that is not read.
class table : public handle {
public:
    explicit table(std::string_view text) { check_words(tapebox_read_table(&raw, bytes_of(text), text.size())); }
    std::string report(uint32_t matrix = 1) { return made(tapebox_report(&raw, matrix)); }
    std::string tape(uint32_t matrix = 1) { return made(tapebox_tape(&raw, matrix)); }
    std::string explain(uint32_t matrix = 1) { return made(tapebox_explain(&raw, matrix)); }

private:
    std::string words() const {
        size_t length = tapebox_text_length(&raw);
        if (length == TAPEBOX_NO_LENGTH) throw refused(TAPEBOX_BUSY);
        std::string text(length, '\0');
        if (tapebox_text_copy(&raw, 0, reinterpret_cast<uint8_t *>(text.data()), length) != length) throw refused(TAPEBOX_BUSY);
        return text;
    }
    void check_words(uint32_t code) const {
        if (code) throw refused(code, code == TAPEBOX_BAD_TABLE ? words() : "");
    }
    std::string made(uint32_t code) const {
        check_words(code);
        return words();
    }
};

} // namespace tapebox

#endif
