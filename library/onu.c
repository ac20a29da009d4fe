/*
 * What stands between C and the proved calls of crates/onu: a null pointer is answered here, since in the proved calls no pointer is null.
 * No proof covers this file; tests/library tests each line.
 */
#include "onu.h"

#ifndef ONU_VERSION
#error "ONU_VERSION is the version and what the calls were proved with, as a string"
#endif

#define PUBLIC __attribute__((visibility("default")))

/* The proved calls, crates/onu/src/lib.rt: a slice is a pointer and its length, and an allocator takes no bytes. */
int32_t onu_proved_open(onu *cell);
int32_t onu_proved_close(onu *cell);
int32_t onu_proved_message(onu *cell, const uint8_t *bytes, size_t n, uint8_t *reply);
int32_t onu_proved_forward(onu *cell, uint16_t port, const uint8_t *frame, size_t n, onu_verdict *verdict);
int32_t onu_proved_explain(onu *cell, uint16_t port, const uint8_t *frame, size_t n, uint8_t *room, size_t size, size_t *written);
int32_t onu_proved_replay(const uint8_t *script, size_t n, uint8_t *room, size_t size, size_t *written, uint64_t *line);
int32_t onu_proved_judge(const uint8_t *history, size_t n, uint32_t flags, uint8_t *room, size_t size, size_t *written, uint64_t *line);
int32_t onu_proved_judge_all(const uint8_t *start, size_t start_size, const uint8_t *history, size_t n, uint32_t flags, uint64_t most, uint8_t *room,
                             size_t size, size_t *written, uint64_t *line);
int32_t onu_proved_judge_coverage(const uint8_t *start, size_t start_size, const uint8_t *history, size_t n, uint32_t flags, uint64_t most,
                                  uint16_t least, uint8_t *room, size_t size, size_t *written, uint64_t *line);
int32_t onu_proved_encode(const uint8_t *words, size_t n, uint16_t identifier, uint8_t *room, size_t size, size_t *written);
int32_t onu_proved_decode(const uint8_t *script, size_t n, uint8_t *room, size_t size, size_t *written);
int32_t onu_proved_mib(const uint8_t *trace, size_t n, uint8_t *room, size_t size, size_t *written, uint64_t *line);
int32_t onu_proved_lint(const uint8_t *trace, size_t n, uint8_t *room, size_t size, size_t *written, uint64_t *line);
int32_t onu_proved_rules(const uint8_t *trace, size_t n, uint16_t port, uint8_t *room, size_t size, size_t *written, uint64_t *line);
int32_t onu_proved_cover(const uint8_t *trace, size_t n, uint32_t port, uint16_t least, uint8_t *room, size_t size, size_t *written, uint64_t *line);
int32_t onu_proved_differences(const uint8_t *before, size_t n, uint64_t from, const uint8_t *after, size_t m, uint64_t until, uint32_t port,
                               uint16_t least, uint8_t *room, size_t size, size_t *written, uint64_t *line);
int32_t onu_proved_moments(const uint8_t *trace, size_t n, uint64_t from, uint64_t until, uint32_t port, uint16_t least, uint8_t *room, size_t size,
                           size_t *written, uint64_t *line);
int32_t onu_proved_hitless(const uint8_t *trace, size_t n, uint64_t from, uint64_t until, uint32_t port, uint16_t least, uint8_t *room, size_t size,
                           size_t *written, uint64_t *line);
int32_t onu_proved_expect(const uint8_t *trace, size_t n, const uint8_t *expectations, size_t m, uint64_t from, uint64_t until, uint16_t least,
                          uint8_t *room, size_t size, size_t *written, uint64_t *line);

/* The first address of no bytes, where the caller has none. No byte of it is read or written. */
static uint8_t no_bytes;

/* Whether bytes are missing: there are some, and they have no address. */
static bool is_missing(const uint8_t *bytes, size_t n) {
    return bytes == NULL && n != 0;
}

/* The number of a port, or one that no port has, which stands for each port that is named. */
static uint32_t number_of(const uint16_t *port) {
    return port == NULL ? UINT16_MAX + 1u : *port;
}

PUBLIC int32_t onu_open(onu *cell) {
    return cell == NULL ? ONU_NULL : onu_proved_open(cell);
}

PUBLIC int32_t onu_close(onu *cell) {
    return cell == NULL ? ONU_NULL : onu_proved_close(cell);
}

PUBLIC int32_t onu_message(onu *cell, const uint8_t *bytes, size_t n, uint8_t reply[48]) {
    if (cell == NULL || is_missing(bytes, n) || reply == NULL)
        return ONU_NULL;
    return onu_proved_message(cell, n == 0 ? &no_bytes : bytes, n, reply);
}

PUBLIC int32_t onu_forward(onu *cell, uint16_t port, const uint8_t *frame, size_t n, onu_verdict *verdict) {
    if (cell == NULL || is_missing(frame, n) || verdict == NULL)
        return ONU_NULL;
    return onu_proved_forward(cell, port, n == 0 ? &no_bytes : frame, n, verdict);
}

PUBLIC int32_t onu_explain(onu *cell, uint16_t port, const uint8_t *frame, size_t n, uint8_t *room, size_t size, size_t *written) {
    if (cell == NULL || is_missing(frame, n) || is_missing(room, size) || written == NULL)
        return ONU_NULL;
    return onu_proved_explain(cell, port, n == 0 ? &no_bytes : frame, n, size == 0 ? &no_bytes : room, size, written);
}

PUBLIC int32_t onu_replay(const uint8_t *script, size_t n, uint8_t *room, size_t size, size_t *written, uint64_t *line) {
    if (is_missing(script, n) || is_missing(room, size) || written == NULL || line == NULL)
        return ONU_NULL;
    return onu_proved_replay(n == 0 ? &no_bytes : script, n, size == 0 ? &no_bytes : room, size, written, line);
}

PUBLIC int32_t onu_judge(const uint8_t *history, size_t n, uint32_t flags, uint8_t *room, size_t size, size_t *written, uint64_t *line) {
    if (is_missing(history, n) || is_missing(room, size) || written == NULL || line == NULL)
        return ONU_NULL;
    return onu_proved_judge(n == 0 ? &no_bytes : history, n, flags, size == 0 ? &no_bytes : room, size, written, line);
}

PUBLIC int32_t onu_judge_all(const uint8_t *start, size_t start_size, const uint8_t *history, size_t n, uint32_t flags, uint64_t most, uint8_t *room,
                             size_t size, size_t *written, uint64_t *line) {
    if (is_missing(start, start_size) || is_missing(history, n) || is_missing(room, size) || written == NULL || line == NULL)
        return ONU_NULL;
    return onu_proved_judge_all(start_size == 0 ? &no_bytes : start, start_size, n == 0 ? &no_bytes : history, n, flags, most,
                                size == 0 ? &no_bytes : room, size, written, line);
}

PUBLIC int32_t onu_judge_coverage(const uint8_t *start, size_t start_size, const uint8_t *history, size_t n, uint32_t flags, uint64_t most,
                                  uint16_t least, uint8_t *room, size_t size, size_t *written, uint64_t *line) {
    if (is_missing(start, start_size) || is_missing(history, n) || is_missing(room, size) || written == NULL || line == NULL)
        return ONU_NULL;
    return onu_proved_judge_coverage(start_size == 0 ? &no_bytes : start, start_size, n == 0 ? &no_bytes : history, n, flags, most, least,
                                     size == 0 ? &no_bytes : room, size, written, line);
}

PUBLIC int32_t onu_encode(const uint8_t *words, size_t n, uint16_t identifier, uint8_t *room, size_t size, size_t *written) {
    if (is_missing(words, n) || is_missing(room, size) || written == NULL)
        return ONU_NULL;
    return onu_proved_encode(n == 0 ? &no_bytes : words, n, identifier, size == 0 ? &no_bytes : room, size, written);
}

PUBLIC int32_t onu_decode(const uint8_t *script, size_t n, uint8_t *room, size_t size, size_t *written) {
    if (is_missing(script, n) || is_missing(room, size) || written == NULL)
        return ONU_NULL;
    return onu_proved_decode(n == 0 ? &no_bytes : script, n, size == 0 ? &no_bytes : room, size, written);
}

PUBLIC int32_t onu_mib(const uint8_t *trace, size_t n, uint8_t *room, size_t size, size_t *written, uint64_t *line) {
    if (is_missing(trace, n) || is_missing(room, size) || written == NULL || line == NULL)
        return ONU_NULL;
    return onu_proved_mib(n == 0 ? &no_bytes : trace, n, size == 0 ? &no_bytes : room, size, written, line);
}

PUBLIC int32_t onu_lint(const uint8_t *trace, size_t n, uint8_t *room, size_t size, size_t *written, uint64_t *line) {
    if (is_missing(trace, n) || is_missing(room, size) || written == NULL || line == NULL)
        return ONU_NULL;
    return onu_proved_lint(n == 0 ? &no_bytes : trace, n, size == 0 ? &no_bytes : room, size, written, line);
}

PUBLIC int32_t onu_rules(const uint8_t *trace, size_t n, uint16_t port, uint8_t *room, size_t size, size_t *written, uint64_t *line) {
    if (is_missing(trace, n) || is_missing(room, size) || written == NULL || line == NULL)
        return ONU_NULL;
    return onu_proved_rules(n == 0 ? &no_bytes : trace, n, port, size == 0 ? &no_bytes : room, size, written, line);
}

PUBLIC int32_t onu_cover(const uint8_t *trace, size_t n, const uint16_t *port, uint16_t least, uint8_t *room, size_t size, size_t *written,
                         uint64_t *line) {
    if (is_missing(trace, n) || is_missing(room, size) || written == NULL || line == NULL)
        return ONU_NULL;
    return onu_proved_cover(n == 0 ? &no_bytes : trace, n, number_of(port), least, size == 0 ? &no_bytes : room, size, written, line);
}

PUBLIC int32_t onu_differences(const uint8_t *before, size_t n, uint64_t from, const uint8_t *after, size_t m, uint64_t until, const uint16_t *port,
                               uint16_t least, uint8_t *room, size_t size, size_t *written, uint64_t *line) {
    if (is_missing(before, n) || is_missing(after, m) || is_missing(room, size) || written == NULL || line == NULL)
        return ONU_NULL;
    const uint8_t *trace = n == 0 ? &no_bytes : before;
    uint8_t *first = size == 0 ? &no_bytes : room;
    if (after == NULL)
        return onu_proved_moments(trace, n, from, until, number_of(port), least, first, size, written, line);
    return onu_proved_differences(trace, n, from, after, m, until, number_of(port), least, first, size, written, line);
}

PUBLIC int32_t onu_hitless(const uint8_t *trace, size_t n, uint64_t from, uint64_t until, const uint16_t *port, uint16_t least, uint8_t *room,
                           size_t size, size_t *written, uint64_t *line) {
    if (is_missing(trace, n) || is_missing(room, size) || written == NULL || line == NULL)
        return ONU_NULL;
    return onu_proved_hitless(n == 0 ? &no_bytes : trace, n, from, until, number_of(port), least, size == 0 ? &no_bytes : room, size, written, line);
}

PUBLIC int32_t onu_expect(const uint8_t *trace, size_t n, const uint8_t *expectations, size_t m, uint64_t from, uint64_t until, uint16_t least,
                          uint8_t *room, size_t size, size_t *written, uint64_t *line) {
    if (is_missing(trace, n) || is_missing(expectations, m) || is_missing(room, size) || written == NULL || line == NULL)
        return ONU_NULL;
    return onu_proved_expect(n == 0 ? &no_bytes : trace, n, m == 0 ? &no_bytes : expectations, m, from, until, least,
                             size == 0 ? &no_bytes : room, size, written, line);
}

PUBLIC const char *onu_version(void) {
    return ONU_VERSION;
}
