/**
 * @file onu.h
 * @brief An optical network unit (ONU) in your process: it answers OMCI messages and forwards Ethernet frames upstream as ITU-T G.988
 *        says, and judges what another unit was seen to do. Scripts are answered, made of words, decoded and looked into, and what they
 *        do and change is found for every frame, and compared with what is expected.
 *
 * Link `libonu.a` or `libonu.so`, which `./build-library` makes. The calls keep nothing but what stands in an ::onu, call no function of
 * yours, open no file, start no thread and write to no stream. They take memory by `malloc` and `realloc` and give it back by `free`.
 *
 * @par Answers
 * Every call but onu_version() answers by a number: 0 or more where it did what was asked, and less where it didn't. -1 to -4 are the
 * faults of a message; the others are named here. A call that answers one of these leaves the unit as it was. onu_judge(),
 * onu_judge_all() and onu_judge_coverage() tell what they found by 0, 1 or 2, onu_differences() and onu_hitless() whether they found
 * something by 0 or 1, and onu_encode() and onu_decode() a bad input by 0 or 1, with words on it in the room. onu_expect() tells by 0 or 1
 * whether what is expected holds, and a bad input by 2, with words on it in the room.
 *
 * @par What is proved
 * What each call leaves in a cell; the replies of onu_message() and the verdicts of onu_forward(); the answers of onu_replay(), with
 * its number, size and line; the number of onu_judge(), of onu_judge_all() and of onu_judge_coverage(), and the line that they name; the
 * number of onu_differences(): 0 only where every frame is treated alike, and 1 only where some frame isn't; the bad line that onu_mib(),
 * onu_lint(), onu_rules(), onu_cover(), onu_differences(), onu_hitless() and onu_expect() name; and that no byte behind a text changes.
 * Tested only are what the texts of the other calls say, whether onu_encode(), onu_decode() and onu_hitless() answer 0 or 1, and
 * onu_expect() 0, 1 or 2, the answers to null pointers, and onu_version(). docs/PROOFS.md has the whole.
 *
 * @par Threads
 * A cell is used by one thread at a time: two calls with one cell must not run at once, and what orders them must be a lock, a join or the
 * like. Calls with different cells, and calls without one, may run at once.
 *
 * @par What the caller guarantees
 * A pointer that isn't null points to as many bytes as the call says, and what it is written through overlaps nothing else that is
 * passed to that call. No call is made from a signal handler, or in the child of a fork of a program with several threads. `malloc` and
 * `realloc` align a block to 16 bytes, as the C standard asks.
 *
 * Bytes of messages and frames stand in the order of the line. Numbers in an ::onu_verdict have the byte order of the machine.
 */
#ifndef ONU_H
#define ONU_H

#include <stdbool.h>
#include <stddef.h>
#include <stdint.h>

#ifdef __cplusplus
extern "C" {
#endif

/** The cell isn't open. Nothing was read or written. */
#define ONU_CLOSED (-16)
/** The cell is open already. It stays as it was. */
#define ONU_OPEN (-17)
/** A pointer is null. Nothing was read or written. */
#define ONU_NULL (-18)
/** The room is too small. It stays as it was; `*written` is how many bytes it has to have. */
#define ONU_SMALL (-19)
/** A request for memory was refused. The unit and the room stay as they were. */
#define ONU_NO_MEMORY (-20)
/** A line is bad; `*line` is its number. */
#define ONU_BAD_LINE (-21)
/** A flag that has no meaning is set. Nothing was read or written. */
#define ONU_FLAGS (-22)
/** A line of the script before a history is bad; `*line` is its number. */
#define ONU_BAD_START (-23)
/** A line of the trace after a change is bad; `*line` is its number. */
#define ONU_BAD_AFTER (-24)
/** A change is to begin behind the line where it ends, or expectations are to hold behind a line that isn't read. Nothing was read or written. */
#define ONU_BACKWARD (-25)

/** The line behind which a trace is at its end, however long it is. */
#define ONU_AT_END UINT64_MAX

/** A flag of onu_judge(): contents of replies are compared only where their requests are on classes that the model has, and there no values of
 * read-only attributes and no table. */
#define ONU_MODELLED 1u
/** A flag of onu_judge(): each frame is judged by itself, since several lanes serve a port. */
#define ONU_UNORDERED 2u
/** A flag of onu_judge(): a frame that was never sent, or has left before, may leave. */
#define ONU_ALLOW_STRAYS 4u
/** A flag of onu_judge(): a frame that leaves with fewer than 68 bytes may be seen with zeros behind them, up to 68. */
#define ONU_PADDED 8u
/** A flag of onu_judge(): a history without an end line may be explained. */
#define ONU_ALLOW_UNFINISHED 16u
/** A flag of onu_judge(): a message with the bytes of the one before it isn't carried out, and may be answered from memory or not at
 * all. */
#define ONU_REPEATS 32u

/**
 * @brief A cell in which a unit stands, or none.
 *
 * You own the cell: it may stand on the stack, in a struct or in an array. All its bytes are zero at first, as by #ONU_CELL. It may be
 * moved by `memcpy` between calls, if the old bytes aren't used again: a copy that is used beside the first one breaks both. Its fields
 * belong to the library.
 */
typedef struct onu {
    bool full_;  /**< Not for you. */
    void *unit_; /**< Not for you. */
} onu;

/** What a cell is at first: `onu cell = ONU_CELL;` */
#define ONU_CELL { false, NULL }

/**
 * @brief What becomes of a frame, in numbers.
 *
 * A frame that leaves is the first 12 bytes of the frame that came in, then `count` tags, then the bytes of the frame that came in from
 * `rest` on. Nothing of it is copied.
 */
typedef struct onu_verdict {
    uint16_t gem;     /**< The port-ID of the GEM port by which the frame leaves; 0 where it is dropped. */
    uint8_t reason;   /**< Why it is dropped, 1 to 9 (docs/RULES.md, "From a port to a GEM port"); 0 where it leaves. */
    uint8_t count;    /**< How many tags it leaves with, at most 4. */
    uint32_t tags[4]; /**< The tags, outermost first: TPID in the high 16 bits, then priority, DEI and VID. 0 behind the last. */
    size_t rest;      /**< Where its rest begins in the bytes that came in, in bytes; 0 where it is dropped. */
} onu_verdict;

/**
 * @brief Opens a cell: a unit without any managed entity but ONU data, with all the memory that it will need.
 *
 * No message and no frame takes memory later. Close the cell by onu_close().
 *
 * @param[in,out] cell  a cell that isn't open.
 * @return 0; #ONU_OPEN, #ONU_NO_MEMORY (the cell stays closed) or #ONU_NULL.
 */
int32_t onu_open(onu *cell);

/**
 * @brief Closes a cell, and gives its unit's memory back. The cell may be opened again.
 *
 * @param[in,out] cell  an open cell.
 * @return 0; #ONU_CLOSED or #ONU_NULL.
 */
int32_t onu_close(onu *cell);

/**
 * @brief Hands a message of the OMCI's baseline message set to the unit, and gets the reply.
 *
 * The request is carried out before the call returns: a frame that is forwarded next meets what it changed.
 *
 * @param[in,out] cell   an open cell.
 * @param[in]     bytes  the message. It may be null where `n` is 0.
 * @param[in]     n      how many bytes it has: 48, or 44 without the last four.
 * @param[out]    reply  room for the 48 bytes of the reply. It is written only where 1 is returned.
 * @return 1, and the reply is written; 0, the request wanted no answer and was carried out; or the message's fault, and nothing was
 *         carried out: -1, neither 48 nor 44 bytes; -2, the destination bit is 1; -3, this is no request; -4, a device identifier other
 *         than that of the baseline set. #ONU_CLOSED or #ONU_NULL.
 */
int32_t onu_message(onu *cell, const uint8_t *bytes, size_t n, uint8_t reply[48]);

/**
 * @brief Forwards an Ethernet frame upstream that comes in at a port.
 *
 * @param[in,out] cell     an open cell. Its managed entities stay as they are.
 * @param[in]     port     the port, as the managed entities point to it.
 * @param[in]     frame    the frame, from its destination address on, without a frame check sequence. It may be null where `n` is 0.
 * @param[in]     n        how many bytes it has.
 * @param[out]    verdict  what becomes of it.
 * @return 1, it leaves; 0, it is dropped; #ONU_CLOSED or #ONU_NULL, and the verdict isn't written.
 */
int32_t onu_forward(onu *cell, uint16_t port, const uint8_t *frame, size_t n, onu_verdict *verdict);

/**
 * @brief Explains what becomes of a frame, step by step, as `onuctl explain --json` does (docs/FORMATS.md). The text is tested, not
 *        proved.
 *
 * @param[in,out] cell     an open cell. Its managed entities stay as they are.
 * @param[in]     port     the port.
 * @param[in]     frame    the frame. It may be null where `n` is 0.
 * @param[in]     n        how many bytes it has.
 * @param[out]    room     room for the text: JSON in UTF-8, no zero byte at its end. It may be null where `size` is 0.
 * @param[in]     size     how many bytes the room has.
 * @param[out]    written  how many bytes the text has, also with #ONU_SMALL. It isn't written with #ONU_CLOSED or #ONU_NULL.
 * @return 0, and the text is in the room; #ONU_SMALL, #ONU_NO_MEMORY (`*written` is 0), #ONU_CLOSED or #ONU_NULL.
 */
int32_t onu_explain(onu *cell, uint16_t port, const uint8_t *frame, size_t n, uint8_t *room, size_t size, size_t *written);

/**
 * @brief Answers a script, line by line, from a unit of its own, as `onuctl replay` does (docs/FORMATS.md).
 *
 * @param[in]  script   the script. It may be null where `n` is 0.
 * @param[in]  n        how many bytes it has.
 * @param[out] room     room for the answers: three times as many bytes as the script, and 3, are enough. It may be null where `size` is 0.
 * @param[in]  size     how many bytes the room has.
 * @param[out] written  how many bytes the answers have, also with #ONU_SMALL.
 * @param[out] line     the number, from 1, of the first bad line, also with #ONU_SMALL; 0 where no line is bad.
 * @return 0, and the answers are in the room; #ONU_BAD_LINE, and the answers to the lines before it are in the room; #ONU_SMALL,
 *         #ONU_NO_MEMORY (`*written` and `*line` are 0) or #ONU_NULL.
 */
int32_t onu_replay(const uint8_t *script, size_t n, uint8_t *room, size_t size, size_t *written, uint64_t *line);

/**
 * @brief Judges a history: whether a right unit may have behaved so. What is found is written as `onuctl judge --json` writes it
 *        (docs/FORMATS.md). The number and the line are proved; the text is tested.
 *
 * @param[in]  history  the history. It may be null where `n` is 0.
 * @param[in]  n        how many bytes it has.
 * @param[in]  flags    any of #ONU_MODELLED, #ONU_UNORDERED, #ONU_ALLOW_STRAYS, #ONU_PADDED, #ONU_ALLOW_UNFINISHED and #ONU_REPEATS, or 0.
 * @param[out] room     room for the text: JSON in UTF-8, no zero byte at its end. It may be null where `size` is 0.
 * @param[in]  size     how many bytes the room has.
 * @param[out] written  how many bytes the text has, also with #ONU_SMALL; 0 where there is none.
 * @param[out] line     the number, from 1, of the first line that no right unit explains, also with #ONU_SMALL, or of the first bad
 *                      line; else 0.
 * @return 1, explained, up to an end line or with #ONU_ALLOW_UNFINISHED, and something was judged; 2, explained so far, but without an end
 *         line where one is asked for, or nothing was judged: no pass; 0, not explained; #ONU_BAD_LINE, #ONU_SMALL, #ONU_NO_MEMORY; or
 *         #ONU_FLAGS or #ONU_NULL, and neither `*written` nor `*line` is written.
 */
int32_t onu_judge(const uint8_t *history, size_t n, uint32_t flags, uint8_t *room, size_t size, size_t *written, uint64_t *line);

/**
 * @brief Judges a history behind a script, and finds each of its deviations, as `onuctl judge --start START --all --most MOST --json` does
 *        (docs/FORMATS.md). The number and the line are proved; the text is tested.
 *
 * The requests of the script were carried out before the history began. Its frames are passed over.
 *
 * @param[in]  start       the script. It may be null where `start_size` is 0: then there is none.
 * @param[in]  start_size  how many bytes it has.
 * @param[in]  history     the history. It may be null where `n` is 0.
 * @param[in]  n           how many bytes it has.
 * @param[in]  flags       as of onu_judge().
 * @param[in]  most        how many deviations are listed at most. With 0 the text has the first alone, as that of onu_judge(). Each takes as
 *                         long as a judgement.
 * @param[out] room        room for the text: JSON in UTF-8, no zero byte at its end. It may be null where `size` is 0.
 * @param[in]  size        how many bytes the room has.
 * @param[out] written     how many bytes the text has, also with #ONU_SMALL; 0 where there is none.
 * @param[out] line        the number, from 1, of the first line that no right unit explains, also with #ONU_SMALL, or of the first bad
 *                         line of the script or of the history; else 0.
 * @return as onu_judge(), or #ONU_BAD_START. Where the script and the history have a bad line, that of the script is named.
 */
int32_t onu_judge_all(const uint8_t *start, size_t start_size, const uint8_t *history, size_t n, uint32_t flags, uint64_t most, uint8_t *room, size_t size,
                      size_t *written, uint64_t *line);

/**
 * @brief Judges a history behind a script, and lists of an explained one which classes of frames were tried, and which not, as
 *        `onuctl judge --start START --coverage --least LEAST --json` does (docs/FORMATS.md). The number and the line are proved; the text is
 *        tested.
 *
 * @param[in]  start       as of onu_judge_all().
 * @param[in]  start_size  how many bytes it has.
 * @param[in]  history     as of onu_judge_all().
 * @param[in]  n           how many bytes it has.
 * @param[in]  flags       as of onu_judge(), but for #ONU_UNORDERED, which is refused: no frame has a least version then.
 * @param[in]  most        how many deviations of a history are listed at most that isn't explained, as of onu_judge_all().
 * @param[in]  least       how many bytes the listed frames have at least; 0 for every frame.
 * @param[out] room        room for the text: JSON in UTF-8, no zero byte at its end. It may be null where `size` is 0.
 * @param[in]  size        how many bytes the room has.
 * @param[out] written     how many bytes the text has, also with #ONU_SMALL; 0 where there is none.
 * @param[out] line        as of onu_judge_all().
 * @return as onu_judge_all().
 */
int32_t onu_judge_coverage(const uint8_t *start, size_t start_size, const uint8_t *history, size_t n, uint32_t flags, uint64_t most, uint16_t least,
                           uint8_t *room, size_t size, size_t *written, uint64_t *line);

/**
 * @brief Makes a script of a text in words, as `onuctl encode` does (docs/FORMATS.md). Each line of the text is one of the script. The texts
 *        and whether 0 or 1 is returned are tested, not proved.
 *
 * @param[in]  words       the text. It may be null where `n` is 0.
 * @param[in]  n           how many bytes it has.
 * @param[in]  identifier  the transaction correlation identifier of the first message; `onuctl encode` takes 1.
 * @param[out] room        room for the script or the mistakes, with no zero byte at their end. It may be null where `size` is 0.
 * @param[in]  size        how many bytes the room has.
 * @param[out] written     how many bytes the script or the mistakes have, also with #ONU_SMALL.
 * @return 0, and the script is in the room; 1, the text has mistakes, and these are in the room, each a line `line N, column N: WORDS`;
 *         #ONU_SMALL, #ONU_NO_MEMORY (`*written` is 0) or #ONU_NULL.
 */
int32_t onu_encode(const uint8_t *words, size_t n, uint16_t identifier, uint8_t *room, size_t size, size_t *written);

/**
 * @brief Says what each line of a script or of its answers means, as `onuctl decode --json` does (docs/FORMATS.md). The texts and
 *        whether 0 or 1 is returned are tested, not proved.
 *
 * @param[in]  script   the script. It may be null where `n` is 0.
 * @param[in]  n        how many bytes it has.
 * @param[out] room     room for the text: an object of JSON a line, in UTF-8, no zero byte at its end. It may be null where `size` is 0.
 * @param[in]  size     how many bytes the room has.
 * @param[out] written  how many bytes the text has, also with #ONU_SMALL.
 * @return 0, and the text is in the room; 1, a line is bad, and the room has what is wrong in the first such line, as
 *         `line N, column N: WORDS` on a line; #ONU_SMALL, #ONU_NO_MEMORY (`*written` is 0) or #ONU_NULL.
 */
int32_t onu_decode(const uint8_t *script, size_t n, uint8_t *room, size_t size, size_t *written);

/**
 * @brief Shows the managed entities after a trace, as `onuctl mib --json` does (docs/FORMATS.md). The number and the line are proved; the
 *        text is tested.
 *
 * A trace is a script. Its messages are carried out by a unit of its own. Those that have a fault or are refused change nothing, and
 * frames are passed over: onu_lint() says which messages these are.
 *
 * @param[in]  trace    the trace. It may be null where `n` is 0.
 * @param[in]  n        how many bytes it has.
 * @param[out] room     room for the text: JSON in UTF-8, no zero byte at its end. It may be null where `size` is 0.
 * @param[in]  size     how many bytes the room has.
 * @param[out] written  how many bytes the text has, also with #ONU_SMALL; 0 where there is none.
 * @param[out] line     the number, from 1, of the first bad line; 0 where no line is bad.
 * @return 0, and the text is in the room; #ONU_BAD_LINE, #ONU_SMALL, #ONU_NO_MEMORY (`*line` is 0) or #ONU_NULL.
 */
int32_t onu_mib(const uint8_t *trace, size_t n, uint8_t *room, size_t size, size_t *written, uint64_t *line);

/**
 * @brief Finds what is wrong with the managed entities after a trace, and which of its messages have a fault or are refused, as
 *        `onuctl lint --json` does. All else is as of onu_mib().
 */
int32_t onu_lint(const uint8_t *trace, size_t n, uint8_t *room, size_t size, size_t *written, uint64_t *line);

/**
 * @brief Shows the VLAN tagging table that is in force at a port after a trace, as `onuctl rules --json` does. All else is as of onu_mib().
 *
 * @param[in] port  the port.
 */
int32_t onu_rules(const uint8_t *trace, size_t n, uint16_t port, uint8_t *room, size_t size, size_t *written, uint64_t *line);

/**
 * @brief Lists each class of the frames that come in after a trace, with a frame that has it, as `onuctl cover --json` does (docs/FORMATS.md):
 *        what the port's table uses for them, and how they end. The number and the line are proved; the text is tested.
 *
 * Every frame counts, whatever its bytes and its length. The trace is carried out as by onu_mib().
 *
 * @param[in]  trace    the trace. It may be null where `n` is 0.
 * @param[in]  n        how many bytes it has.
 * @param[in]  port     the port at which the frames come in; or null, for each port that a managed entity names.
 * @param[in]  least    how many bytes a frame has at least; 0 for every frame.
 * @param[out] room     room for the text: JSON in UTF-8, no zero byte at its end. It may be null where `size` is 0.
 * @param[in]  size     how many bytes the room has.
 * @param[out] written  how many bytes the text has, also with #ONU_SMALL; 0 where there is none.
 * @param[out] line     the number, from 1, of the first bad line; 0 where no line is bad.
 * @return 0, and the text is in the room; #ONU_BAD_LINE, #ONU_SMALL, #ONU_NO_MEMORY (`*line` is 0) or #ONU_NULL.
 */
int32_t onu_cover(const uint8_t *trace, size_t n, const uint16_t *port, uint16_t least, uint8_t *room, size_t size, size_t *written, uint64_t *line);

/**
 * @brief Finds which frames two configurations treat differently, of every frame, each with what becomes of it, as `onuctl diff --json` does
 *        (docs/FORMATS.md). The number and the line are proved; the text is tested.
 *
 * A frame is treated alike where it is dropped for the same reason, or leaves by the same GEM port with the same bytes. The traces are carried
 * out as by onu_mib(), and no line behind the last one is read.
 *
 * With `after` the configurations are those of two traces: `before` behind line `from`, and `after` behind line `until`. With a null pointer as
 * `after` they are those of `before` behind both lines. An empty trace after a change is no null pointer, but one to no bytes.
 *
 * @param[in]  before   the trace before. It may be null where `n` is 0.
 * @param[in]  n        how many bytes it has.
 * @param[in]  from     the last line, from 1, that is read for the configuration before; 0 for none, or #ONU_AT_END.
 * @param[in]  after    the trace after; or null, and then `m` is 0.
 * @param[in]  m        how many bytes it has.
 * @param[in]  until    the last line that is read for the configuration after; 0 for none, or #ONU_AT_END.
 * @param[in]  port     the port at which the frames come in; or null, for every port.
 * @param[in]  least    how many bytes a frame has at least; 0 for every frame.
 * @param[out] room     room for the text: JSON in UTF-8, no zero byte at its end. It may be null where `size` is 0.
 * @param[in]  size     how many bytes the room has.
 * @param[out] written  how many bytes the text has, also with #ONU_SMALL; 0 where there is none.
 * @param[out] line     the number, from 1, of the first bad line, of `before` or else of `after`; 0 where no line is bad.
 * @return 0, every frame is treated alike; 1, some frame isn't, and those in the text are such frames; and the text is in the room; or
 *         #ONU_BAD_LINE, of `before`; #ONU_BAD_AFTER, of `after`; #ONU_SMALL, #ONU_NO_MEMORY (`*line` is 0); or #ONU_BACKWARD, `after` is null
 *         and `from` behind `until`, or #ONU_NULL, and neither `*written` nor `*line` is written.
 */
int32_t onu_differences(const uint8_t *before, size_t n, uint64_t from, const uint8_t *after, size_t m, uint64_t until, const uint16_t *port,
                        uint16_t least, uint8_t *room, size_t size, size_t *written, uint64_t *line);

/**
 * @brief Finds for which frames a moment of a change is torn, of every frame, each with what becomes of it before, then and after, as
 *        `onuctl hitless --json` does (docs/FORMATS.md). The line is proved; the text and whether 0 or 1 is returned are tested.
 *
 * The change is that from line `from` of the trace to line `until`. A moment between is torn for a frame that leaves there as neither before nor
 * after, or is dropped there alone.
 *
 * @param[in]  trace    the trace. It may be null where `n` is 0.
 * @param[in]  n        how many bytes it has.
 * @param[in]  from     the line, from 1, behind which the change begins; 0 for the first.
 * @param[in]  until    the last line that is read, where the change ends, or #ONU_AT_END.
 * @param[in]  port     the port at which the frames come in; or null, for each port that a managed entity names at some moment.
 * @param[in]  least    how many bytes a frame has at least; 0 for every frame.
 * @param[out] room     room for the text: JSON in UTF-8, no zero byte at its end. It may be null where `size` is 0.
 * @param[in]  size     how many bytes the room has.
 * @param[out] written  how many bytes the text has, also with #ONU_SMALL; 0 where there is none.
 * @param[out] line     the number, from 1, of the first bad line; 0 where no line is bad.
 * @return 0, no moment is torn; 1, some moment is; and the text is in the room; or #ONU_BAD_LINE, #ONU_SMALL, #ONU_NO_MEMORY (`*line` is 0); or
 *         #ONU_BACKWARD, `from` is behind `until`, or #ONU_NULL, and neither `*written` nor `*line` is written.
 */
int32_t onu_hitless(const uint8_t *trace, size_t n, uint64_t from, uint64_t until, const uint16_t *port, uint16_t least, uint8_t *room, size_t size,
                    size_t *written, uint64_t *line);

/**
 * @brief Checks, of every frame, whether expectations hold after a trace, as `onuctl expect --json` does (docs/FORMATS.md): each is said to hold, or
 *        a frame that fails it is shown, or it is void. The line is proved; the text and whether 0, 1 or 2 is returned are tested.
 *
 * The trace is carried out as by onu_mib(), and no line behind `until` is read. With a line as `from` each expectation has to hold behind it, and
 * by each version from there on.
 *
 * @param[in]  trace         the trace. It may be null where `n` is 0.
 * @param[in]  n             how many bytes it has.
 * @param[in]  expectations  the expectations, in words, a line each. It may be null where `m` is 0.
 * @param[in]  m             how many bytes they have.
 * @param[in]  from          the line, from 1, behind which they have to hold; 0 for the opening state; or #ONU_AT_END, for the last version alone.
 * @param[in]  until         the last line that is read, or #ONU_AT_END.
 * @param[in]  least         how many bytes a frame has at least; 0 for every frame.
 * @param[out] room          room for the text: JSON in UTF-8, or the mistakes, with no zero byte at its end. It may be null where `size` is 0.
 * @param[in]  size          how many bytes the room has.
 * @param[out] written       how many bytes the text has, also with #ONU_SMALL; 0 where there is none.
 * @param[out] line          the number, from 1, of the first bad line of the trace; 0 where no line is bad.
 * @return 0, each expectation holds; 1, some expectation fails or is void; and the text is in the room; 2, the expectations have mistakes, and
 *         these are in the room, each a line `line N, column N: WORDS`; or #ONU_BAD_LINE, #ONU_SMALL, #ONU_NO_MEMORY (`*line` is 0); or
 *         #ONU_BACKWARD, `from` is a line behind `until`, or #ONU_NULL, and neither `*written` nor `*line` is written.
 */
int32_t onu_expect(const uint8_t *trace, size_t n, const uint8_t *expectations, size_t m, uint64_t from, uint64_t until, uint16_t least,
                   uint8_t *room, size_t size, size_t *written, uint64_t *line);

/**
 * @brief The program's version, and what it was proved with.
 * @return a string that stands for good, such as `onuctl 0.2.0, proved with rattle-kit-13f logic dac8208d650f15bf`.
 */
const char *onu_version(void);

#ifdef __cplusplus
}
#endif

#endif
