/* Between a C program and the proved exports of libtinkey_c.a: random bytes are drawn here, calls of one handle are
 * kept one at a time, what the exports take for granted is tested, and a stream that is over is remembered. No proof
 * covers this file. */
#define _GNU_SOURCE
#include "tinkey.h"

#include <errno.h>
#include <pthread.h>
#include <stdbool.h>
#include <stdint.h>
#include <stdlib.h>
#include <sys/random.h>

/* ---- The exports. A slice is a pointer, which isn't NULL, and its length, which is at most PTRDIFF_MAX. */

struct shared_keys {
    void *at; /* NULL where there are none */
};

#define MAKERS(primitive)                                                                             \
    int32_t tinkey_core_##primitive##_of_json(const uint8_t *, size_t, struct shared_keys *);         \
    int32_t tinkey_core_##primitive##_of_binary(const uint8_t *, size_t, struct shared_keys *);       \
    int32_t tinkey_core_##primitive##_of_wrapped(const uint8_t *encrypted, size_t, bool json,         \
                                                 const uint8_t *master, size_t, bool json_master,     \
                                                 struct shared_keys *);
MAKERS(aead)
MAKERS(daead)
MAKERS(mac)
MAKERS(prf)
MAKERS(streaming)

int32_t tinkey_core_seal(struct shared_keys *, const uint8_t *random, size_t, const uint8_t *plain, size_t,
                         const uint8_t *ad, size_t, uint8_t *out, size_t, size_t *size);
int32_t tinkey_core_open(struct shared_keys *, const uint8_t *sealed, size_t, const uint8_t *ad, size_t,
                         uint8_t *out, size_t, size_t *size);
int32_t tinkey_core_dseal(struct shared_keys *, const uint8_t *plain, size_t, const uint8_t *ad, size_t,
                          uint8_t *out, size_t, size_t *size);
int32_t tinkey_core_dopen(struct shared_keys *, const uint8_t *sealed, size_t, const uint8_t *ad, size_t,
                          uint8_t *out, size_t, size_t *size);
int32_t tinkey_core_tag(struct shared_keys *, const uint8_t *body, size_t, uint8_t *out, size_t, size_t *size);
int32_t tinkey_core_verify(struct shared_keys *, const uint8_t *tag, size_t, const uint8_t *body, size_t);
int32_t tinkey_core_derive(struct shared_keys *, const uint8_t *input, size_t, size_t count,
                           uint8_t *out, size_t, size_t *size);
void tinkey_core_free(struct shared_keys *);

/* Keys for streams, and streams, lie at such a place too. */
int32_t tinkey_core_stream_begin_sealing(struct shared_keys *, const uint8_t *random, size_t, const uint8_t *ad, size_t,
                                         struct shared_keys *sealing);
int32_t tinkey_core_stream_begin_opening(struct shared_keys *, const uint8_t *ad, size_t, struct shared_keys *opening);
int32_t tinkey_core_stream_seal(struct shared_keys *, const uint8_t *plain, size_t, uint8_t *out, size_t, size_t *size);
int32_t tinkey_core_stream_seal_last(struct shared_keys *, uint8_t *out, size_t, size_t *size);
int32_t tinkey_core_stream_open(struct shared_keys *, const uint8_t *bytes, size_t, uint8_t *out, size_t, size_t *size);
int32_t tinkey_core_stream_open_last(struct shared_keys *, uint8_t *out, size_t, size_t *size);
size_t tinkey_core_stream_waiting(struct shared_keys *);
void tinkey_core_stream_free(struct shared_keys *);

/* ---- What is passed on. */

/* As many random bytes as the longest IV takes, which is EAX's, and as many again. */
enum { RANDOM = 32 };

/* As many as the longest salt and nonce prefix of a stream take. */
enum { STREAM_RANDOM = 39 };

/* The bytes that a pass over a stream reads at once, and the room for what they give to begin with. */
enum { PIECE = 65536, PIECE_ROOM = 2 * PIECE };

/* More bytes than any AEAD adds: 5 of prefix, 16 of IV and 64 of tag. AES-SIV adds 5 and 16. The longest tag has 64
 * bytes behind 5. */
enum { AEAD_MORE = 96, DAEAD_MORE = 21, TAG_MOST = 69 };

static uint8_t nothing[1];

static uint8_t *at(const void *bytes, size_t len) { return len ? (uint8_t *)bytes : nothing; }

static int is_missing(const void *bytes, size_t len) { return !bytes && len; }

static int is_huge(size_t len) { return len > PTRDIFF_MAX; }

static int overlap(const void *a, size_t a_len, const void *b, size_t b_len) {
    uintptr_t x = (uintptr_t)a, y = (uintptr_t)b;
    return a_len && b_len && (x < y ? y - x < a_len : x - y < b_len);
}

static size_t sum(size_t a, size_t b) { return a > SIZE_MAX - b ? SIZE_MAX : a + b; }

static size_t least(size_t a, size_t b) { return a < b ? a : b; }

/* Draws bytes from the system. None is kept for a later call, which a fork would repeat. */
static int draw(uint8_t *out, size_t len) {
    while (len) {
        ssize_t got = getrandom(out, len, 0);
        if (got < 0 && errno == EINTR) continue;
        if (got <= 0) return 0;
        out += got;
        len -= (size_t)got;
    }
    return 1;
}

/* Whether the processor has what the archive is compiled for. */
static int is_new_enough(void) {
#if defined(__x86_64__) && defined(TINKEY_X86_64_V3)
    return __builtin_cpu_supports("avx2") && __builtin_cpu_supports("bmi") && __builtin_cpu_supports("bmi2")
        && __builtin_cpu_supports("fma");
#elif defined(__x86_64__)
    return __builtin_cpu_supports("sse4.2") && __builtin_cpu_supports("ssse3") && __builtin_cpu_supports("popcnt");
#else
    return 1;
#endif
}

/* ---- Handles: the same behind each of the types. */

/* What a handle holds, so that one of another kind is refused. The primitive of keys is tested by the exports. */
enum kind { KEYS, STREAM_KEYS, SEALING, OPENING };

struct handle {
    enum kind kind;
    bool is_over; /* of a stream: no call gives any more of it */
    struct shared_keys keys;
    pthread_mutex_t one_call;
};

typedef int32_t maker(const uint8_t *, size_t, struct shared_keys *);
typedef int32_t unwrapper(const uint8_t *, size_t, bool, const uint8_t *, size_t, bool, struct shared_keys *);

/* A handle that holds nothing yet, or NULL. */
static struct handle *blank(enum kind kind) {
    struct handle *made = calloc(1, sizeof *made);
    if (made && pthread_mutex_init(&made->one_call, NULL)) {
        free(made);
        made = NULL;
    }
    if (made) made->kind = kind;
    return made;
}

/* Gives a handle out if what it holds was made, and else lets it go. */
static tinkey_status give(struct handle *made, int32_t status, void **out) {
    if (!status) {
        *out = made;
    } else if (made) {
        pthread_mutex_destroy(&made->one_call);
        free(made);
    }
    return (tinkey_status)status;
}

static tinkey_status make(enum kind kind, maker *core, const void *text, size_t len, void **out) {
    if (!out || is_missing(text, len) || is_huge(len)) return TINKEY_BAD_CALL;
    if (!is_new_enough()) return TINKEY_OLD_PROCESSOR;
    int before = errno;
    struct handle *made = blank(kind);
    tinkey_status status = give(made, made ? core(at(text, len), len, &made->keys) : TINKEY_NO_MEMORY, out);
    errno = before;
    return status;
}

static int is_form(tinkey_form form) { return form == TINKEY_JSON || form == TINKEY_BINARY; }

static tinkey_status unwrap(enum kind kind, unwrapper *core, const void *text, size_t len, tinkey_form form,
                            const void *master, size_t master_len, tinkey_form master_form, void **out) {
    if (!out || is_missing(text, len) || is_missing(master, master_len) || is_huge(len) || is_huge(master_len)
        || !is_form(form) || !is_form(master_form))
        return TINKEY_BAD_CALL;
    if (!is_new_enough()) return TINKEY_OLD_PROCESSOR;
    int before = errno;
    struct handle *made = blank(kind);
    tinkey_status status = give(made, made ? core(at(text, len), len, form == TINKEY_JSON, at(master, master_len),
                                                  master_len, master_form == TINKEY_JSON, &made->keys)
                                           : TINKEY_NO_MEMORY, out);
    errno = before;
    return status;
}

static void let_go(struct handle *handle) {
    if (!handle) return;
    int before = errno;
    if (handle->keys.at) (handle->kind == KEYS ? tinkey_core_free : tinkey_core_stream_free)(&handle->keys);
    pthread_mutex_destroy(&handle->one_call);
    free(handle);
    errno = before;
}

/* ---- Calls. */

/* Two inputs, and an output with the room that the caller says it has. The answer has at most `most` bytes, and no
 * more room is lent than that, so that a room which is too long names no other memory. */
struct call {
    const void *first, *second;
    size_t first_len, second_len;
    void *out;
    size_t room, most;
    size_t *len;
    bool ends; /* of a stream: the call ends its input */
};

/* Whether the caller hands in what no call takes. Overlap is that of the whole room, however much of it is written. */
static int is_bad(const void *handle, const struct call *call) {
    return !handle || !call->len || is_missing(call->first, call->first_len)
        || is_missing(call->second, call->second_len) || is_missing(call->out, call->room)
        || is_huge(call->first_len) || is_huge(call->second_len) || is_huge(call->room)
        || overlap(call->out, call->room, call->first, call->first_len)
        || overlap(call->out, call->room, call->second, call->second_len)
        || overlap(call->len, sizeof *call->len, call->out, call->room)
        || overlap(call->len, sizeof *call->len, call->first, call->first_len)
        || overlap(call->len, sizeof *call->len, call->second, call->second_len);
}

/* Whether no call gives any more of a stream, after one with this status. */
static int is_last(const struct call *call, int32_t status) {
    return status == TINKEY_OK ? call->ends
                               : status == TINKEY_REFUSED || status == TINKEY_TOO_LONG || status == TINKEY_NO_MEMORY;
}

typedef int32_t worker(struct shared_keys *, const uint8_t *, size_t, const uint8_t *, size_t,
                       uint8_t *, size_t, size_t *);

static tinkey_status run(void *which, enum kind kind, worker *core, const struct call *call) {
    if (is_bad(which, call)) return TINKEY_BAD_CALL;
    struct handle *handle = which;
    if (handle->kind != kind) return TINKEY_OTHER_PRIMITIVE;
    int before = errno;
    size_t room = least(call->room, call->most);
    pthread_mutex_lock(&handle->one_call);
    int32_t status = core(&handle->keys, at(call->first, call->first_len), call->first_len,
                          at(call->second, call->second_len), call->second_len,
                          at(call->out, room), room, call->len);
    if ((kind == SEALING || kind == OPENING) && is_last(call, status)) handle->is_over = true;
    pthread_mutex_unlock(&handle->one_call);
    errno = before;
    return (tinkey_status)status;
}

static int32_t seal_freshly(struct shared_keys *keys, const uint8_t *plain, size_t plain_len,
                            const uint8_t *ad, size_t ad_len, uint8_t *out, size_t room, size_t *len) {
    uint8_t random[RANDOM];
    if (!draw(random, sizeof random)) return TINKEY_NO_RANDOM;
    return tinkey_core_seal(keys, random, sizeof random, plain, plain_len, ad, ad_len, out, room, len);
}

static int32_t tag_alone(struct shared_keys *keys, const uint8_t *body, size_t body_len,
                         const uint8_t *none, size_t no_len, uint8_t *out, size_t room, size_t *len) {
    (void)none;
    (void)no_len;
    return tinkey_core_tag(keys, body, body_len, out, room, len);
}

static int32_t verify_both(struct shared_keys *keys, const uint8_t *tag, size_t tag_len,
                           const uint8_t *body, size_t body_len, uint8_t *out, size_t room, size_t *len) {
    (void)out;
    (void)room;
    (void)len;
    return tinkey_core_verify(keys, tag, tag_len, body, body_len);
}

static int32_t derive_all(struct shared_keys *keys, const uint8_t *input, size_t input_len,
                          const uint8_t *none, size_t no_len, uint8_t *out, size_t room, size_t *len) {
    (void)none;
    (void)no_len;
    return tinkey_core_derive(keys, input, input_len, room, out, room, len);
}

/* ---- What the header names. */

#define HANDLES(primitive, kind)                                                                              \
    tinkey_status tinkey_##primitive##_new(const void *json, size_t json_len, tinkey_##primitive **handle) {  \
        void *made = NULL;                                                                                    \
        tinkey_status status = handle ? make(kind, tinkey_core_##primitive##_of_json, json, json_len, &made)  \
                                      : TINKEY_BAD_CALL;                                                      \
        if (!status) *handle = made;                                                                          \
        return status;                                                                                        \
    }                                                                                                         \
    tinkey_status tinkey_##primitive##_new_binary(const void *bytes, size_t bytes_len,                        \
                                                  tinkey_##primitive **handle) {                              \
        void *made = NULL;                                                                                    \
        tinkey_status status = handle ? make(kind, tinkey_core_##primitive##_of_binary, bytes, bytes_len,     \
                                             &made) : TINKEY_BAD_CALL;                                        \
        if (!status) *handle = made;                                                                          \
        return status;                                                                                        \
    }                                                                                                         \
    tinkey_status tinkey_##primitive##_new_wrapped(const void *encrypted, size_t encrypted_len,               \
                                                   tinkey_form form, const void *master, size_t master_len,   \
                                                   tinkey_form master_form, tinkey_##primitive **handle) {    \
        void *made = NULL;                                                                                    \
        tinkey_status status = handle ? unwrap(kind, tinkey_core_##primitive##_of_wrapped, encrypted,         \
                                               encrypted_len, form, master, master_len, master_form, &made)   \
                                      : TINKEY_BAD_CALL;                                                      \
        if (!status) *handle = made;                                                                          \
        return status;                                                                                        \
    }                                                                                                         \
    void tinkey_##primitive##_free(tinkey_##primitive *handle) { let_go((struct handle *)handle); }

HANDLES(aead, KEYS)
HANDLES(daead, KEYS)
HANDLES(mac, KEYS)
HANDLES(prf, KEYS)
HANDLES(streaming, STREAM_KEYS)

size_t tinkey_aead_seal_room(size_t plain_len) { return sum(plain_len, AEAD_MORE); }
size_t tinkey_aead_open_room(size_t sealed_len) { return sealed_len; }
size_t tinkey_daead_seal_room(size_t plain_len) { return sum(plain_len, DAEAD_MORE); }
size_t tinkey_daead_open_room(size_t sealed_len) { return sealed_len; }
size_t tinkey_mac_tag_room(void) { return TAG_MOST; }

tinkey_status tinkey_aead_seal(tinkey_aead *handle, const void *plain, size_t plain_len, const void *ad,
                               size_t ad_len, void *out, size_t out_room, size_t *out_len) {
    struct call call = {plain, ad, plain_len, ad_len, out, out_room, tinkey_aead_seal_room(plain_len), out_len, false};
    return run(handle, KEYS, seal_freshly, &call);
}

tinkey_status tinkey_aead_open(tinkey_aead *handle, const void *sealed, size_t sealed_len, const void *ad,
                               size_t ad_len, void *out, size_t out_room, size_t *out_len) {
    struct call call = {sealed, ad, sealed_len, ad_len, out, out_room, sealed_len, out_len, false};
    return run(handle, KEYS, tinkey_core_open, &call);
}

tinkey_status tinkey_daead_seal(tinkey_daead *handle, const void *plain, size_t plain_len, const void *ad,
                                size_t ad_len, void *out, size_t out_room, size_t *out_len) {
    struct call call = {plain, ad, plain_len, ad_len, out, out_room, tinkey_daead_seal_room(plain_len), out_len, false};
    return run(handle, KEYS, tinkey_core_dseal, &call);
}

tinkey_status tinkey_daead_open(tinkey_daead *handle, const void *sealed, size_t sealed_len, const void *ad,
                                size_t ad_len, void *out, size_t out_room, size_t *out_len) {
    struct call call = {sealed, ad, sealed_len, ad_len, out, out_room, sealed_len, out_len, false};
    return run(handle, KEYS, tinkey_core_dopen, &call);
}

tinkey_status tinkey_mac_tag(tinkey_mac *handle, const void *body, size_t body_len, void *out, size_t out_room,
                             size_t *out_len) {
    struct call call = {body, NULL, body_len, 0, out, out_room, TAG_MOST, out_len, false};
    return run(handle, KEYS, tag_alone, &call);
}

tinkey_status tinkey_mac_verify(tinkey_mac *handle, const void *tag, size_t tag_len, const void *body,
                                size_t body_len) {
    size_t unused = 0;
    struct call call = {tag, body, tag_len, body_len, NULL, 0, 0, &unused, false};
    return run(handle, KEYS, verify_both, &call);
}

tinkey_status tinkey_prf_derive(tinkey_prf *handle, const void *input, size_t input_len, void *out, size_t count) {
    size_t made = 0;
    struct call call = {input, NULL, input_len, 0, out, count, count, &made, false};
    return run(handle, KEYS, derive_all, &call);
}

/* ---- Streams. */

typedef int32_t beginner(struct shared_keys *, const uint8_t *ad, size_t, struct shared_keys *stream);

/* A stream begun under keys, whose calls are kept one at a time meanwhile. */
static tinkey_status begin(void *keys, enum kind kind, beginner *core, const void *ad, size_t ad_len, void **out) {
    if (!keys || !out || is_missing(ad, ad_len) || is_huge(ad_len)) return TINKEY_BAD_CALL;
    struct handle *of = keys;
    if (of->kind != STREAM_KEYS) return TINKEY_OTHER_PRIMITIVE;
    int before = errno;
    struct handle *made = blank(kind);
    int32_t status = TINKEY_NO_MEMORY;
    if (made) {
        pthread_mutex_lock(&of->one_call);
        status = core(&of->keys, at(ad, ad_len), ad_len, &made->keys);
        pthread_mutex_unlock(&of->one_call);
    }
    status = give(made, status, out);
    errno = before;
    return (tinkey_status)status;
}

static int32_t begin_freshly(struct shared_keys *keys, const uint8_t *ad, size_t ad_len, struct shared_keys *stream) {
    uint8_t random[STREAM_RANDOM];
    if (!draw(random, sizeof random)) return TINKEY_NO_RANDOM;
    return tinkey_core_stream_begin_sealing(keys, random, sizeof random, ad, ad_len, stream);
}

tinkey_status tinkey_sealing_new(tinkey_streaming *keys, const void *ad, size_t ad_len, tinkey_sealing **handle) {
    void *made = NULL;
    tinkey_status status = handle ? begin(keys, SEALING, begin_freshly, ad, ad_len, &made) : TINKEY_BAD_CALL;
    if (!status) *handle = made;
    return status;
}

tinkey_status tinkey_opening_new(tinkey_streaming *keys, const void *ad, size_t ad_len, tinkey_opening **handle) {
    void *made = NULL;
    tinkey_status status = handle ? begin(keys, OPENING, tinkey_core_stream_begin_opening, ad, ad_len, &made)
                                  : TINKEY_BAD_CALL;
    if (!status) *handle = made;
    return status;
}

void tinkey_sealing_free(tinkey_sealing *handle) { let_go((struct handle *)handle); }
void tinkey_opening_free(tinkey_opening *handle) { let_go((struct handle *)handle); }

#define STEPS(work, kind, core)                                                                                     \
    static int32_t work##_more(struct shared_keys *stream, const uint8_t *bytes, size_t len, const uint8_t *none,   \
                               size_t no_len, uint8_t *out, size_t room, size_t *size) {                            \
        (void)none;                                                                                                 \
        (void)no_len;                                                                                               \
        return core(stream, bytes, len, out, room, size);                                                           \
    }                                                                                                               \
    static int32_t work##_end(struct shared_keys *stream, const uint8_t *none, size_t no_len, const uint8_t *empty, \
                              size_t empty_len, uint8_t *out, size_t room, size_t *size) {                          \
        (void)none;                                                                                                 \
        (void)no_len;                                                                                               \
        (void)empty;                                                                                                \
        (void)empty_len;                                                                                            \
        return core##_last(stream, out, room, size);                                                                \
    }                                                                                                               \
    tinkey_status tinkey_##work##_update(tinkey_##work *handle, const void *bytes, size_t len, void *out,           \
                                         size_t out_room, size_t *out_len) {                                        \
        struct call call = {bytes, NULL, len, 0, out, out_room, out_room, out_len, false};                          \
        return run(handle, kind, work##_more, &call);                                                               \
    }                                                                                                               \
    tinkey_status tinkey_##work##_finish(tinkey_##work *handle, void *out, size_t out_room, size_t *out_len) {      \
        struct call call = {NULL, NULL, 0, 0, out, out_room, out_room, out_len, true};                              \
        return run(handle, kind, work##_end, &call);                                                                \
    }                                                                                                               \
    size_t tinkey_##work##_waiting(tinkey_##work *handle) { return waiting((struct handle *)handle, kind); }

/* How many bytes of a stream are kept for want of room: none once it is over, when no call gives them any more. */
static size_t waiting(struct handle *handle, enum kind kind) {
    if (!handle || handle->kind != kind) return 0;
    int before = errno;
    pthread_mutex_lock(&handle->one_call);
    size_t count = handle->is_over ? 0 : tinkey_core_stream_waiting(&handle->keys);
    pthread_mutex_unlock(&handle->one_call);
    errno = before;
    return count;
}

STEPS(sealing, SEALING, tinkey_core_stream_seal)
STEPS(opening, OPENING, tinkey_core_stream_open)

/* ---- Passes over a stream: what a caller reads is taken, and what it gives is written, in one buffer each. */

struct pass {
    tinkey_reader *read;
    tinkey_writer *write;
    void *reading, *writing;
    uint8_t *piece, *out;
    size_t room;
};

/* One step of a stream, the last one with no bytes. Where the room is too small, the bytes were taken, and what is kept
 * is asked for again. */
static tinkey_status step(struct pass *pass, struct handle *stream, worker *core, size_t len, size_t *made) {
    struct call call = {pass->piece, NULL, len, 0, pass->out, pass->room, pass->room, made, !len};
    tinkey_status status = run(stream, stream->kind, core, &call);
    if (status != TINKEY_NO_ROOM) return status;
    size_t room = waiting(stream, stream->kind);
    uint8_t *larger = realloc(pass->out, room);
    if (!larger) return TINKEY_NO_MEMORY;
    pass->out = larger;
    pass->room = room;
    call = (struct call){NULL, NULL, 0, 0, larger, room, room, made, !len};
    return run(stream, stream->kind, core, &call);
}

static tinkey_status go_through(struct pass *pass, struct handle *stream, worker *more, worker *last) {
    for (;;) {
        ptrdiff_t got = pass->read(pass->reading, pass->piece, PIECE);
        if (got < 0 || got > PIECE) return TINKEY_CALLBACK;
        size_t made = 0;
        tinkey_status status = step(pass, stream, got ? more : last, (size_t)got, &made);
        if (status) return status;
        if (made && pass->write(pass->writing, pass->out, made)) return TINKEY_CALLBACK;
        if (!got) return TINKEY_OK;
    }
}

static tinkey_status pass_through(void *stream, worker *more, worker *last, tinkey_reader *read, void *reading,
                                  tinkey_writer *write, void *writing) {
    struct pass pass = {read, write, reading, writing, malloc(PIECE), malloc(PIECE_ROOM), PIECE_ROOM};
    tinkey_status status = pass.piece && pass.out ? go_through(&pass, stream, more, last) : TINKEY_NO_MEMORY;
    free(pass.piece);
    free(pass.out);
    return status;
}

tinkey_status tinkey_stream_seal(tinkey_streaming *keys, const void *ad, size_t ad_len, tinkey_reader *read,
                                 void *reading, tinkey_writer *write, void *writing) {
    tinkey_sealing *sealing = NULL;
    if (!read || !write) return TINKEY_BAD_CALL;
    tinkey_status status = tinkey_sealing_new(keys, ad, ad_len, &sealing);
    if (!status) status = pass_through(sealing, sealing_more, sealing_end, read, reading, write, writing);
    tinkey_sealing_free(sealing);
    return status;
}

tinkey_status tinkey_stream_open(tinkey_streaming *keys, const void *ad, size_t ad_len, tinkey_reader *read,
                                 void *reading, tinkey_writer *write, void *writing) {
    tinkey_opening *opening = NULL;
    if (!read || !write) return TINKEY_BAD_CALL;
    tinkey_status status = tinkey_opening_new(keys, ad, ad_len, &opening);
    if (!status) status = pass_through(opening, opening_more, opening_end, read, reading, write, writing);
    tinkey_opening_free(opening);
    return status;
}

const char *tinkey_status_text(tinkey_status status) {
    switch (status) {
    case TINKEY_OK: return "done";
    case TINKEY_REFUSED:
        return "no key opens the bytes with this associated data, the tag isn't the body's, or the stream isn't whole";
    case TINKEY_NO_KEYSET: return "the text isn't a keyset in this form, or what was encrypted isn't a keyset";
    case TINKEY_UNFIT_KEY: return "an ENABLED key of the keyset can't serve for the primitive";
    case TINKEY_OTHER_PRIMITIVE: return "the handle is for another primitive";
    case TINKEY_NO_ROOM: return "the output is shorter than the answer; a stream keeps the answer";
    case TINKEY_TOO_LONG:
        return "an input of a call has more than 2^30 bytes, an encrypted keyset more than 4,194,304 or its master "
               "more than 1,048,576, the key derives fewer bytes, or a stream has more than 2^32 segments";
    case TINKEY_NO_RANDOM: return "the system gives no random bytes";
    case TINKEY_NO_MEMORY: return "memory was refused";
    case TINKEY_BAD_CALL:
        return "a null pointer, a length over PTRDIFF_MAX, an unknown form, or an output that overlaps something else";
    case TINKEY_OLD_PROCESSOR: return "the processor lacks what the library is built for";
    case TINKEY_NO_MASTER: return "the text of the master isn't a keyset in this form";
    case TINKEY_UNFIT_MASTER: return "an ENABLED key of the master can't serve as an AEAD";
    case TINKEY_NO_WRAPPED: return "the text isn't an encrypted keyset in this form";
    case TINKEY_ENDED: return "the stream has ended, or a call of it has failed";
    case TINKEY_CALLBACK: return "a function of the program for reading or writing failed";
    }
    return "no such status";
}
