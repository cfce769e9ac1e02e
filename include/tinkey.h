/* libtinkey: Tink's primitives over the keysets of Tink and of tinkey, for programs in C and in what calls C.
 *
 * What is proved. Each call comes to a function of the archive libtinkey_c.a, which is proved against its contract
 * in Rattle. The contract says what the call answers over the keyset in the text that the handle was made of, as for a
 * call that is given the keyset each time; which status comes when; and that nothing is written where the status
 * isn't TINKEY_OK.
 *
 * What isn't. The layer between, c/tinkey.c, draws the random bytes, tests pointers, lengths and overlap, and has calls
 * of one handle run one at a time. It is read and tested, and no proof covers it; neither does one cover the compilers
 * and the C library. What a caller owes is said below, and can't be tested here.
 *
 * What a caller owes. A handle is one that a `new` call gave and that `free` wasn't called with, and no other call runs
 * on it while `free` does. A pointer and a length name memory that is the caller's for the length of the call. The
 * handler of a signal makes no call, and the functions that a pass over a stream calls return to it.
 *
 * Handles. Calls on one handle may come from any thread; they run one at a time, so give each busy thread a handle of
 * its own. Random bytes are drawn from the system for each call and never kept, so that a process and its forked child
 * don't use the same ones. The forked child of a process with threads makes its own handles.
 *
 * Outputs. `out` has room for `out_room` bytes, and `*out_len` says how many were written. If the status isn't
 * TINKEY_OK, `out`, `*out_len` and `*handle` are as they were. The whole room of `out`, however much of it is written,
 * may overlap neither an input nor `*out_len`, and `*out_len` no input. `errno` is kept, but for what the functions of a
 * pass do with it. While tinkey_aead_seal runs, the plaintext stands in `out` until the ciphertext replaces it, so nobody
 * else should read that memory meanwhile.
 *
 * Lengths. A pointer may be NULL where its length or room is 0. A length or room is at most PTRDIFF_MAX. Of an input
 * that a call takes whole, 2^30 bytes are the most; a stream has no such limit: neither its pieces, nor its associated
 * data, nor all of it.
 *
 * Which status. Where several fit, it is the first in this order:
 *
 *     1. TINKEY_BAD_CALL, by pointers, lengths, rooms, forms and overlap
 *     2. TINKEY_OLD_PROCESSOR, where keys are made
 *     3. TINKEY_OTHER_PRIMITIVE, by the handle
 *     4. TINKEY_TOO_LONG, by the lengths of the inputs, and TINKEY_ENDED, of a stream
 *     5. why there is no answer: the other statuses, in the order of each call below
 *     6. TINKEY_NO_ROOM, since only an answer has a length: too little room for bytes that no key opens is
 *        TINKEY_REFUSED
 *
 * TINKEY_NO_RANDOM and TINKEY_NO_MEMORY may come at any time after the first. */
#ifndef TINKEY_H
#define TINKEY_H

#include <stddef.h>

#ifdef __cplusplus
extern "C" {
#endif

#if defined(__GNUC__)
#define TINKEY_CHECKED __attribute__((warn_unused_result))
#else
#define TINKEY_CHECKED
#endif

typedef enum tinkey_status {
    TINKEY_OK = 0,              /* done */
    TINKEY_REFUSED = 1,         /* no key opens the bytes with this associated data, the tag isn't the body's, or the
                                   stream isn't whole */
    TINKEY_NO_KEYSET = 2,       /* the text isn't a keyset in this form, or what was encrypted isn't a keyset */
    TINKEY_UNFIT_KEY = 3,       /* an ENABLED key of the keyset can't serve for the primitive */
    TINKEY_OTHER_PRIMITIVE = 4, /* the handle is for another primitive */
    TINKEY_NO_ROOM = 5,         /* the output is shorter than the answer; a stream keeps the answer */
    TINKEY_TOO_LONG = 6,        /* an input of a call has more than 2^30 bytes, an encrypted keyset more than
                                   4,194,304 or its master more than 1,048,576, the key derives fewer bytes, or a
                                   stream has more than 2^32 segments */
    TINKEY_NO_RANDOM = 7,       /* the system gives no random bytes */
    TINKEY_NO_MEMORY = 8,       /* memory was refused */
    TINKEY_BAD_CALL = 9,        /* a null pointer, a length over PTRDIFF_MAX, an unknown form, or an output that
                                   overlaps something else */
    TINKEY_OLD_PROCESSOR = 10,  /* the processor lacks what the library is built for */
    TINKEY_NO_MASTER = 11,      /* the text of the master isn't a keyset in this form */
    TINKEY_UNFIT_MASTER = 12,   /* an ENABLED key of the master can't serve as an AEAD */
    TINKEY_NO_WRAPPED = 13,     /* the text isn't an encrypted keyset in this form */
    TINKEY_ENDED = 14,          /* the stream has ended, or a call of it has failed */
    TINKEY_CALLBACK = 15        /* a function of the program for reading or writing failed */
} tinkey_status;

/* A line of English for a status: what stands behind it above. */
const char *tinkey_status_text(tinkey_status status);

/* The keys of a keyset, each checked and prepared once, for one primitive. */
typedef struct tinkey_aead tinkey_aead;
typedef struct tinkey_daead tinkey_daead;
typedef struct tinkey_mac tinkey_mac;
typedef struct tinkey_prf tinkey_prf;
typedef struct tinkey_streaming tinkey_streaming;

/* A stream that is being sealed, and one that is being opened. Its handle owns what it needs, so that the keys may be
 * freed before it. */
typedef struct tinkey_sealing tinkey_sealing;
typedef struct tinkey_opening tinkey_opening;

/* ---- A handle of a keyset in Tink's JSON, and one of a keyset in the binary form.
 *
 * TINKEY_TOO_LONG, TINKEY_NO_KEYSET, TINKEY_UNFIT_KEY, in this order. The text isn't read afterwards. A keyset that is
 * encrypted gives TINKEY_NO_KEYSET: nothing in it reads as a key.
 *
 * Each ENABLED key has to serve for the primitive of the handle, and one of another kind gives TINKEY_UNFIT_KEY; keys
 * that are DISABLED or DESTROYED may be of any kind. */

TINKEY_CHECKED tinkey_status tinkey_aead_new(const void *json, size_t json_len, tinkey_aead **handle);
TINKEY_CHECKED tinkey_status tinkey_aead_new_binary(const void *bytes, size_t bytes_len, tinkey_aead **handle);
TINKEY_CHECKED tinkey_status tinkey_daead_new(const void *json, size_t json_len, tinkey_daead **handle);
TINKEY_CHECKED tinkey_status tinkey_daead_new_binary(const void *bytes, size_t bytes_len, tinkey_daead **handle);
TINKEY_CHECKED tinkey_status tinkey_mac_new(const void *json, size_t json_len, tinkey_mac **handle);
TINKEY_CHECKED tinkey_status tinkey_mac_new_binary(const void *bytes, size_t bytes_len, tinkey_mac **handle);
TINKEY_CHECKED tinkey_status tinkey_prf_new(const void *json, size_t json_len, tinkey_prf **handle);
TINKEY_CHECKED tinkey_status tinkey_prf_new_binary(const void *bytes, size_t bytes_len, tinkey_prf **handle);
TINKEY_CHECKED tinkey_status tinkey_streaming_new(const void *json, size_t json_len, tinkey_streaming **handle);
TINKEY_CHECKED tinkey_status tinkey_streaming_new_binary(const void *bytes, size_t bytes_len,
                                                         tinkey_streaming **handle);

/* ---- A handle of a keyset that is encrypted under another one, its master: Tink's `EncryptedKeyset`, of at most
 * 4,194,304 bytes, as Tink and `tinkey wrap-keyset` write it, and the master in clear, of at most 1,048,576. Each
 * text is in one of two forms. The master's keys are let go before the call returns.
 *
 * TINKEY_TOO_LONG first, and then, by the first step that fails: TINKEY_NO_MASTER, TINKEY_UNFIT_MASTER,
 * TINKEY_NO_WRAPPED, TINKEY_REFUSED, TINKEY_NO_KEYSET, TINKEY_UNFIT_KEY.
 *
 * TINKEY_REFUSED says that no key of the master opens the encrypted bytes. So a keyset in clear gives it, and not
 * TINKEY_NO_WRAPPED: unknown members and fields are passed over, so it reads as an encrypted keyset whose encrypted
 * bytes are missing (in JSON) or are one of its keys (in the binary form). */

typedef enum tinkey_form { TINKEY_JSON = 0, TINKEY_BINARY = 1 } tinkey_form;

TINKEY_CHECKED tinkey_status tinkey_aead_new_wrapped(const void *encrypted, size_t encrypted_len, tinkey_form form,
                                                     const void *master, size_t master_len, tinkey_form master_form,
                                                     tinkey_aead **handle);
TINKEY_CHECKED tinkey_status tinkey_daead_new_wrapped(const void *encrypted, size_t encrypted_len, tinkey_form form,
                                                      const void *master, size_t master_len, tinkey_form master_form,
                                                      tinkey_daead **handle);
TINKEY_CHECKED tinkey_status tinkey_mac_new_wrapped(const void *encrypted, size_t encrypted_len, tinkey_form form,
                                                    const void *master, size_t master_len, tinkey_form master_form,
                                                    tinkey_mac **handle);
TINKEY_CHECKED tinkey_status tinkey_prf_new_wrapped(const void *encrypted, size_t encrypted_len, tinkey_form form,
                                                    const void *master, size_t master_len, tinkey_form master_form,
                                                    tinkey_prf **handle);
TINKEY_CHECKED tinkey_status tinkey_streaming_new_wrapped(const void *encrypted, size_t encrypted_len, tinkey_form form,
                                                          const void *master, size_t master_len,
                                                          tinkey_form master_form, tinkey_streaming **handle);

/* Lets a handle go. NULL is let be. */
void tinkey_aead_free(tinkey_aead *handle);
void tinkey_daead_free(tinkey_daead *handle);
void tinkey_mac_free(tinkey_mac *handle);
void tinkey_prf_free(tinkey_prf *handle);
void tinkey_streaming_free(tinkey_streaming *handle);
void tinkey_sealing_free(tinkey_sealing *handle);
void tinkey_opening_free(tinkey_opening *handle);

/* ---- The room that an output needs at the most; SIZE_MAX where that is more than a size_t holds. */

size_t tinkey_aead_seal_room(size_t plain_len);
size_t tinkey_aead_open_room(size_t sealed_len);
size_t tinkey_daead_seal_room(size_t plain_len);
size_t tinkey_daead_open_room(size_t sealed_len);
size_t tinkey_mac_tag_room(void);

/* ---- Authenticated encryption with associated data. */

/* Seals under the primary key with a fresh IV: the key's output prefix, IV, ciphertext and tag. */
TINKEY_CHECKED tinkey_status tinkey_aead_seal(tinkey_aead *handle, const void *plain, size_t plain_len,
                                              const void *ad, size_t ad_len,
                                              void *out, size_t out_room, size_t *out_len);

/* Opens what an ENABLED key of the keyset sealed. TINKEY_REFUSED comes exactly where none opens it. */
TINKEY_CHECKED tinkey_status tinkey_aead_open(tinkey_aead *handle, const void *sealed, size_t sealed_len,
                                              const void *ad, size_t ad_len,
                                              void *out, size_t out_room, size_t *out_len);

/* ---- The same without an IV: equal plaintexts with equal associated data have equal sealed bytes. */

TINKEY_CHECKED tinkey_status tinkey_daead_seal(tinkey_daead *handle, const void *plain, size_t plain_len,
                                               const void *ad, size_t ad_len,
                                               void *out, size_t out_room, size_t *out_len);
TINKEY_CHECKED tinkey_status tinkey_daead_open(tinkey_daead *handle, const void *sealed, size_t sealed_len,
                                               const void *ad, size_t ad_len,
                                               void *out, size_t out_room, size_t *out_len);

/* ---- Message authentication. */

/* The tag under the primary key, behind its output prefix. */
TINKEY_CHECKED tinkey_status tinkey_mac_tag(tinkey_mac *handle, const void *body, size_t body_len,
                                            void *out, size_t out_room, size_t *out_len);

/* TINKEY_OK where the whole tag is the body's under an ENABLED key, and TINKEY_REFUSED where it isn't. */
TINKEY_CHECKED tinkey_status tinkey_mac_verify(tinkey_mac *handle, const void *tag, size_t tag_len,
                                               const void *body, size_t body_len);

/* ---- Pseudo-random functions. */

/* Derives `count` bytes from the input under the primary key. TINKEY_TOO_LONG where it gives fewer. */
TINKEY_CHECKED tinkey_status tinkey_prf_derive(tinkey_prf *handle, const void *input, size_t input_len,
                                               void *out, size_t count);

/* ---- Streams: Tink's streaming AEADs, AES-GCM-HKDF and AES-CTR-HMAC, of any length.
 *
 * A stream takes its input in pieces of any size, by `update`, and then `finish`. What these calls write, one after
 * another, is the stream of the whole plaintext, or the plaintext of the whole stream, however the input was cut.
 *
 * What is held back. A segment is written once a byte follows it. So `update` holds back up to a whole segment of its
 * input for later calls, and one with few bytes may write none. The last segment comes out of `finish` alone: without
 * it the end of the plaintext is missing, and nobody opens the stream to its end. The first call of a sealing writes
 * the stream's header as well.
 *
 * Room. With segments of S bytes, tags of T among them, a call writes at most so many bytes, with quotients rounded
 * down:
 *
 *                                to seal                      to open
 *     `update` with N bytes      (N / (S - T) + 1) * S        (N / S + 1) * (S - T)
 *     `finish`                   S                            S - T
 *
 * In Tink's templates S is 4,096 or 1,048,576, and T is 16 for AES-GCM-HKDF and 32 for AES-CTR-HMAC. What waits comes
 * on top of that.
 *
 * TINKEY_NO_ROOM is answered in another way than elsewhere: the input was taken, and what it gives is kept. `waiting`
 * says how many bytes that are, and another `update` with no input, or another `finish`, writes all of them. `out` and
 * `*out_len` are as they were meanwhile, as after every other status than TINKEY_OK. From its beginning on, the header
 * of a sealing waits.
 *
 * What `update` of an opening has written is authenticated: no byte of a segment is written before the segment has
 * authenticated in its place, and a byte follows it or `finish` was called. Only `finish` says that the stream is
 * whole, with TINKEY_OK: a stream that was cut off anywhere is refused there. TINKEY_REFUSED comes from `update` as
 * soon as the bytes decide it.
 *
 * A stream is over after the TINKEY_OK of `finish`, and after TINKEY_REFUSED, TINKEY_TOO_LONG (a stream has at most
 * 2^32 segments) and TINKEY_NO_MEMORY. Then `waiting` is 0, and what waited until a failure is never written. After a
 * failure every call answers TINKEY_ENDED: plaintext that was written by then is right, and isn't all. After the end
 * `update` answers TINKEY_ENDED, and another `finish` writes nothing. */

/* Begins to seal a stream under the primary key, with a fresh salt and nonce prefix. */
TINKEY_CHECKED tinkey_status tinkey_sealing_new(tinkey_streaming *keys, const void *ad, size_t ad_len,
                                                tinkey_sealing **handle);
TINKEY_CHECKED tinkey_status tinkey_sealing_update(tinkey_sealing *handle, const void *plain, size_t plain_len,
                                                   void *out, size_t out_room, size_t *out_len);
TINKEY_CHECKED tinkey_status tinkey_sealing_finish(tinkey_sealing *handle, void *out, size_t out_room,
                                                   size_t *out_len);
/* How many bytes are kept for want of room. */
size_t tinkey_sealing_waiting(tinkey_sealing *handle);

/* Begins to open a stream under the first ENABLED key that opens its first segment. */
TINKEY_CHECKED tinkey_status tinkey_opening_new(tinkey_streaming *keys, const void *ad, size_t ad_len,
                                                tinkey_opening **handle);
TINKEY_CHECKED tinkey_status tinkey_opening_update(tinkey_opening *handle, const void *sealed, size_t sealed_len,
                                                   void *out, size_t out_room, size_t *out_len);
TINKEY_CHECKED tinkey_status tinkey_opening_finish(tinkey_opening *handle, void *out, size_t out_room,
                                                   size_t *out_len);
size_t tinkey_opening_waiting(tinkey_opening *handle);

/* Reads at most `room` bytes into `bytes`, and says how many: 0 only at the end, and a negative number where reading
 * failed. Writes all of the bytes, and answers 0, or another number where writing failed. `state` is what the caller
 * of the pass gave. They may call the library. */
typedef ptrdiff_t tinkey_reader(void *state, void *bytes, size_t room);
typedef int tinkey_writer(void *state, const void *bytes, size_t len);

/* One pass: seals what is read and writes the stream, or opens the stream that is read and writes its plaintext. It is
 * a loop in C over the calls above, so no proof covers it. TINKEY_CALLBACK where reading or writing failed. What was
 * written where the status isn't TINKEY_OK is a part of the answer, and to be thrown away. */
TINKEY_CHECKED tinkey_status tinkey_stream_seal(tinkey_streaming *keys, const void *ad, size_t ad_len,
                                                tinkey_reader *read, void *reading,
                                                tinkey_writer *write, void *writing);
TINKEY_CHECKED tinkey_status tinkey_stream_open(tinkey_streaming *keys, const void *ad, size_t ad_len,
                                                tinkey_reader *read, void *reading,
                                                tinkey_writer *write, void *writing);

#ifdef __cplusplus
}
#endif
#endif
