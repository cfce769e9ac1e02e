/* What tools/library runs over streams: lines on standard input, each answered by a line; and what a caller can do
 * wrong.
 *
 *     stream_test          a line is CALL FORM KEYSET INPUT AD PIECE RANDOM, bytes in hexadecimal and - for none. CALL
 *                          is open or seal, or pass_open or pass_seal for one pass by callbacks. FORM is json or binary,
 *                          and for an encrypted keyset FORM and KEYSET are two, with a + between them: first those of
 *                          the encrypted text, and then those of its master. PIECE is how many bytes are handed in at
 *                          once, and RANDOM is what getrandom gives. Each output first has no room, then a byte too
 *                          little, and then just enough
 *     stream_test own      null pointers, lengths that are too long, overlap, handles of others, what waits, calls
 *                          behind the end, and callbacks that fail, with a line KEYSET STREAM PLAIN: a stream's keyset
 *                          in the binary form, and a stream of two segments or more without associated data
 *     stream_test memory   calls with each of their allocations refused in turn, with a line KEYSET STREAM
 *
 * It is linked with --wrap for malloc, calloc, realloc and getrandom. An answer is STATUS BYTES, with the bytes that
 * were given before a refusal too. It is BROKEN where a call that failed has changed its output, or one that was done
 * has changed what stands behind its answer. */
#include <errno.h>
#include <stdint.h>
#include <stdio.h>
#include <stdlib.h>
#include <string.h>
#include <sys/types.h>
#include <tinkey.h>

enum { FILL = 0xa5, BEHIND = 16 };

static int failed;

#define EXPECT(is)                                                      \
    do {                                                                \
        if (!(is)) {                                                    \
            printf("not so, line %d: %s\n", __LINE__, #is);             \
            failed = 1;                                                 \
        }                                                               \
    } while (0)

/* ---- What the system gives. */

static const unsigned char *given_random;
static size_t random_left;

ssize_t __real_getrandom(void *, size_t, unsigned);
ssize_t __wrap_getrandom(void *out, size_t len, unsigned flags) {
    if (!given_random) return __real_getrandom(out, len, flags);
    size_t count = len < random_left ? len : random_left;
    memset(out, 0, len);
    memcpy(out, given_random, count);
    given_random += count;
    random_left -= count;
    return (ssize_t)len;
}

/* How many allocations are left before the one that is refused; below 0 none is. */
static long left = -1;
static int was_refused;

static int refuses(void) {
    if (left < 0 || left--) return 0;
    was_refused = 1;
    return 1;
}

void *__real_malloc(size_t);
void *__real_calloc(size_t, size_t);
void *__real_realloc(void *, size_t);
void *__wrap_malloc(size_t size) { return refuses() ? NULL : __real_malloc(size); }
void *__wrap_calloc(size_t count, size_t size) { return refuses() ? NULL : __real_calloc(count, size); }
void *__wrap_realloc(void *old, size_t size) { return refuses() ? NULL : __real_realloc(old, size); }

/* ---- Bytes. */

struct bytes {
    unsigned char *at;
    size_t size;
};

static int digit(char c) { return c <= '9' ? c - '0' : c - 'a' + 10; }

static struct bytes unhex(const char *text) {
    size_t size = strcmp(text, "-") ? strlen(text) / 2 : 0;
    struct bytes made = {malloc(size ? size : 1), size};
    if (!made.at) exit(3);
    for (size_t i = 0; i < size; i++) made.at[i] = (unsigned char)(digit(text[2 * i]) << 4 | digit(text[2 * i + 1]));
    return made;
}

static void append(struct bytes *all, const void *more, size_t size) {
    if (!size) return;
    all->at = realloc(all->at, all->size + size);
    if (!all->at) exit(3);
    memcpy(all->at + all->size, more, size);
    all->size += size;
}

static int is_filled(const unsigned char *bytes, size_t size) {
    for (size_t i = 0; i < size; i++)
        if (bytes[i] != FILL) return 0;
    return 1;
}

/* ---- Streams in pieces. */

struct stream {
    tinkey_sealing *sealing;
    tinkey_opening *opening;
    int is_broken;
};

static tinkey_status call(struct stream *of, int ends, const void *in, size_t size, void *out, size_t room,
                          size_t *made) {
    if (of->sealing)
        return ends ? tinkey_sealing_finish(of->sealing, out, room, made)
                    : tinkey_sealing_update(of->sealing, in, size, out, room, made);
    return ends ? tinkey_opening_finish(of->opening, out, room, made)
                : tinkey_opening_update(of->opening, in, size, out, room, made);
}

/* A call with an output of just this room, and bytes behind it that aren't to change. */
static tinkey_status called(struct stream *of, int ends, const void *in, size_t size, size_t room, struct bytes *all) {
    size_t made = 12345;
    unsigned char *out = malloc(room + BEHIND);
    if (!out) exit(3);
    memset(out, FILL, room + BEHIND);
    tinkey_status status = call(of, ends, in, size, out, room, &made);
    if (status ? !is_filled(out, room + BEHIND) || made != 12345
               : made > room || !is_filled(out + made, room + BEHIND - made))
        of->is_broken = 1;
    if (!status) append(all, out, made);
    free(out);
    return status;
}

/* How many bytes wait. */
static size_t waiting(struct stream *of) {
    return of->sealing ? tinkey_sealing_waiting(of->sealing) : tinkey_opening_waiting(of->opening);
}

/* A step whose output first has no room, then a byte too little, and then just enough. */
static tinkey_status step(struct stream *of, int ends, const void *in, size_t size, struct bytes *all) {
    tinkey_status status = called(of, ends, in, size, 0, all);
    if (status != TINKEY_NO_ROOM) return status;
    size_t room = waiting(of);
    if (!room || called(of, ends, NULL, 0, room - 1, all) != TINKEY_NO_ROOM || waiting(of) != room) of->is_broken = 1;
    status = called(of, ends, NULL, 0, room, all);
    if (waiting(of)) of->is_broken = 1;
    return status;
}

static tinkey_status in_pieces(struct stream *of, struct bytes in, size_t piece, struct bytes *all) {
    tinkey_status status = TINKEY_OK;
    for (size_t at = 0; !status && at < in.size; at += piece)
        status = step(of, 0, in.at + at, in.size - at < piece ? in.size - at : piece, all);
    if (!status) status = step(of, 1, NULL, 0, all);
    /* behind the end, and behind a refusal, before which something may have waited */
    size_t before = all->size;
    if (waiting(of)) of->is_broken = 1;
    tinkey_status again = called(of, 1, NULL, 0, 100, all);
    if (called(of, 0, "more", 4, 100, all) != TINKEY_ENDED || again != (status ? TINKEY_ENDED : TINKEY_OK)
        || all->size != before || waiting(of))
        of->is_broken = 1;
    return status;
}

/* ---- Passes. */

struct reading {
    struct bytes in;
    size_t at, piece, fails_at;
};

static ptrdiff_t reads(void *state, void *bytes, size_t room) {
    struct reading *of = state;
    if (of->at == of->fails_at) return -1;
    size_t count = of->in.size - of->at;
    if (count > of->piece) count = of->piece;
    if (count > room) count = room;
    if (count) memcpy(bytes, of->in.at + of->at, count);
    of->at += count;
    return (ptrdiff_t)count;
}

static int writes(void *state, const void *bytes, size_t len) {
    append(state, bytes, len);
    return 0;
}

static int never_writes(void *state, const void *bytes, size_t len) {
    (void)state;
    (void)bytes;
    (void)len;
    return 1;
}

static ptrdiff_t reads_too_much(void *state, void *bytes, size_t room) {
    (void)state;
    (void)bytes;
    return (ptrdiff_t)room + 1;
}

/* ---- Lines. */

/* Cuts a word at its +, and gives what is behind it, or NULL. */
static char *behind_plus(char *word) {
    char *plus = strchr(word, '+');
    if (plus) *plus++ = 0;
    return plus;
}

static tinkey_form form_of(const char *word) { return strcmp(word, "binary") ? TINKEY_JSON : TINKEY_BINARY; }

static tinkey_status new_keys(char *forms, char *texts, tinkey_streaming **keys) {
    char *form_word = behind_plus(forms), *master_word = behind_plus(texts);
    struct bytes keyset = unhex(texts), master = unhex(master_word ? master_word : "-");
    tinkey_form form = form_of(forms);
    tinkey_status status =
        master_word ? tinkey_streaming_new_wrapped(keyset.at, keyset.size, form, master.at, master.size,
                                                   form_word ? form_of(form_word) : TINKEY_JSON, keys)
        : form      ? tinkey_streaming_new_binary(keyset.at, keyset.size, keys)
                    : tinkey_streaming_new(keyset.at, keyset.size, keys);
    free(keyset.at);
    free(master.at);
    return status;
}

static void answer(char *line) {
    char *words[7], *word = strtok(line, " \n");
    for (int i = 0; i < 7; i++, word = strtok(NULL, " \n")) {
        if (!word) exit(2);
        words[i] = word;
    }
    const char *what = words[0];
    int passes = !strncmp(what, "pass_", 5), seals = !strcmp(what + (passes ? 5 : 0), "seal");
    tinkey_streaming *keys = NULL;
    struct stream of = {NULL, NULL, 0};
    struct bytes in = unhex(words[3]), ad = unhex(words[4]), random = unhex(words[6]), all = {NULL, 0};
    size_t piece = strtoull(words[5], NULL, 10);
    given_random = random.size ? random.at : NULL;
    random_left = random.size;
    tinkey_status status = new_keys(words[1], words[2], &keys);
    if (!status && passes) {
        struct reading from = {in, 0, piece, SIZE_MAX};
        status = seals ? tinkey_stream_seal(keys, ad.at, ad.size, reads, &from, writes, &all)
                       : tinkey_stream_open(keys, ad.at, ad.size, reads, &from, writes, &all);
    } else if (!status) {
        status = seals ? tinkey_sealing_new(keys, ad.at, ad.size, &of.sealing)
                       : tinkey_opening_new(keys, ad.at, ad.size, &of.opening);
        /* a stream needs its keys no more */
        tinkey_streaming_free(keys);
        keys = NULL;
        if (!status) status = in_pieces(&of, in, piece, &all);
    }
    given_random = NULL;
    if (of.is_broken) {
        printf("BROKEN\n");
    } else {
        printf("%d ", status);
        for (size_t i = 0; i < all.size; i++) printf("%02x", all.at[i]);
        if (!all.size) printf("-");
        printf("\n");
    }
    tinkey_sealing_free(of.sealing);
    tinkey_opening_free(of.opening);
    tinkey_streaming_free(keys);
    free(in.at);
    free(ad.at);
    free(random.at);
    free(all.at);
}

/* ---- What a caller can do wrong. */

/* What waits until a stream is over, and that nothing does then: the stream is one of two segments or more. */
static void waits(tinkey_streaming *keys, struct bytes stream, struct bytes plain) {
    unsigned char out[4096];
    size_t made = 7, header = stream.at[0];
    struct stream seals = {NULL, NULL, 0}, opens = {NULL, NULL, 0}, cut = {NULL, NULL, 0}, changed = {NULL, NULL, 0};
    EXPECT(tinkey_sealing_new(keys, NULL, 0, &seals.sealing) == TINKEY_OK);
    EXPECT(tinkey_opening_new(keys, NULL, 0, &opens.opening) == TINKEY_OK);
    EXPECT(tinkey_opening_new(keys, NULL, 0, &cut.opening) == TINKEY_OK);
    EXPECT(tinkey_opening_new(keys, NULL, 0, &changed.opening) == TINKEY_OK);
    /* of a sealing the header waits, and a call for which there is room gives it with its own */
    EXPECT(waiting(&seals) == header && waiting(&opens) == 0);
    EXPECT(call(&seals, 0, NULL, 0, NULL, 0, &made) == TINKEY_NO_ROOM && waiting(&seals) == header);
    EXPECT(call(&seals, 0, plain.at, 1, out, header, &made) == TINKEY_OK && made == header && waiting(&seals) == 0);
    /* the end waits for room too, and meanwhile the stream takes no more */
    EXPECT(call(&seals, 1, NULL, 0, out, 0, &made) == TINKEY_NO_ROOM && waiting(&seals) > 0);
    EXPECT(call(&seals, 0, "more", 4, out, sizeof out, &made) == TINKEY_ENDED && waiting(&seals) > 0);
    EXPECT(call(&seals, 1, NULL, 0, out, sizeof out, &made) == TINKEY_OK && made > 0 && waiting(&seals) == 0);
    EXPECT(call(&seals, 1, NULL, 0, NULL, 0, &made) == TINKEY_OK && made == 0);
    /* the first segment waits until the stream is refused, at its end or by a byte, and for nobody from then on */
    EXPECT(call(&opens, 0, stream.at, stream.size, NULL, 0, &made) == TINKEY_NO_ROOM);
    size_t there = waiting(&opens);
    EXPECT(there > 0 && there < plain.size);
    EXPECT(call(&opens, 1, NULL, 0, NULL, 0, &made) == TINKEY_NO_ROOM && waiting(&opens) == plain.size);
    EXPECT(call(&opens, 1, NULL, 0, out, sizeof out, &made) == TINKEY_OK && made == plain.size);
    EXPECT(!memcmp(out, plain.at, plain.size) && waiting(&opens) == 0);
    EXPECT(call(&cut, 0, stream.at, stream.size - 1, NULL, 0, &made) == TINKEY_NO_ROOM && waiting(&cut) > 0);
    EXPECT(call(&cut, 1, NULL, 0, out, sizeof out, &made) == TINKEY_REFUSED && waiting(&cut) == 0);
    EXPECT(call(&cut, 1, NULL, 0, out, sizeof out, &made) == TINKEY_ENDED && waiting(&cut) == 0);
    unsigned char *other = malloc(stream.size);
    if (!other) exit(3);
    memcpy(other, stream.at, stream.size);
    other[stream.size - 1] ^= 1;
    EXPECT(call(&changed, 0, other, stream.size, NULL, 0, &made) == TINKEY_NO_ROOM && waiting(&changed) == there);
    EXPECT(call(&changed, 1, NULL, 0, NULL, 0, &made) == TINKEY_REFUSED && waiting(&changed) == 0);
    EXPECT(call(&changed, 0, NULL, 0, out, sizeof out, &made) == TINKEY_ENDED && waiting(&changed) == 0);
    free(other);
    tinkey_sealing_free(seals.sealing);
    tinkey_opening_free(opens.opening);
    tinkey_opening_free(cut.opening);
    tinkey_opening_free(changed.opening);
}

static void own(char *line) {
    struct bytes keyset = unhex(strtok(line, " \n")), stream = unhex(strtok(NULL, " \n"));
    struct bytes plain = unhex(strtok(NULL, " \n")), sealed = {NULL, 0}, opened = {NULL, 0};
    unsigned char out[200];
    size_t made = 7;
    memset(out, FILL, sizeof out);
    tinkey_streaming *keys = NULL;
    tinkey_sealing *sealing = NULL;
    tinkey_opening *opening = NULL;
    EXPECT(tinkey_streaming_new_binary(NULL, 3, &keys) == TINKEY_BAD_CALL);
    EXPECT(tinkey_streaming_new_binary(keyset.at, keyset.size, NULL) == TINKEY_BAD_CALL);
    EXPECT(tinkey_streaming_new(keyset.at, keyset.size, &keys) == TINKEY_NO_KEYSET);
    EXPECT(tinkey_streaming_new_binary(keyset.at, SIZE_MAX, &keys) == TINKEY_BAD_CALL);
    EXPECT(tinkey_streaming_new_binary(keyset.at, (size_t)PTRDIFF_MAX + 1, &keys) == TINKEY_BAD_CALL);
    EXPECT(tinkey_streaming_new_binary(keyset.at, ((size_t)1 << 30) + 1, &keys) == TINKEY_TOO_LONG);
    tinkey_aead *aead = NULL;
    EXPECT(tinkey_aead_new_binary(keyset.at, keyset.size, &aead) == TINKEY_UNFIT_KEY && !aead);
    errno = 77;
    EXPECT(!keys && tinkey_streaming_new_binary(keyset.at, keyset.size, &keys) == TINKEY_OK);
    EXPECT(tinkey_sealing_new(NULL, "ad", 2, &sealing) == TINKEY_BAD_CALL);
    EXPECT(tinkey_sealing_new(keys, NULL, 2, &sealing) == TINKEY_BAD_CALL);
    EXPECT(tinkey_sealing_new(keys, "ad", 2, NULL) == TINKEY_BAD_CALL);
    EXPECT(tinkey_sealing_new(keys, "ad", SIZE_MAX, &sealing) == TINKEY_BAD_CALL);
    EXPECT(tinkey_sealing_new(keys, "ad", (size_t)PTRDIFF_MAX + 1, &sealing) == TINKEY_BAD_CALL);
    EXPECT(tinkey_opening_new(NULL, "ad", 2, &opening) == TINKEY_BAD_CALL);
    EXPECT(tinkey_opening_new(keys, "ad", 2, NULL) == TINKEY_BAD_CALL);
    EXPECT(!sealing && tinkey_sealing_new(keys, "ad", 2, &sealing) == TINKEY_OK);
    EXPECT(!opening && tinkey_opening_new(keys, "ad", 2, &opening) == TINKEY_OK);
    EXPECT(tinkey_sealing_update(NULL, "a", 1, out, 200, &made) == TINKEY_BAD_CALL);
    EXPECT(tinkey_sealing_update(sealing, NULL, 1, out, 200, &made) == TINKEY_BAD_CALL);
    EXPECT(tinkey_sealing_update(sealing, "a", 1, NULL, 200, &made) == TINKEY_BAD_CALL);
    EXPECT(tinkey_sealing_update(sealing, "a", 1, out, 200, NULL) == TINKEY_BAD_CALL);
    EXPECT(tinkey_sealing_update(sealing, out + 5, 1, out, 200, &made) == TINKEY_BAD_CALL);
    EXPECT(tinkey_sealing_update(sealing, out + 199, 1, out, 200, &made) == TINKEY_BAD_CALL);
    EXPECT(tinkey_sealing_update(sealing, "a", 1, out, SIZE_MAX, &made) == TINKEY_BAD_CALL);
    EXPECT(tinkey_sealing_update(sealing, "a", 1, out, (size_t)PTRDIFF_MAX + 1, &made) == TINKEY_BAD_CALL);
    EXPECT(tinkey_sealing_update(sealing, "a", SIZE_MAX, out, 200, &made) == TINKEY_BAD_CALL);
    EXPECT(tinkey_sealing_finish(sealing, NULL, 200, &made) == TINKEY_BAD_CALL);
    EXPECT(tinkey_sealing_finish(sealing, out, SIZE_MAX, &made) == TINKEY_BAD_CALL);
    EXPECT(tinkey_opening_update(opening, out + 199, 1, out, 200, &made) == TINKEY_BAD_CALL);
    EXPECT(tinkey_opening_finish(opening, out, (size_t)PTRDIFF_MAX + 1, &made) == TINKEY_BAD_CALL);
    /* handles of others */
    EXPECT(tinkey_sealing_update((tinkey_sealing *)keys, "a", 1, out, 200, &made) == TINKEY_OTHER_PRIMITIVE);
    EXPECT(tinkey_sealing_finish((tinkey_sealing *)opening, out, 200, &made) == TINKEY_OTHER_PRIMITIVE);
    EXPECT(tinkey_opening_update((tinkey_opening *)sealing, "a", 1, out, 200, &made) == TINKEY_OTHER_PRIMITIVE);
    EXPECT(tinkey_aead_seal((tinkey_aead *)keys, "a", 1, "b", 1, out, 200, &made) == TINKEY_OTHER_PRIMITIVE);
    EXPECT(tinkey_sealing_new((tinkey_streaming *)sealing, "ad", 2, &sealing) == TINKEY_OTHER_PRIMITIVE);
    EXPECT(tinkey_sealing_waiting(NULL) == 0 && tinkey_opening_waiting((tinkey_opening *)sealing) == 0);
    EXPECT(tinkey_sealing_update((tinkey_sealing *)keys, out, 1, out, 200, &made) == TINKEY_BAD_CALL);
    EXPECT(is_filled(out, sizeof out) && made == 7 && errno == 77);
    waits(keys, stream, plain);
    /* two streams of one plaintext aren't one */
    struct stream first = {sealing, NULL, 0}, second = {NULL, NULL, 0}, back = {NULL, opening, 0};
    struct bytes text = {(unsigned char *)"attack at dawn", 14}, other = {NULL, 0};
    EXPECT(in_pieces(&first, text, 3, &sealed) == TINKEY_OK);
    EXPECT(tinkey_sealing_new(keys, "ad", 2, &second.sealing) == TINKEY_OK);
    EXPECT(in_pieces(&second, text, 5, &other) == TINKEY_OK);
    EXPECT(sealed.size == other.size && memcmp(sealed.at, other.at, other.size));
    EXPECT(in_pieces(&back, sealed, 11, &opened) == TINKEY_OK);
    EXPECT(opened.size == 14 && !memcmp(opened.at, text.at, 14));
    EXPECT(!first.is_broken && !second.is_broken && !back.is_broken);
    /* callbacks */
    struct reading from = {sealed, 0, 5, SIZE_MAX}, fails = {sealed, 0, 5, 10};
    EXPECT(tinkey_stream_open(keys, "ad", 2, NULL, &from, writes, &opened) == TINKEY_BAD_CALL);
    EXPECT(tinkey_stream_open(keys, "ad", 2, reads, &from, NULL, &opened) == TINKEY_BAD_CALL);
    EXPECT(tinkey_stream_open(keys, "ad", 2, reads, &fails, writes, &opened) == TINKEY_CALLBACK && opened.size == 14);
    EXPECT(tinkey_stream_open(keys, "ad", 2, reads, &from, never_writes, &opened) == TINKEY_CALLBACK);
    EXPECT(tinkey_stream_seal(keys, "ad", 2, reads_too_much, &from, writes, &opened) == TINKEY_CALLBACK);
    EXPECT(tinkey_stream_seal(NULL, "ad", 2, reads, &from, writes, &opened) == TINKEY_BAD_CALL);
    tinkey_sealing_free(first.sealing);
    tinkey_sealing_free(second.sealing);
    tinkey_opening_free(opening);
    tinkey_streaming_free(keys);
    tinkey_sealing_free(NULL);
    tinkey_opening_free(NULL);
    tinkey_streaming_free(NULL);
    free(keyset.at);
    free(stream.at);
    free(plain.at);
    free(sealed.at);
    free(opened.at);
    free(other.at);
    printf(failed ? "FAILED\n" : "all so\n");
}

/* ---- Memory that is refused: after it a stream has ended, and the next try is of a new one. */

static void memory(char *line) {
    struct bytes keyset = unhex(strtok(line, " \n")), sealed = unhex(strtok(NULL, " \n"));
    long refusals = 0;
    for (int opens = 0; opens < 2; opens++)
        for (long n = 0;; n++) {
            tinkey_streaming *keys = NULL;
            struct stream of = {NULL, NULL, 0};
            unsigned char out[4096];
            size_t made = 7;
            memset(out, FILL, sizeof out);
            was_refused = 0;
            left = n;
            tinkey_status status = tinkey_streaming_new_binary(keyset.at, keyset.size, &keys);
            if (!status && opens) status = tinkey_opening_new(keys, NULL, 0, &of.opening);
            else if (!status) status = tinkey_sealing_new(keys, NULL, 0, &of.sealing);
            int has_begun = !status;
            if (!status) status = call(&of, 0, sealed.at, sealed.size, out, sizeof out, &made);
            if (!status) memset(out, FILL, sizeof out), made = 7;
            if (!status) status = call(&of, 1, NULL, 0, out, sizeof out, &made);
            left = -1;
            EXPECT(status == (was_refused ? TINKEY_NO_MEMORY : TINKEY_OK));
            if (was_refused) {
                EXPECT(is_filled(out, sizeof out) && made == 7);
                if (has_begun) EXPECT(waiting(&of) == 0);
                if (has_begun) EXPECT(call(&of, 0, "more", 4, out, sizeof out, &made) == TINKEY_ENDED);
                if (has_begun) EXPECT(call(&of, 1, NULL, 0, out, sizeof out, &made) == TINKEY_ENDED);
            }
            tinkey_sealing_free(of.sealing);
            tinkey_opening_free(of.opening);
            tinkey_streaming_free(keys);
            if (!was_refused) {
                refusals += n;
                break;
            }
        }
    free(keyset.at);
    free(sealed.at);
    if (failed) printf("FAILED\n");
    else printf("all so, of %ld\n", refusals);
}

int main(int count, char **words) {
    static char line[1 << 24];
    while (fgets(line, sizeof line, stdin)) {
        if (count > 1 && !strcmp(words[1], "own")) own(line);
        else if (count > 1 && !strcmp(words[1], "memory")) memory(line);
        else answer(line);
    }
    return failed;
}
