/* What tools/library runs beside the C code of docs/LIBRARY.md, which it compiles as a file of its own:
 *
 *     guide_test KEYSET.json STREAMS.json    a stream whose outputs begin with no room, and threads that seal while
 *                                            another one takes up new keysets
 *
 * It prints what isn't so, and at the end FAILED or all so. */
#include <pthread.h>
#include <stdio.h>
#include <stdlib.h>
#include <string.h>
#include <tinkey.h>

tinkey_status seal_piece(tinkey_sealing *stream, const void *piece, size_t len, void **out, size_t *room,
                         size_t *out_len);
tinkey_status seal(const void *plain, size_t plain_len, void *out, size_t room, size_t *out_len);
tinkey_status take_up(const void *json, size_t json_len);

enum { PLAIN = 100000, THREADS = 4, TURNS = 50 };

static int failed;

#define EXPECT(is)                                                      \
    do {                                                                \
        if (!(is)) {                                                    \
            printf("not so, line %d: %s\n", __LINE__, #is);             \
            failed = 1;                                                 \
        }                                                               \
    } while (0)

static size_t read_file(const char *name, char *into, size_t room) {
    FILE *file = fopen(name, "rb");
    if (!file) exit(2);
    size_t size = fread(into, 1, room, file);
    fclose(file);
    return size;
}

/* ---- A stream, handed in by pieces of so many bytes. */

static unsigned char plain[PLAIN], sealed[PLAIN + 4096], opened[PLAIN];

static void stream(tinkey_streaming *keys, size_t piece) {
    tinkey_sealing *sealing = NULL;
    tinkey_opening *opening = NULL;
    void *out = NULL;
    size_t room = 0, made = 0, all = 0;
    EXPECT(tinkey_sealing_new(keys, "ad", 2, &sealing) == TINKEY_OK);
    for (size_t at = 0; at < PLAIN; at += piece, all += made) {
        size_t len = PLAIN - at < piece ? PLAIN - at : piece;
        EXPECT(seal_piece(sealing, plain + at, len, &out, &room, &made) == TINKEY_OK);
        if (made) memcpy(sealed + all, out, made);
    }
    EXPECT(tinkey_sealing_finish(sealing, sealed + all, sizeof sealed - all, &made) == TINKEY_OK);
    all += made;
    EXPECT(tinkey_opening_new(keys, "ad", 2, &opening) == TINKEY_OK);
    EXPECT(tinkey_opening_update(opening, sealed, all, opened, PLAIN, &made) == TINKEY_OK);
    size_t first = made;
    EXPECT(tinkey_opening_finish(opening, opened + first, PLAIN - first, &made) == TINKEY_OK);
    EXPECT(first + made == PLAIN && !memcmp(opened, plain, PLAIN));
    tinkey_sealing_free(sealing);
    tinkey_opening_free(opening);
    free(out);
}

/* ---- A service. */

static char json[65536];
static size_t json_len;

static int is_stopped;
static pthread_mutex_t stopping = PTHREAD_MUTEX_INITIALIZER;

static int stopped(void) {
    pthread_mutex_lock(&stopping);
    int is = is_stopped;
    pthread_mutex_unlock(&stopping);
    return is;
}

/* Seals until it is told to stop, and opens what it sealed by a handle of its own; it counts what differs. */
static void *seals(void *unused) {
    (void)unused;
    size_t bad = 0, sealed_len, opened_len;
    unsigned char out[200], back[200];
    tinkey_aead *keys = NULL;
    if (tinkey_aead_new(json, json_len, &keys)) return (void *)1;
    do {
        if (seal("attack at dawn", 14, out, sizeof out, &sealed_len)
            || tinkey_aead_open(keys, out, sealed_len, NULL, 0, back, sizeof back, &opened_len)
            || opened_len != 14 || memcmp(back, "attack at dawn", 14))
            bad++;
    } while (!stopped());
    tinkey_aead_free(keys);
    return (void *)bad;
}

static void service(void) {
    unsigned char out[200];
    size_t made = 7;
    pthread_t threads[THREADS];
    EXPECT(seal("a", 1, out, sizeof out, &made) == TINKEY_BAD_CALL && made == 7);
    EXPECT(take_up(json, json_len) == TINKEY_OK);
    EXPECT(take_up("{}", 2) == TINKEY_NO_KEYSET);
    for (int i = 0; i < THREADS; i++)
        if (pthread_create(threads + i, NULL, seals, NULL)) exit(3);
    for (int turn = 0; turn < TURNS; turn++) EXPECT(take_up(json, json_len) == TINKEY_OK);
    pthread_mutex_lock(&stopping);
    is_stopped = 1;
    pthread_mutex_unlock(&stopping);
    for (int i = 0; i < THREADS; i++) {
        void *bad;
        pthread_join(threads[i], &bad);
        EXPECT(!bad);
    }
}

int main(int count, char **words) {
    static char streams[65536];
    if (count != 3) return 2;
    json_len = read_file(words[1], json, sizeof json);
    size_t streams_len = read_file(words[2], streams, sizeof streams);
    tinkey_streaming *keys = NULL;
    EXPECT(tinkey_streaming_new(streams, streams_len, &keys) == TINKEY_OK);
    for (size_t i = 0; i < PLAIN; i++) plain[i] = (unsigned char)(i ^ i >> 8);
    for (size_t piece = 1; piece <= PLAIN; piece *= 10) stream(keys, piece);
    tinkey_streaming_free(keys);
    service();
    printf(failed ? "FAILED\n" : "all so\n");
    return failed;
}
