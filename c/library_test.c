/* What tools/library runs: lines of calls on standard input, each answered by a line; and what a caller can do wrong.
 *
 *     library_test         a line is CALL FORM KEYSET FIRST SECOND ROOM, bytes in hexadecimal and - for none, where
 *                          FORM is json or binary, and ROOM may be - for what the library says, and bytes to derive.
 *                          For an encrypted keyset FORM and KEYSET are two, with a + between them: first those of the
 *                          encrypted text, and then those of its master
 *     library_test count   the same lines, each answered by how many allocations the call asked for, without its handle's
 *     library_test own     calls with null pointers, lengths that are too long, overlap, too little room and handles of
 *                          others, which status comes where several fit, and threads, with an AEAD's keyset in the
 *                          binary form as one such line on standard input
 *     library_test texts   the line of English of each status, each on a line of its own, in the order of their numbers
 *     library_test memory  calls with each of their allocations refused in turn, with a line KEYSET ENCRYPTED: an
 *                          AEAD's keyset in JSON, and a MAC's that is encrypted under it, in JSON too. It is linked
 *                          with --wrap for malloc, calloc and realloc
 *
 * An answer is STATUS BYTES. It is BROKEN where a call that failed has changed its output, or one that was done has
 * changed what stands behind its answer. */
#include <errno.h>
#include <pthread.h>
#include <stdint.h>
#include <stdio.h>
#include <stdlib.h>
#include <string.h>
#include <tinkey.h>

enum { FILL = 0xa5, BEHIND = 16 };

/* How many allocations were asked for, and whether an answer is a count of them. */
static long asked;
static int counts;

static int digit(char c) { return c <= '9' ? c - '0' : c - 'a' + 10; }

static size_t unhex(const char *text, unsigned char **bytes) {
    size_t size = strcmp(text, "-") ? strlen(text) / 2 : 0;
    *bytes = malloc(size ? size : 1);
    if (!*bytes) exit(3);
    for (size_t i = 0; i < size; i++) (*bytes)[i] = (unsigned char)(digit(text[2 * i]) << 4 | digit(text[2 * i + 1]));
    return size;
}

static int is_filled(const unsigned char *bytes, size_t size) {
    for (size_t i = 0; i < size; i++)
        if (bytes[i] != FILL) return 0;
    return 1;
}

#define NEW(primitive, at)                                                                                      \
    (master_word ? tinkey_##primitive##_new_wrapped(keyset, keyset_size, form, master, master_size,             \
                                                    master_form, at)                                            \
     : form      ? tinkey_##primitive##_new_binary(keyset, keyset_size, at)                                     \
                 : tinkey_##primitive##_new(keyset, keyset_size, at))

/* Cuts a word at its +, and gives what is behind it, or NULL. */
static char *behind_plus(char *word) {
    char *plus = strchr(word, '+');
    if (plus) *plus++ = 0;
    return plus;
}

static tinkey_form form_of(const char *word) { return strcmp(word, "binary") ? TINKEY_JSON : TINKEY_BINARY; }

static void answer(char *line) {
    char *words[6], *word = strtok(line, " \n");
    for (int i = 0; i < 6; i++, word = strtok(NULL, " \n")) {
        if (!word) exit(2);
        words[i] = word;
    }
    const char *call = words[0];
    char *form_word = behind_plus(words[1]), *master_word = behind_plus(words[2]);
    tinkey_form form = form_of(words[1]), master_form = form_word ? form_of(form_word) : TINKEY_JSON;
    unsigned char *keyset, *master, *first, *second;
    size_t keyset_size = unhex(words[2], &keyset), m = unhex(words[3], &first), n = unhex(words[4], &second);
    size_t master_size = unhex(master_word ? master_word : "-", &master);
    size_t room = strtoull(words[5], NULL, 10), made = 12345;
    tinkey_aead *aead = NULL;
    tinkey_daead *daead = NULL;
    tinkey_mac *mac = NULL;
    tinkey_prf *prf = NULL;
    tinkey_status status = TINKEY_BAD_CALL;
    int own_room = !strcmp(words[5], "-");
    if (!strcmp(call, "seal") || !strcmp(call, "open")) status = NEW(aead, &aead);
    else if (!strcmp(call, "dseal") || !strcmp(call, "dopen")) status = NEW(daead, &daead);
    else if (!strcmp(call, "tag") || !strcmp(call, "verify")) status = NEW(mac, &mac);
    else if (!strcmp(call, "derive")) status = NEW(prf, &prf);
    else exit(2);
    if (own_room)
        room = !strcmp(call, "seal") ? tinkey_aead_seal_room(m) : !strcmp(call, "dseal") ? tinkey_daead_seal_room(m)
             : !strcmp(call, "tag") ? tinkey_mac_tag_room() : m;
    unsigned char *out = malloc(room + BEHIND);
    if (!out) exit(3);
    memset(out, FILL, room + BEHIND);
    int has_made = 1;
    long before = asked;
    if (!status) {
        if (!strcmp(call, "seal")) status = tinkey_aead_seal(aead, first, m, second, n, out, room, &made);
        else if (!strcmp(call, "open")) status = tinkey_aead_open(aead, first, m, second, n, out, room, &made);
        else if (!strcmp(call, "dseal")) status = tinkey_daead_seal(daead, first, m, second, n, out, room, &made);
        else if (!strcmp(call, "dopen")) status = tinkey_daead_open(daead, first, m, second, n, out, room, &made);
        else if (!strcmp(call, "tag")) status = tinkey_mac_tag(mac, first, m, out, room, &made);
        else if (!strcmp(call, "verify")) status = tinkey_mac_verify(mac, first, m, second, n), has_made = 0;
        else status = tinkey_prf_derive(prf, first, m, out, room), made = status ? 12345 : room;
    }
    long took = asked - before;
    if (!has_made && !status) made = 0;
    if (counts) {
        printf("%ld\n", took);
    } else if (status ? !is_filled(out, room + BEHIND) || made != 12345
               : made > room || !is_filled(out + made, room + BEHIND - made)) {
        printf("BROKEN\n");
    } else {
        printf("%d ", status);
        for (size_t i = 0; !status && i < made; i++) printf("%02x", out[i]);
        if (status || !made) printf("-");
        printf("\n");
    }
    tinkey_aead_free(aead);
    tinkey_daead_free(daead);
    tinkey_mac_free(mac);
    tinkey_prf_free(prf);
    free(keyset);
    free(master);
    free(first);
    free(second);
    free(out);
}

/* ---- What a caller can do wrong. */

static int failed;

#define EXPECT(is)                                                      \
    do {                                                                \
        if (!(is)) {                                                    \
            printf("not so, line %d: %s\n", __LINE__, #is);             \
            failed = 1;                                                 \
        }                                                               \
    } while (0)

static tinkey_aead *shared;

static void *seals_and_opens(void *unused) {
    (void)unused;
    unsigned char sealed[200], opened[200];
    size_t sealed_size, opened_size;
    for (int i = 0; i < 2000; i++)
        if (tinkey_aead_seal(shared, "0123456789abcdef", 16, "ad", 2, sealed, sizeof sealed, &sealed_size)
            || tinkey_aead_open(shared, sealed, sealed_size, "ad", 2, opened, sizeof opened, &opened_size)
            || opened_size != 16 || memcmp(opened, "0123456789abcdef", 16))
            return (void *)1;
    return NULL;
}

enum { LONG = (1 << 30) + 1 };

/* A key of HMAC with SHA-256, tags of 16 bytes and a value of zeros. */
static const char MAC_KEYSET[] =
    "{\"primaryKeyId\": 7, \"key\": [{\"keyData\": {\"typeUrl\": \"type.googleapis.com/google.crypto.tink.HmacKey\","
    " \"value\": \"EgQIAxAQGiAAAAAAAAAAAAAAAAAAAAAAAAAAAAAAAAAAAAAAAAAAAA==\", \"keyMaterialType\": \"SYMMETRIC\"},"
    " \"status\": \"ENABLED\", \"keyId\": 7, \"outputPrefixType\": \"TINK\"}]}";

/* The whole room of an output may overlap nothing, whether it is written or not. */
static void overlapping(tinkey_aead *keys, tinkey_mac *mac) {
    unsigned char out[200], sealed[200], plain[1] = {7};
    size_t made = 7, words[25];
    memset(out, FILL, sizeof out);
    EXPECT(tinkey_aead_seal(keys, out + 5, 1, "b", 1, out, 200, &made) == TINKEY_BAD_CALL);
    EXPECT(tinkey_aead_seal(keys, "a", 1, out, 1, out, 200, &made) == TINKEY_BAD_CALL);
    EXPECT(tinkey_aead_seal(keys, out + 199, 1, "b", 1, out, 200, &made) == TINKEY_BAD_CALL);
    EXPECT(tinkey_aead_seal(keys, "a", 1, out + 199, 1, out, 200, &made) == TINKEY_BAD_CALL);
    EXPECT(tinkey_aead_seal(keys, out, 50, "b", 1, out + 49, 100, &made) == TINKEY_BAD_CALL);
    EXPECT(tinkey_aead_seal(keys, "a", 1, "b", 1, words, sizeof words, words + 24) == TINKEY_BAD_CALL);
    EXPECT(tinkey_aead_seal(keys, words, sizeof words, "b", 1, out, 200, words + 24) == TINKEY_BAD_CALL);
    EXPECT(tinkey_aead_seal(keys, "a", 1, words, sizeof words, out, 200, words) == TINKEY_BAD_CALL);
    EXPECT(tinkey_aead_open(keys, out + 199, 1, "b", 1, out, 200, &made) == TINKEY_BAD_CALL);
    EXPECT(tinkey_daead_seal((tinkey_daead *)keys, out + 199, 1, "b", 1, out, 200, &made) == TINKEY_BAD_CALL);
    EXPECT(tinkey_daead_open((tinkey_daead *)keys, out + 199, 1, "b", 1, out, 200, &made) == TINKEY_BAD_CALL);
    EXPECT(tinkey_mac_tag(mac, out + 199, 1, out, 200, &made) == TINKEY_BAD_CALL);
    EXPECT(tinkey_prf_derive((tinkey_prf *)keys, out + 199, 1, out, 200) == TINKEY_BAD_CALL);
    EXPECT(is_filled(out, sizeof out) && made == 7);
    /* what only stands side by side is taken */
    out[0] = 7;
    EXPECT(tinkey_aead_seal(keys, out, 1, out, 1, out + 1, 199, &made) == TINKEY_OK);
    memcpy(sealed, out + 1, made);
    memset(out, FILL, sizeof out);
    out[199] = 7;
    EXPECT(tinkey_aead_open(keys, sealed, made, out + 199, 1, out, 199, &made) == TINKEY_OK);
    EXPECT(made == 1 && out[0] == plain[0]);
    EXPECT(tinkey_aead_seal(keys, "a", 1, "b", 1, words, 24 * sizeof *words, words + 24) == TINKEY_OK);
    EXPECT(words[24] > 1 && words[24] < 24 * sizeof *words);
}

/* Lengths and rooms over PTRDIFF_MAX are no call, and inputs over 2^30 too long. */
static void huge(const unsigned char *keyset, size_t size, tinkey_aead *keys, tinkey_mac *mac) {
    unsigned char out[200];
    size_t made = 7, over = (size_t)PTRDIFF_MAX + 1;
    tinkey_aead *none = NULL;
    memset(out, FILL, sizeof out);
    for (int i = 0; i < 2; i++, over = SIZE_MAX) {
        EXPECT(tinkey_aead_new(keyset, over, &none) == TINKEY_BAD_CALL);
        EXPECT(tinkey_aead_new_binary(keyset, over, &none) == TINKEY_BAD_CALL);
        EXPECT(tinkey_aead_new_wrapped("{}", over, TINKEY_JSON, keyset, size, TINKEY_BINARY, &none) == TINKEY_BAD_CALL);
        EXPECT(tinkey_aead_new_wrapped("{}", 2, TINKEY_JSON, keyset, over, TINKEY_BINARY, &none) == TINKEY_BAD_CALL);
        EXPECT(tinkey_aead_seal(keys, "a", over, "b", 1, out, 200, &made) == TINKEY_BAD_CALL);
        EXPECT(tinkey_aead_seal(keys, "a", 1, "b", over, out, 200, &made) == TINKEY_BAD_CALL);
        EXPECT(tinkey_aead_seal(keys, "a", 1, "b", 1, out, over, &made) == TINKEY_BAD_CALL);
        EXPECT(tinkey_aead_seal(keys, NULL, 0, NULL, 0, out, over, &made) == TINKEY_BAD_CALL);
        EXPECT(tinkey_aead_open(keys, "a", 1, "b", 1, out, over, &made) == TINKEY_BAD_CALL);
        EXPECT(tinkey_mac_tag(mac, "a", 1, out, over, &made) == TINKEY_BAD_CALL);
        EXPECT(tinkey_mac_verify(mac, "a", over, "b", 1) == TINKEY_BAD_CALL);
        EXPECT(tinkey_mac_verify(mac, "a", 1, "b", over) == TINKEY_BAD_CALL);
        EXPECT(tinkey_prf_derive((tinkey_prf *)keys, "a", 1, out, over) == TINKEY_BAD_CALL);
    }
    EXPECT(tinkey_aead_new(keyset, LONG, &none) == TINKEY_TOO_LONG);
    EXPECT(tinkey_aead_new_binary(keyset, LONG, &none) == TINKEY_TOO_LONG);
    EXPECT(tinkey_aead_seal(keys, "a", LONG, "b", 1, out, 200, &made) == TINKEY_TOO_LONG);
    EXPECT(tinkey_aead_seal(keys, "a", 1, "b", (size_t)1 << 31, out, 200, &made) == TINKEY_TOO_LONG);
    EXPECT(tinkey_aead_open(keys, "a", LONG, "b", 1, out, 200, &made) == TINKEY_TOO_LONG);
    EXPECT(tinkey_mac_tag(mac, "a", LONG, out, 200, &made) == TINKEY_TOO_LONG);
    EXPECT(tinkey_mac_verify(mac, "a", 1, "b", LONG) == TINKEY_TOO_LONG);
    EXPECT(!none && is_filled(out, sizeof out) && made == 7);
}

/* Which status comes where several fit, in the order of the header. */
static void in_order(tinkey_aead *keys, const unsigned char *sealed, size_t size) {
    unsigned char out[200];
    size_t made = 7;
    memset(out, FILL, sizeof out);
    tinkey_daead *other = (tinkey_daead *)keys;
    EXPECT(tinkey_daead_seal(other, NULL, 1, "b", 1, out, 0, &made) == TINKEY_BAD_CALL);
    EXPECT(tinkey_daead_seal(other, out, 1, "b", 1, out, 1, &made) == TINKEY_BAD_CALL);
    EXPECT(tinkey_daead_seal(other, "a", SIZE_MAX, "b", 1, out, 0, &made) == TINKEY_BAD_CALL);
    EXPECT(tinkey_daead_seal(other, "a", LONG, "b", 1, out, 0, &made) == TINKEY_OTHER_PRIMITIVE);
    EXPECT(tinkey_daead_open(other, "a", 1, "b", 1, out, 0, &made) == TINKEY_OTHER_PRIMITIVE);
    EXPECT(tinkey_aead_seal(keys, "a", LONG, "b", 1, out, 0, &made) == TINKEY_TOO_LONG);
    EXPECT(tinkey_aead_open(keys, "a", LONG, "b", 1, out, 0, &made) == TINKEY_TOO_LONG);
    EXPECT(tinkey_aead_open(keys, sealed, size, "b", 1, out, 0, &made) == TINKEY_REFUSED);
    EXPECT(tinkey_aead_open(keys, sealed, size, "ad", 2, out, 3, &made) == TINKEY_NO_ROOM);
    EXPECT(is_filled(out, sizeof out) && made == 7);
    EXPECT(tinkey_aead_open(keys, sealed, size, "ad", 2, out, 4, &made) == TINKEY_OK && made == 4);
}

static void own(char *line) {
    unsigned char *keyset, out[200], again[200], back[200];
    size_t size = unhex(strtok(line, " \n"), &keyset), made = 7, other = 7;
    memset(out, FILL, sizeof out);
    tinkey_aead *keys = (tinkey_aead *)out;
    EXPECT(tinkey_aead_new_binary(NULL, 3, &keys) == TINKEY_BAD_CALL);
    EXPECT(tinkey_aead_new_binary(keyset, size, NULL) == TINKEY_BAD_CALL);
    EXPECT(tinkey_aead_new_binary(NULL, 0, &keys) == TINKEY_NO_KEYSET);
    EXPECT(tinkey_aead_new(keyset, size, &keys) == TINKEY_NO_KEYSET);
    EXPECT(tinkey_aead_new_wrapped(NULL, 3, TINKEY_JSON, keyset, size, TINKEY_BINARY, &keys) == TINKEY_BAD_CALL);
    EXPECT(tinkey_aead_new_wrapped("{}", 2, TINKEY_JSON, NULL, 3, TINKEY_BINARY, &keys) == TINKEY_BAD_CALL);
    EXPECT(tinkey_aead_new_wrapped("{}", 2, (tinkey_form)2, keyset, size, TINKEY_BINARY, &keys) == TINKEY_BAD_CALL);
    EXPECT(tinkey_aead_new_wrapped("{}", 2, TINKEY_JSON, keyset, size, (tinkey_form)-1, &keys) == TINKEY_BAD_CALL);
    EXPECT(tinkey_aead_new_wrapped("{}", 2, TINKEY_JSON, keyset, size, TINKEY_BINARY, NULL) == TINKEY_BAD_CALL);
    EXPECT(tinkey_aead_new_wrapped("{}", 2, TINKEY_JSON, NULL, 0, TINKEY_BINARY, &keys) == TINKEY_NO_MASTER);
    EXPECT(tinkey_aead_new_wrapped("{}", 2, TINKEY_JSON, keyset, size, TINKEY_BINARY, &keys) == TINKEY_REFUSED);
    /* of two faults the earlier step's */
    EXPECT(tinkey_aead_new_wrapped("[]", 2, TINKEY_JSON, NULL, 0, TINKEY_BINARY, &keys) == TINKEY_NO_MASTER);
    EXPECT(tinkey_aead_new_wrapped("[]", 2, TINKEY_JSON, keyset, size, TINKEY_BINARY, &keys) == TINKEY_NO_WRAPPED);
    /* a keyset in clear is no encrypted one, but reads as one */
    EXPECT(tinkey_aead_new_wrapped(keyset, size, TINKEY_BINARY, keyset, size, TINKEY_BINARY, &keys) == TINKEY_REFUSED);
    EXPECT(keys == (tinkey_aead *)out);
    errno = 77;
    EXPECT(tinkey_aead_new_binary(keyset, size, &keys) == TINKEY_OK);
    EXPECT(tinkey_aead_seal(NULL, "a", 1, "b", 1, out, 200, &made) == TINKEY_BAD_CALL);
    EXPECT(tinkey_aead_seal(keys, NULL, 1, "b", 1, out, 200, &made) == TINKEY_BAD_CALL);
    EXPECT(tinkey_aead_seal(keys, "a", 1, NULL, 1, out, 200, &made) == TINKEY_BAD_CALL);
    EXPECT(tinkey_aead_seal(keys, "a", 1, "b", 1, NULL, 200, &made) == TINKEY_BAD_CALL);
    EXPECT(tinkey_aead_seal(keys, "a", 1, "b", 1, out, 200, NULL) == TINKEY_BAD_CALL);
    EXPECT(tinkey_aead_seal(keys, NULL, 0, NULL, 0, NULL, 200, &made) == TINKEY_BAD_CALL);
    EXPECT(is_filled(out, sizeof out) && made == 7);
    EXPECT(tinkey_aead_seal(keys, NULL, 0, NULL, 0, out, sizeof out, &made) == TINKEY_OK);
    EXPECT(tinkey_aead_seal(keys, NULL, 0, NULL, 0, again, 200, &other) == TINKEY_OK);
    EXPECT(made == other && memcmp(out, again, made));
    EXPECT(tinkey_aead_open(keys, out, made, NULL, 0, NULL, 0, &other) == TINKEY_OK && other == 0);
    for (size_t room = 0; room < made; room++) {
        memset(back, FILL, sizeof back);
        EXPECT(tinkey_aead_seal(keys, NULL, 0, NULL, 0, back, room, &other) == TINKEY_NO_ROOM);
        EXPECT(is_filled(back, sizeof back) && other == 0);
    }
    EXPECT(errno == 77);
    EXPECT(tinkey_daead_seal((tinkey_daead *)keys, "a", 1, "b", 1, back, 200, &other) == TINKEY_OTHER_PRIMITIVE);
    EXPECT(tinkey_daead_open((tinkey_daead *)keys, "a", 1, "b", 1, back, 200, &other) == TINKEY_OTHER_PRIMITIVE);
    EXPECT(tinkey_mac_tag((tinkey_mac *)keys, "a", 1, back, 200, &other) == TINKEY_OTHER_PRIMITIVE);
    EXPECT(tinkey_mac_verify((tinkey_mac *)keys, "a", 1, "b", 1) == TINKEY_OTHER_PRIMITIVE);
    EXPECT(tinkey_prf_derive((tinkey_prf *)keys, "a", 1, back, 20) == TINKEY_OTHER_PRIMITIVE);
    EXPECT(is_filled(back, sizeof back) && other == 0);
    tinkey_mac *mac = NULL;
    EXPECT(tinkey_mac_new_binary(keyset, size, &mac) == TINKEY_UNFIT_KEY && !mac);
    EXPECT(tinkey_mac_new(MAC_KEYSET, sizeof MAC_KEYSET - 1, &mac) == TINKEY_OK);
    overlapping(keys, mac);
    huge(keyset, size, keys, mac);
    EXPECT(tinkey_aead_seal(keys, "body", 4, "ad", 2, again, sizeof again, &made) == TINKEY_OK);
    in_order(keys, again, made);
    tinkey_mac_free(mac);
    pthread_t threads[4];
    shared = keys;
    for (int i = 0; i < 4; i++)
        if (pthread_create(threads + i, NULL, seals_and_opens, NULL)) exit(3);
    for (int i = 0; i < 4; i++) {
        void *bad;
        pthread_join(threads[i], &bad);
        EXPECT(!bad);
    }
    tinkey_aead_free(keys);
    tinkey_aead_free(NULL);
    tinkey_daead_free(NULL);
    tinkey_mac_free(NULL);
    tinkey_prf_free(NULL);
    EXPECT(!strcmp(tinkey_status_text((tinkey_status)99), "no such status"));
    free(keyset);
    printf(failed ? "FAILED\n" : "all so\n");
}

/* ---- Memory that is refused. */

/* How many allocations are left before the one that is refused; below 0 none is. */
static long left = -1;
static int was_refused;

static int refuses(void) {
    if (counts) asked++;
    if (left < 0 || left--) return 0;
    was_refused = 1;
    return 1;
}

void *__real_malloc(size_t);
void *__real_calloc(size_t, size_t);
void *__real_realloc(void *, size_t);
void *__wrap_malloc(size_t size) { return refuses() ? NULL : __real_malloc(size); }
void *__wrap_calloc(size_t count, size_t size) { return refuses() ? NULL : __real_calloc(count, size); }
void *__wrap_realloc(void *old, size_t size) { return refuses() ? NULL : __real_realloc(old, size); }

/* A call with its first allocation refused, its second, and so on, up to the one that needs no more of them. */
#define EACH_REFUSED(call, unchanged)                                   \
    for (long n = 0;; n++) {                                            \
        left = n;                                                       \
        was_refused = 0;                                                \
        tinkey_status status = (call);                                  \
        left = -1;                                                      \
        EXPECT(status == (was_refused ? TINKEY_NO_MEMORY : TINKEY_OK)); \
        if (!was_refused) {                                             \
            refusals += n;                                              \
            break;                                                      \
        }                                                               \
        EXPECT(unchanged);                                              \
    }

static void memory(char *line) {
    unsigned char *keyset, *encrypted, out[200], back[200];
    size_t keyset_size = unhex(strtok(line, " \n"), &keyset), encrypted_size = unhex(strtok(NULL, " \n"), &encrypted);
    size_t made = 7, opened = 7;
    long refusals = 0;
    tinkey_aead *aead = NULL;
    tinkey_mac *mac = NULL;
    memset(out, FILL, sizeof out);
    memset(back, FILL, sizeof back);
    EACH_REFUSED(tinkey_aead_new(keyset, keyset_size, &aead), !aead);
    EACH_REFUSED(tinkey_mac_new_wrapped(encrypted, encrypted_size, TINKEY_JSON, keyset, keyset_size, TINKEY_JSON, &mac),
                 !mac);
    EACH_REFUSED(tinkey_aead_seal(aead, "body", 4, "ad", 2, out, 200, &made), is_filled(out, sizeof out) && made == 7);
    EACH_REFUSED(tinkey_aead_open(aead, out, made, "ad", 2, back, 200, &opened),
                 is_filled(back, sizeof back) && opened == 7);
    EXPECT(opened == 4 && !memcmp(back, "body", 4));
    memset(out, FILL, sizeof out);
    made = 7;
    EACH_REFUSED(tinkey_mac_tag(mac, "body", 4, out, 200, &made), is_filled(out, sizeof out) && made == 7);
    EACH_REFUSED(tinkey_mac_verify(mac, out, made, "body", 4), 1);
    tinkey_aead_free(aead);
    tinkey_mac_free(mac);
    free(keyset);
    free(encrypted);
    if (failed) printf("FAILED\n");
    else printf("all so, of %ld\n", refusals);
}

int main(int count, char **words) {
    static char line[1 << 24];
    if (count > 1 && !strcmp(words[1], "texts")) {
        for (int status = TINKEY_OK; status <= TINKEY_CALLBACK; status++)
            printf("%s\n", tinkey_status_text((tinkey_status)status));
        return 0;
    }
    counts = count > 1 && !strcmp(words[1], "count");
    while (fgets(line, sizeof line, stdin)) {
        if (count > 1 && !strcmp(words[1], "own")) own(line);
        else if (count > 1 && !strcmp(words[1], "memory")) memory(line);
        else answer(line);
    }
    return failed;
}
