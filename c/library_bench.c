/* What tools/bench_library runs: a line on standard input names a call, and is answered by the nanoseconds of processor
 * time that one call takes, or by - where this build hasn't the call.
 *
 *     library_bench MILLISECONDS     how long each is timed at least
 *
 *     seal SIZE KEYSET               the library's, under a keyset in the binary form, in hexadecimal
 *     open SIZE KEYSET SEALER        of what the keyset SEALER seals
 *     new SIZE KEYSET                makes a handle and frees it; SIZE isn't used
 *     sseal SIZE KEYSET              one pass over a stream, from memory to memory, under a keyset for streams
 *     sopen SIZE KEYSET
 *     openssl-seal SIZE CIPHER KEY   OpenSSL's, for aes-128-gcm, aes-256-gcm, aes-128-ctr or aes-256-ctr; KEY is the
 *     openssl-open SIZE CIPHER KEY   cipher's, and behind that of a counter mode the key of HMAC with SHA-256
 *
 * Keys are prepared before the time begins, IVs are drawn in it, and associated data have 16 bytes. */
#define _POSIX_C_SOURCE 200809L

#include <stdint.h>
#include <stdio.h>
#include <stdlib.h>
#include <string.h>
#include <time.h>
#include <tinkey.h>
#ifdef WITH_OPENSSL
#include <openssl/evp.h>
#include <openssl/params.h>
#include <openssl/rand.h>
#endif

enum { MOST = 1 << 24, MORE = 1 << 18, AD = 16, IV = 16, TAG = 32 };

static unsigned char plain[MOST], sealed[MOST + MORE], out[MOST + MORE], ad[AD];
static size_t size, sealed_size, out_size;

static void must(int is_so, const char *what) {
    if (is_so) return;
    fprintf(stderr, "library_bench: %s\n", what);
    exit(2);
}

static int digit(char c) { return c <= '9' ? c - '0' : c - 'a' + 10; }

static size_t unhex(const char *text, unsigned char **bytes) {
    size_t count = strlen(text) / 2;
    *bytes = malloc(count + 1);
    must(*bytes != NULL, "no memory");
    for (size_t i = 0; i < count; i++) (*bytes)[i] = (unsigned char)(digit(text[2 * i]) << 4 | digit(text[2 * i + 1]));
    return count;
}

static double now(void) {
    struct timespec at;
    clock_gettime(CLOCK_PROCESS_CPUTIME_ID, &at);
    return 1e9 * (double)at.tv_sec + (double)at.tv_nsec;
}

/* Times a call: once untimed, and then twice as often each time until that takes long enough. */
static void timed(void call(void), double least) {
    call();
    for (long count = 1;; count *= 2) {
        double began = now();
        for (long i = 0; i < count; i++) call();
        double took = now() - began;
        if (took >= least) {
            printf("%.0f\n", took / (double)count);
            return;
        }
    }
}

/* ---- The library's calls. */

static unsigned char *keyset;
static size_t keyset_size;
static tinkey_aead *keys;

static tinkey_aead *handle(const unsigned char *text, size_t text_size) {
    tinkey_aead *made = NULL;
    must(tinkey_aead_new_binary(text, text_size, &made) == TINKEY_OK, "a keyset is refused");
    return made;
}

static void seal(void) {
    must(tinkey_aead_seal(keys, plain, size, ad, AD, out, sizeof out, &out_size) == TINKEY_OK, "seal");
}

static void open_sealed(void) {
    must(tinkey_aead_open(keys, sealed, sealed_size, ad, AD, out, sizeof out, &out_size) == TINKEY_OK, "open");
}

static void new_and_free(void) { tinkey_aead_free(handle(keyset, keyset_size)); }

static void library(const char *call, const char *text, const char *sealer, double least) {
    keyset_size = unhex(text, &keyset);
    if (!strcmp(call, "open")) {
        unsigned char *other;
        size_t other_size = unhex(sealer, &other);
        keys = handle(other, other_size);
        must(tinkey_aead_seal(keys, plain, size, ad, AD, sealed, sizeof sealed, &sealed_size) == TINKEY_OK, "seal");
        tinkey_aead_free(keys);
        free(other);
    }
    keys = handle(keyset, keyset_size);
    timed(!strcmp(call, "seal") ? seal : !strcmp(call, "open") ? open_sealed : new_and_free, least);
    tinkey_aead_free(keys);
    free(keyset);
}

/* ---- Its streams. */

/* What is left to read of some bytes, or where more are written. */
struct bytes {
    unsigned char *at;
    size_t left;
};

static tinkey_streaming *stream_keys;

static ptrdiff_t reads(void *state, void *bytes, size_t room) {
    struct bytes *from = state;
    size_t count = from->left < room ? from->left : room;
    memcpy(bytes, from->at, count);
    from->at += count;
    from->left -= count;
    return (ptrdiff_t)count;
}

static int writes(void *state, const void *bytes, size_t len) {
    struct bytes *to = state;
    if (to->left < len) return 1;
    memcpy(to->at, bytes, len);
    to->at += len;
    to->left -= len;
    return 0;
}

static void stream_seal(void) {
    struct bytes from = {plain, size}, to = {sealed, sizeof sealed};
    must(tinkey_stream_seal(stream_keys, ad, AD, reads, &from, writes, &to) == TINKEY_OK, "sseal");
    sealed_size = sizeof sealed - to.left;
}

static void stream_open(void) {
    struct bytes from = {sealed, sealed_size}, to = {out, sizeof out};
    must(tinkey_stream_open(stream_keys, ad, AD, reads, &from, writes, &to) == TINKEY_OK, "sopen");
    out_size = sizeof out - to.left;
}

static void stream(int opens, const char *text, double least) {
    unsigned char *bytes;
    size_t count = unhex(text, &bytes);
    must(tinkey_streaming_new_binary(bytes, count, &stream_keys) == TINKEY_OK, "a keyset for streams is refused");
    if (opens) stream_seal();
    timed(opens ? stream_open : stream_seal, least);
    if (opens) must(out_size == size && !memcmp(out, plain, size), "a stream opens to something else");
    tinkey_streaming_free(stream_keys);
    free(bytes);
}

/* ---- OpenSSL's. */

#ifdef WITH_OPENSSL
static EVP_CIPHER_CTX *cipher;
static EVP_MAC_CTX *mac;
static unsigned char iv[IV], tag[TAG];

static void gcm_seal(void) {
    int part;
    must(RAND_bytes(iv, 12) == 1 && EVP_EncryptInit_ex(cipher, NULL, NULL, NULL, iv) == 1
         && EVP_EncryptUpdate(cipher, NULL, &part, ad, AD) == 1
         && EVP_EncryptUpdate(cipher, sealed, &part, plain, (int)size) == 1
         && EVP_EncryptFinal_ex(cipher, sealed + part, &part) == 1
         && EVP_CIPHER_CTX_ctrl(cipher, EVP_CTRL_AEAD_GET_TAG, 16, tag) == 1, "OpenSSL seals");
}

static void gcm_open(void) {
    int part;
    must(EVP_DecryptInit_ex(cipher, NULL, NULL, NULL, iv) == 1
         && EVP_DecryptUpdate(cipher, NULL, &part, ad, AD) == 1
         && EVP_DecryptUpdate(cipher, out, &part, sealed, (int)size) == 1
         && EVP_CIPHER_CTX_ctrl(cipher, EVP_CTRL_AEAD_SET_TAG, 16, tag) == 1
         && EVP_DecryptFinal_ex(cipher, out + part, &part) == 1, "OpenSSL opens");
}

/* Tink's tag: of the associated data, IV and ciphertext, and the bits of the associated data. */
static void tag_of(unsigned char *into) {
    static const unsigned char bits[8] = {0, 0, 0, 0, 0, 0, 0, 8 * AD};
    size_t made;
    must(EVP_MAC_init(mac, NULL, 0, NULL) == 1 && EVP_MAC_update(mac, ad, AD) == 1 && EVP_MAC_update(mac, iv, IV) == 1
         && EVP_MAC_update(mac, sealed, size) == 1 && EVP_MAC_update(mac, bits, sizeof bits) == 1
         && EVP_MAC_final(mac, into, &made, TAG) == 1, "OpenSSL makes a tag");
}

static void ctr_seal(void) {
    int part;
    must(RAND_bytes(iv, IV) == 1 && EVP_EncryptInit_ex(cipher, NULL, NULL, NULL, iv) == 1
         && EVP_EncryptUpdate(cipher, sealed, &part, plain, (int)size) == 1, "OpenSSL seals");
    tag_of(tag);
}

static void ctr_open(void) {
    int part;
    unsigned char again[TAG];
    tag_of(again);
    must(CRYPTO_memcmp(again, tag, 16) == 0 && EVP_DecryptInit_ex(cipher, NULL, NULL, NULL, iv) == 1
         && EVP_DecryptUpdate(cipher, out, &part, sealed, (int)size) == 1, "OpenSSL opens");
}

static void openssl(const char *call, const char *name, const char *text, double least) {
    unsigned char *key;
    size_t key_size = unhex(text, &key);
    int is_gcm = strstr(name, "gcm") != NULL, opens = !strcmp(call, "openssl-open");
    const EVP_CIPHER *kind = EVP_get_cipherbyname(name);
    EVP_MAC *hmac = EVP_MAC_fetch(NULL, "HMAC", NULL);
    cipher = EVP_CIPHER_CTX_new();
    mac = hmac ? EVP_MAC_CTX_new(hmac) : NULL;
    must(kind && cipher && mac && EVP_EncryptInit_ex(cipher, kind, NULL, key, iv) == 1, "OpenSSL lacks a cipher");
    if (!is_gcm) {
        size_t own = (size_t)EVP_CIPHER_get_key_length(kind);
        OSSL_PARAM sha256[] = {OSSL_PARAM_construct_utf8_string("digest", "SHA256", 0), OSSL_PARAM_END};
        must(key_size > own && EVP_MAC_init(mac, key + own, key_size - own, sha256) == 1, "OpenSSL lacks HMAC");
    }
    (is_gcm ? gcm_seal : ctr_seal)();
    if (opens) must(EVP_DecryptInit_ex(cipher, kind, NULL, key, iv) == 1, "OpenSSL takes no key");
    timed(is_gcm ? (opens ? gcm_open : gcm_seal) : opens ? ctr_open : ctr_seal, least);
    EVP_MAC_CTX_free(mac);
    EVP_MAC_free(hmac);
    EVP_CIPHER_CTX_free(cipher);
    free(key);
}
#endif

int main(int count, char **words) {
    static char line[1 << 20];
    double least = 1e6 * (count == 2 ? strtod(words[1], NULL) : 0);
    must(least > 0, "library_bench MILLISECONDS");
    while (fgets(line, sizeof line, stdin)) {
        char *call = strtok(line, " \n"), *said = strtok(NULL, " \n"), *first = strtok(NULL, " \n");
        char *second = strtok(NULL, " \n");
        must(call && said && first, "a line is too short");
        size = strtoul(said, NULL, 10);
        must(size <= MOST, "a line asks for too many bytes");
        if (!strcmp(call, "sseal") || !strcmp(call, "sopen")) {
            stream(call[1] == 'o', first, least);
        } else if (strncmp(call, "openssl-", 8)) {
            library(call, first, second ? second : first, least);
        } else {
#ifdef WITH_OPENSSL
            must(second != NULL, "a line has no key");
            openssl(call, first, second, least);
#else
            puts("-");
#endif
        }
        fflush(stdout);
    }
    return 0;
}
