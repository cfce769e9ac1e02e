/* Answers lines of a session by OpenSSL, under one key: what a plain program costs that does the same work as ours.
 * tools/bench_program compiles it, and compares its answers and its times.
 *
 *     lines_openssl session KIND PREFIX KEY [KEY]   answers the lines of standard input, one after the other
 *     lines_openssl CALL KIND PREFIX KEY [KEY]      a call over all of standard input, with no associated data
 *     lines_openssl version                         the version of OpenSSL, and what it takes the processor to have
 *
 * A CALL is seal, open, dseal, dopen, tag or derive, the last one of 16 bytes. KIND is gcm, gcm-siv, eax, ctr-hmac
 * (the second KEY is HMAC's), siv, hmac, cmac or hkdf. PREFIX is the output prefix of the key; it and KEY are
 * hexadecimal, and - is nothing. IVs have 12 bytes for gcm and gcm-siv, and 16 for eax and ctr-hmac; tags have 16. It
 * ends with 3 where OpenSSL lacks the cipher.
 *
 * Keys are prepared once, as ours are, but for siv, whose key OpenSSL takes anew for each text. Random bytes come from
 * the system, 1,024 at a time, as ours do: OpenSSL's own generator takes longer. */
#define _GNU_SOURCE

#include <limits.h>
#include <openssl/core_names.h>
#include <openssl/crypto.h>
#include <openssl/evp.h>
#include <openssl/params.h>
#include <stdio.h>
#include <stdlib.h>
#include <string.h>
#include <sys/random.h>
#include <sys/types.h>

enum { BLOCK = 16, TAG = 16, SHORT_IV = 12, MORE = 64, REFUSED = -1 };

typedef struct {
    unsigned char *at;
    size_t size;
} Bytes;

/* What a call of two arguments gives: how many bytes are in out, or REFUSED. */
typedef ssize_t Call(Bytes first, Bytes second, unsigned char *out);

static EVP_CIPHER_CTX *sealer, *opener;
static EVP_MAC_CTX *mac;
static size_t is_hkdf;
static Bytes prefix, key;

static void must(int is_so, const char *what) {
    if (is_so) return;
    fprintf(stderr, "lines_openssl: %s\n", what);
    exit(2);
}

static void has(const void *it, const char *what) {
    if (it) return;
    fprintf(stderr, "lines_openssl: OpenSSL has no %s\n", what);
    exit(3);
}

static void draw(unsigned char *into, size_t size) {
    static unsigned char ahead[1024];
    static size_t left;
    if (left < size) {
        must(getrandom(ahead, sizeof ahead, 0) == (ssize_t)sizeof ahead, "no random bytes");
        left = sizeof ahead;
    }
    memcpy(into, ahead + sizeof ahead - left, size);
    left -= size;
}

/* ---- The schemes: IV, ciphertext and tag, but for siv. */

static ssize_t aead_seal(Bytes text, Bytes ad, unsigned char *out) {
    int part;
    draw(out, SHORT_IV);
    must(EVP_EncryptInit_ex(sealer, NULL, NULL, NULL, out) == 1
         && (ad.size == 0 || EVP_EncryptUpdate(sealer, NULL, &part, ad.at, (int)ad.size) == 1)
         && EVP_EncryptUpdate(sealer, out + SHORT_IV, &part, text.at, (int)text.size) == 1
         && EVP_EncryptFinal_ex(sealer, out + SHORT_IV + text.size, &part) == 1
         && EVP_CIPHER_CTX_ctrl(sealer, EVP_CTRL_AEAD_GET_TAG, TAG, out + SHORT_IV + text.size) == 1, "seal");
    return (ssize_t)(SHORT_IV + text.size + TAG);
}

static ssize_t aead_open(Bytes sealed, Bytes ad, unsigned char *out) {
    int part;
    if (sealed.size < SHORT_IV + TAG) return REFUSED;
    size_t size = sealed.size - SHORT_IV - TAG;
    must(EVP_DecryptInit_ex(opener, NULL, NULL, NULL, sealed.at) == 1
         && EVP_CIPHER_CTX_ctrl(opener, EVP_CTRL_AEAD_SET_TAG, TAG, sealed.at + SHORT_IV + size) == 1
         && (ad.size == 0 || EVP_DecryptUpdate(opener, NULL, &part, ad.at, (int)ad.size) == 1), "open");
    if (EVP_DecryptUpdate(opener, out, &part, sealed.at + SHORT_IV, (int)size) != 1
        || EVP_DecryptFinal_ex(opener, out + size, &part) != 1) return REFUSED;
    return (ssize_t)size;
}

/* A synthetic IV, which is the tag, and ciphertext. The associated data are one string, also if they are empty. */
static ssize_t siv_seal(Bytes text, Bytes ad, unsigned char *out) {
    int part;
    must(EVP_EncryptInit_ex(sealer, NULL, NULL, key.at, NULL) == 1
         && EVP_EncryptUpdate(sealer, NULL, &part, ad.at, (int)ad.size) == 1
         && EVP_EncryptUpdate(sealer, out + TAG, &part, text.at, (int)text.size) == 1
         && EVP_EncryptFinal_ex(sealer, out + TAG + text.size, &part) == 1
         && EVP_CIPHER_CTX_ctrl(sealer, EVP_CTRL_AEAD_GET_TAG, TAG, out) == 1, "dseal");
    return (ssize_t)(TAG + text.size);
}

static ssize_t siv_open(Bytes sealed, Bytes ad, unsigned char *out) {
    int part;
    if (sealed.size < TAG) return REFUSED;
    size_t size = sealed.size - TAG;
    must(EVP_DecryptInit_ex(opener, NULL, NULL, key.at, NULL) == 1
         && EVP_CIPHER_CTX_ctrl(opener, EVP_CTRL_AEAD_SET_TAG, TAG, sealed.at) == 1
         && EVP_DecryptUpdate(opener, NULL, &part, ad.at, (int)ad.size) == 1, "dopen");
    if (EVP_DecryptUpdate(opener, out, &part, sealed.at + TAG, (int)size) != 1
        || EVP_DecryptFinal_ex(opener, out + size, &part) != 1) return REFUSED;
    return (ssize_t)size;
}

static void counter_mode(const unsigned char *iv, const unsigned char *from, size_t size, unsigned char *to) {
    int part;
    must(EVP_EncryptInit_ex(sealer, NULL, NULL, NULL, iv) == 1
         && EVP_EncryptUpdate(sealer, to, &part, from, (int)size) == 1, "counter mode");
}

/* HMAC or CMAC of some parts, one after the other. */
static void mac_of(const Bytes *parts, size_t count, unsigned char out[EVP_MAX_MD_SIZE]) {
    size_t made;
    must(EVP_MAC_init(mac, NULL, 0, NULL) == 1, "a tag begins");
    for (size_t i = 0; i < count; i++) must(EVP_MAC_update(mac, parts[i].at, parts[i].size) == 1, "a tag goes on");
    must(EVP_MAC_final(mac, out, &made, EVP_MAX_MD_SIZE) == 1, "a tag ends");
}

/* CMAC of a block with this number, and then the bytes. */
static void numbered(int number, Bytes bytes, unsigned char out[EVP_MAX_MD_SIZE]) {
    unsigned char block[BLOCK] = {0};
    block[BLOCK - 1] = (unsigned char)number;
    mac_of((Bytes[]){{block, BLOCK}, bytes}, 2, out);
}

/* EAX's tag: first is the CMAC of the IV, which is also the first counter block. */
static void eax_tag(const unsigned char *first, Bytes ad, Bytes body, unsigned char tag[TAG]) {
    unsigned char second[EVP_MAX_MD_SIZE], third[EVP_MAX_MD_SIZE];
    numbered(1, ad, second);
    numbered(2, body, third);
    for (int i = 0; i < TAG; i++) tag[i] = first[i] ^ second[i] ^ third[i];
}

static ssize_t eax_seal(Bytes text, Bytes ad, unsigned char *out) {
    unsigned char first[EVP_MAX_MD_SIZE];
    Bytes body = {out + BLOCK, text.size};
    draw(out, BLOCK);
    numbered(0, (Bytes){out, BLOCK}, first);
    counter_mode(first, text.at, text.size, body.at);
    eax_tag(first, ad, body, body.at + body.size);
    return (ssize_t)(BLOCK + text.size + TAG);
}

static ssize_t eax_open(Bytes sealed, Bytes ad, unsigned char *out) {
    unsigned char first[EVP_MAX_MD_SIZE], tag[TAG];
    if (sealed.size < BLOCK + TAG) return REFUSED;
    Bytes body = {sealed.at + BLOCK, sealed.size - BLOCK - TAG};
    numbered(0, (Bytes){sealed.at, BLOCK}, first);
    eax_tag(first, ad, body, tag);
    if (CRYPTO_memcmp(tag, body.at + body.size, TAG) != 0) return REFUSED;
    counter_mode(first, body.at, body.size, out);
    return (ssize_t)body.size;
}

/* The tag of counter mode with HMAC, as Tink has it: of associated data, IV and ciphertext, and how many bits the
 * associated data have. */
static void both_tag(Bytes ad, Bytes body, unsigned char out[EVP_MAX_MD_SIZE]) {
    unsigned char bits[8];
    for (int i = 0; i < 8; i++) bits[i] = (unsigned char)((unsigned long long)ad.size * 8 >> (56 - 8 * i));
    mac_of((Bytes[]){ad, body, {bits, sizeof bits}}, 3, out);
}

static ssize_t both_seal(Bytes text, Bytes ad, unsigned char *out) {
    unsigned char tag[EVP_MAX_MD_SIZE];
    Bytes body = {out, BLOCK + text.size};
    draw(out, BLOCK);
    counter_mode(out, text.at, text.size, out + BLOCK);
    both_tag(ad, body, tag);
    memcpy(out + body.size, tag, TAG);
    return (ssize_t)(body.size + TAG);
}

static ssize_t both_open(Bytes sealed, Bytes ad, unsigned char *out) {
    unsigned char tag[EVP_MAX_MD_SIZE];
    if (sealed.size < BLOCK + TAG) return REFUSED;
    Bytes body = {sealed.at, sealed.size - TAG};
    both_tag(ad, body, tag);
    if (CRYPTO_memcmp(tag, body.at + body.size, TAG) != 0) return REFUSED;
    counter_mode(body.at, body.at + BLOCK, body.size - BLOCK, out);
    return (ssize_t)(body.size - BLOCK);
}

static ssize_t tag(Bytes text, Bytes none, unsigned char *out) {
    unsigned char made[EVP_MAX_MD_SIZE];
    (void)none;
    mac_of(&text, 1, made);
    memcpy(out, made, TAG);
    return TAG;
}

static ssize_t verify(Bytes given, Bytes text, unsigned char *out) {
    unsigned char made[EVP_MAX_MD_SIZE];
    (void)out;
    mac_of(&text, 1, made);
    return given.size == TAG && CRYPTO_memcmp(made, given.at, TAG) == 0 ? 0 : REFUSED;
}

/* The first bytes of HMAC or CMAC of the text, or of HKDF with it as the info: as many as the second argument says. */
static ssize_t derive(Bytes text, Bytes asked, unsigned char *out) {
    unsigned char made[EVP_MAX_MD_SIZE], first = 1;
    must(asked.size > 0 && asked.size <= BLOCK, "derive gives 1 to 16 bytes");
    mac_of((Bytes[]){text, {&first, is_hkdf}}, 2, made);
    memcpy(out, made, asked.size);
    return (ssize_t)asked.size;
}

/* ---- Keys. */

static void take_cipher(const char *name, Bytes with) {
    EVP_CIPHER *kind = EVP_CIPHER_fetch(NULL, name, NULL);
    has(kind, name);
    must((size_t)EVP_CIPHER_get_key_length(kind) == with.size, "a key of another size");
    sealer = EVP_CIPHER_CTX_new();
    opener = EVP_CIPHER_CTX_new();
    must(sealer && opener && EVP_EncryptInit_ex(sealer, kind, NULL, with.at, NULL) == 1
         && EVP_DecryptInit_ex(opener, kind, NULL, with.at, NULL) == 1, "a key is refused");
}

static void take_mac(const char *name, const char *part, const char *value, Bytes with) {
    EVP_MAC *kind = EVP_MAC_fetch(NULL, name, NULL);
    has(kind, name);
    OSSL_PARAM more[] = {OSSL_PARAM_construct_utf8_string(part, (char *)value, 0), OSSL_PARAM_END};
    mac = EVP_MAC_CTX_new(kind);
    must(mac && EVP_MAC_init(mac, with.at, with.size, more) == 1, "a key is refused");
}

static void take_hmac(Bytes with) { take_mac("HMAC", OSSL_MAC_PARAM_DIGEST, "SHA256", with); }

static void take_cmac(Bytes with) {
    take_mac("CMAC", OSSL_MAC_PARAM_CIPHER, with.size == 16 ? "AES-128-CBC" : "AES-256-CBC", with);
}

/* HKDF's first step, whose salt is zeros, is made once. What is left for a text is the first block of the second step,
 * an HMAC: OpenSSL's own HKDF takes no info of more than 32 KiB. */
static void take_hkdf(void) {
    static unsigned char salt[32], made[EVP_MAX_MD_SIZE];
    take_hmac((Bytes){salt, sizeof salt});
    mac_of(&key, 1, made);
    EVP_MAC_CTX_free(mac);
    take_hmac((Bytes){made, 32});
    is_hkdf = 1;
}

static int is(const char *one, const char *other) { return strcmp(one, other) == 0; }

static void take_keys(const char *kind, Bytes own) {
    static const struct { const char *kind, *short_name, *long_name; } ciphers[] = {
        {"gcm", "AES-128-GCM", "AES-256-GCM"}, {"gcm-siv", "AES-128-GCM-SIV", "AES-256-GCM-SIV"},
        {"eax", "AES-128-CTR", "AES-256-CTR"}, {"ctr-hmac", "AES-128-CTR", "AES-256-CTR"},
        {"siv", "AES-128-SIV", "AES-256-SIV"}};
    size_t shorter = is(kind, "siv") ? 32 : 16;
    for (size_t i = 0; i < sizeof ciphers / sizeof *ciphers; i++) {
        if (!is(kind, ciphers[i].kind)) continue;
        take_cipher(key.size == shorter ? ciphers[i].short_name : ciphers[i].long_name, key);
    }
    if (is(kind, "eax") || is(kind, "cmac")) take_cmac(key);
    if (is(kind, "ctr-hmac")) take_hmac(own);
    if (is(kind, "hmac")) take_hmac(key);
    if (is(kind, "hkdf")) take_hkdf();
    must(sealer || mac, "an unknown kind of key");
}

/* ---- Calls, with the output prefix of the key. */

static Call *seals, *opens;

static void take_calls(const char *kind) {
    seals = is(kind, "eax") ? eax_seal : is(kind, "ctr-hmac") ? both_seal : is(kind, "siv") ? siv_seal : aead_seal;
    opens = is(kind, "eax") ? eax_open : is(kind, "ctr-hmac") ? both_open : is(kind, "siv") ? siv_open : aead_open;
}

static ssize_t call(const char *name, Bytes first, Bytes second, unsigned char *out) {
    int makes = is(name, "seal") || is(name, "dseal") || is(name, "tag");
    if (is(name, "derive")) return derive(first, second, out);
    if (makes) {
        memcpy(out, prefix.at, prefix.size);
        return (ssize_t)prefix.size + (is(name, "tag") ? tag : seals)(first, second, out + prefix.size);
    }
    must(is(name, "open") || is(name, "dopen") || is(name, "verify"), "an unknown call");
    if (first.size < prefix.size || memcmp(first.at, prefix.at, prefix.size) != 0) return REFUSED;
    Bytes rest = {first.at + prefix.size, first.size - prefix.size};
    return (is(name, "verify") ? verify : opens)(rest, second, out);
}

/* ---- Hexadecimal, lines, and all of an input. */

static signed char digits[UCHAR_MAX + 1];

static void make_digits(void) {
    memset(digits, -1, sizeof digits);
    for (int i = 0; i < 16; i++) digits[(unsigned char)"0123456789abcdef"[i]] = (signed char)i;
    for (int i = 10; i < 16; i++) digits[(unsigned char)"0123456789ABCDEF"[i]] = (signed char)i;
}

/* The bytes of a word, written over it. */
static Bytes bytes_of(char *word, size_t size) {
    unsigned char *at = (unsigned char *)word;
    if (size == 1 && *word == '-') return (Bytes){at, 0};
    must(size > 0 && size % 2 == 0, "an odd number of digits");
    int all = 0;
    for (size_t i = 0; i < size / 2; i++) {
        int high = digits[at[2 * i]], low = digits[at[2 * i + 1]];
        all |= high | low;
        at[i] = (unsigned char)(high << 4 | low);
    }
    must(all >= 0, "a character that is no digit");
    return (Bytes){at, size / 2};
}

static void reply(Bytes made) {
    static char text[1 << 17];
    char *to = text;
    memcpy(to, "ok ", 3);
    to += made.size ? 3 : 2;
    for (size_t i = 0; i < made.size; i++) {
        *to++ = "0123456789abcdef"[made.at[i] >> 4];
        *to++ = "0123456789abcdef"[made.at[i] & 15];
    }
    *to++ = '\n';
    fwrite(text, 1, (size_t)(to - text), stdout);
}

static void session(void) {
    static unsigned char out[1 << 16];
    char *line = NULL, *words[3];
    size_t held = 0, sizes[3];
    for (ssize_t size; (size = getline(&line, &held, stdin)) > 0;) {
        must(size <= 65537, "a line is too long");
        int count = 0;
        for (char *at = line, *end = line + size - (line[size - 1] == '\n'); at < end && count < 3; count++) {
            char *space = memchr(at, ' ', (size_t)(end - at));
            words[count] = at;
            sizes[count] = (size_t)((space ? space : end) - at);
            at += sizes[count] + 1;
        }
        must(count > 1, "a line is too short");
        words[0][sizes[0]] = 0;
        int derives = is(words[0], "derive");
        Bytes first = bytes_of(words[1 + derives], sizes[1 + derives]), second = {NULL, 0};
        if (derives) second.size = strtoul(words[1], NULL, 10);
        else if (count > 2) second = bytes_of(words[2], sizes[2]);
        ssize_t made = call(words[0], first, second, out);
        if (made == REFUSED) fputs("no\n", stdout);
        else reply((Bytes){out, (size_t)made});
    }
    free(line);
}

static int whole(const char *name) {
    size_t held = 0, size = 0, part;
    unsigned char *text = NULL;
    do {
        if (size == held) text = realloc(text, held = held ? 2 * held : 1 << 16);
        must(text != NULL, "no memory");
        part = fread(text + size, 1, held - size, stdin);
        size += part;
    } while (part);
    unsigned char *out = malloc(size + MORE);
    must(out != NULL, "no memory");
    ssize_t made = call(name, (Bytes){text, size}, (Bytes){text, is(name, "derive") ? BLOCK : 0}, out);
    if (made > 0) fwrite(out, 1, (size_t)made, stdout);
    return made == REFUSED;
}

int main(int count, char **words) {
    if (count == 2 && is(words[1], "version")) {
        puts(OpenSSL_version(OPENSSL_VERSION));
        puts(OPENSSL_info(OPENSSL_INFO_CPU_SETTINGS));
        return 0;
    }
    must(count == 5 || count == 6, "session|CALL KIND PREFIX KEY [KEY]");
    setvbuf(stdin, NULL, _IOFBF, 1 << 15);
    setvbuf(stdout, NULL, _IOFBF, 1 << 15);
    make_digits();
    prefix = bytes_of(words[3], strlen(words[3]));
    key = bytes_of(words[4], strlen(words[4]));
    take_keys(words[2], count == 6 ? bytes_of(words[5], strlen(words[5])) : key);
    take_calls(words[2]);
    int refused = 0;
    if (is(words[1], "session")) session();
    else refused = whole(words[1]);
    must(fflush(stdout) == 0, "standard output");
    return refused;
}
