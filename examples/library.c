/* Seals and opens with a keyset file, or with one that is encrypted under a master:
 * cc examples/library.c -Iinclude lib/libtinkey.a -o library && ./library KEYSET.json [MASTER.json] */
#include <stdio.h>
#include <stdlib.h>
#include <tinkey.h>

/* Reads a file of at most a mebibyte, and ends the program if it can't. */
static size_t read_file(const char *name, char *into) {
    FILE *file = fopen(name, "rb");
    if (!file) exit(2);
    size_t size = fread(into, 1, 1 << 20, file);
    fclose(file);
    return size;
}

int main(int count, char **words) {
    static char json[1 << 20], master[1 << 20], plain[] = "attack at dawn", ad[] = "associated data";
    if (count < 2) return 2;
    size_t size = read_file(words[1], json), sealed_size, opened_size;

    tinkey_aead *keys;
    tinkey_status status =
        count == 2 ? tinkey_aead_new(json, size, &keys)
                   : tinkey_aead_new_wrapped(json, size, TINKEY_JSON, master, read_file(words[2], master), TINKEY_JSON,
                                             &keys);
    if (status) {
        fprintf(stderr, "%s\n", tinkey_status_text(status));
        return 1;
    }
    size_t room = tinkey_aead_seal_room(sizeof plain);
    char *sealed = malloc(room), *opened = malloc(room);
    if (sealed && opened
        && tinkey_aead_seal(keys, plain, sizeof plain, ad, sizeof ad, sealed, room, &sealed_size) == TINKEY_OK
        && tinkey_aead_open(keys, sealed, sealed_size, ad, sizeof ad, opened, room, &opened_size) == TINKEY_OK)
        printf("%zu bytes, which open to \"%s\"\n", sealed_size, opened);
    free(sealed);
    free(opened);
    tinkey_aead_free(keys);
    return 0;
}
