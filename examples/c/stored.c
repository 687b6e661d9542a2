/* A word that is kept over a stop, by the store of the library. Usage: stored FILE [WORD]
 * It prints the word that was stored last, or stores another one. */
#include <oca.h>

#include <stdio.h>
#include <string.h>

static int refused(const char *path, const struct oca_store *store, enum oca_store_result result) {
    if (result == OCA_STORE_SYSTEM) printf("%s: %s: %s\n", path, store->call, strerror(store->error));
    else printf("%s: %s\n", path, oca_store_text(result));
    return 1;
}

int main(int count, char **words) {
    struct oca_store store = OCA_STORE_INIT;
    char word[64];
    size_t length = 0;
    enum oca_store_result result = oca_store_open(count > 1 ? words[1] : NULL, &store);
    if (result != OCA_STORE_DONE) return refused(count > 1 ? words[1] : "FILE", &store, result);
    if (count > 2) result = oca_store_save(&store, words[2], strlen(words[2]));
    else result = oca_store_load(&store, word, sizeof word, &length);
    oca_store_close(&store);
    if (result != OCA_STORE_DONE) return refused(words[1], &store, result);
    if (count == 2) printf("%.*s\n", (int)length, word);
    return 0;
}
