/*
 * Calls README's two functions on an image and on a damaged one, and prints the four answers.
 * Arguments: the files of the signature, the image, the damaged image and the cache.
 */
#include <stdio.h>
#include "trewizlow.h"

bool may_run(const uint8_t *signature, size_t signature_len, const uint8_t *image, size_t image_len,
             const uint8_t *cache, size_t cache_len, trewizlow_launch facts, uint8_t *marks);
bool still_agrees(const uint8_t *signature, size_t signature_len, uint64_t start, uint64_t length,
                  const uint8_t *pages, size_t pages_len, uint8_t *marks);

enum { ROOM = 1 << 16, PAGE = 4096 };
static uint8_t signature[ROOM], cache[ROOM], image[ROOM], marks[1048576];

/* How many bytes the file has; it is shorter than the room. */
static size_t load(const char *path, uint8_t *bytes)
{
    FILE *file = fopen(path, "rb");
    size_t length = file ? fread(bytes, 1, ROOM, file) : 0;
    if (file)
        fclose(file);
    return length;
}

int main(int argc, char **argv)
{
    if (argc != 5)
        return 2;
    size_t signature_len = load(argv[1], signature), cache_len = load(argv[4], cache);
    trewizlow_launch facts = {false, false, 0, 0, false};
    for (int i = 2; i < 4; i++) {
        size_t image_len = load(argv[i], image);
        int runs = may_run(signature, signature_len, image, image_len, cache, cache_len, facts, marks);
        int agrees = still_agrees(signature, signature_len, 0, 1, image, PAGE, marks);
        printf("%d %d%c", runs, agrees, i == 3 ? '\n' : ' ');
    }
    return 0;
}
