/*
 * A host in C: checks an image, then rechecks its first page. At the repository's top:
 *   cc -Wall -Wextra -I include examples/host.c target/staticlib/libtrewizlow.a -o host-example
 *   ./host-example samples/signature.bin samples/image.bin samples/cache.bin
 * It has no side files and no launch facts. Exit status: 0 the image may run, 1 it is refused,
 * 2 usage, a file that cannot be read, or no memory.
 */
#include <stdio.h>
#include <stdlib.h>
#include "trewizlow.h"

typedef struct {
    uint8_t *bytes;
    size_t length;
} buffer;

static void fail(const char *subject, const char *message)
{
    fprintf(stderr, "%s: %s\n", subject, message);
    exit(2);
}

/* At least one byte: a pointer that is lent must not be null, even with length 0. */
static void *room_for(void *before, size_t bytes)
{
    void *room = realloc(before, bytes);
    if (!room)
        fail("host-example", "out of memory");
    return room;
}

static buffer read_file(const char *path)
{
    size_t room = 1, got;
    buffer file = {room_for(NULL, room), 0};
    FILE *stream = fopen(path, "rb");
    if (!stream)
        fail(path, "cannot be opened");
    while ((got = fread(file.bytes + file.length, 1, room - file.length, stream)) > 0) {
        file.length += got;
        if (file.length == room)
            file.bytes = room_for(file.bytes, room *= 2);
    }
    if (ferror(stream))
        fail(path, "cannot be read");
    fclose(stream);
    return file;
}

int main(int argc, char **argv)
{
    if (argc != 4)
        fail("usage", "host-example SIGNATURE IMAGE CACHE");
    buffer signature = read_file(argv[1]), image = read_file(argv[2]), cache = read_file(argv[3]);

    /* One mark a page. A refused signature has 0 pages here, and the check says why. */
    trewizlow_directory directory = trewizlow_read(signature.bytes, signature.length);
    uint8_t *marks = room_for(NULL, directory.code_slots + (size_t)1);

    trewizlow_launch launch = {false, false, 0, 0, false};
    trewizlow_verdict verdict = trewizlow_check(
        signature.bytes, signature.length, image.bytes, image.length, marks, directory.code_slots,
        cache.bytes, cache.length, false, image.bytes, 0, false, image.bytes, 0, launch);
    printf("check: number %u, place %zu\n", (unsigned)verdict.number, verdict.place);

    /* Marks are there only after 0 or 31; a recheck goes on from them. */
    if ((verdict.number == 0 || verdict.number == 31) && directory.code_slots > 0) {
        size_t first = directory.page_size < directory.code_limit ? directory.page_size : directory.code_limit;
        trewizlow_answer again = trewizlow_recheck(
            signature.bytes, signature.length, 0, 1, image.bytes, first, marks, directory.code_slots);
        printf("recheck of page 0: number %u, place %zu\n", (unsigned)again.number, again.place);
    }
    free(marks);
    free(cache.bytes);
    free(image.bytes);
    free(signature.bytes);
    return verdict.number == 0 ? 0 : 1;
}
