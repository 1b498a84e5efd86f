/*
 * Calls a function through the header and prints every field of what it answers, a line
 * each, under the field's name; then the marks. Arguments: the function, then what it is
 * lent in the header's order, buffers as names of files, `-` for a side file that is not
 * there. `launch` prints the bytes of the launch facts, `interface` the interface's number.
 */
#include <inttypes.h>
#include <stdio.h>
#include <stdlib.h>
#include <string.h>
#include "trewizlow.h"

#define PRINT(answer, field) printf(#field " %" PRIu64 "\n", (uint64_t)(answer).field)

typedef struct {
    bool there;
    uint8_t *bytes;
    size_t length;
} part;

/* Every file of the test is shorter. */
enum { ROOM = 1 << 16 };

static part file(const char *path)
{
    part part = {strcmp(path, "-") != 0, malloc(ROOM), 0};
    FILE *stream = fopen(part.there ? path : "/dev/null", "rb");
    if (!stream || !part.bytes) {
        perror(path);
        exit(2);
    }
    part.length = fread(part.bytes, 1, ROOM, stream);
    fclose(stream);
    return part;
}

static uint64_t number(const char *word)
{
    return strtoull(word, NULL, 10);
}

static void print_bytes(const char *name, const void *bytes, size_t length)
{
    printf("%s ", name);
    for (size_t i = 0; i < length; i++)
        printf("%02x", ((const uint8_t *)bytes)[i]);
    printf("\n");
}

static trewizlow_launch facts(char **words)
{
    trewizlow_launch launch = {
        .on_authorized_volume = number(words[0]) == 1,
        .on_system_volume = number(words[1]) == 1,
        .launch_type = (uint8_t)number(words[2]),
        .validation_category = (uint8_t)number(words[3]),
        .parent_is_init = number(words[4]) == 1,
    };
    return launch;
}

static void check(char **words)
{
    part signature = file(words[0]), image = file(words[1]), marks = file(words[2]);
    part cache = file(words[3]), info = file(words[4]), resources = file(words[5]);
    trewizlow_verdict answer = trewizlow_check(
        signature.bytes, signature.length, image.bytes, image.length, marks.bytes, marks.length,
        cache.bytes, cache.length, info.there, info.bytes, info.length,
        resources.there, resources.bytes, resources.length, facts(words + 6));
    PRINT(answer, number);
    PRINT(answer, place);
    print_bytes("marks", marks.bytes, marks.length);
}

static void recheck(char **words)
{
    part signature = file(words[0]), pages = file(words[3]), marks = file(words[4]);
    trewizlow_answer answer = trewizlow_recheck(
        signature.bytes, signature.length, number(words[1]), number(words[2]),
        pages.bytes, pages.length, marks.bytes, marks.length);
    PRINT(answer, number);
    PRINT(answer, place);
    print_bytes("marks", marks.bytes, marks.length);
}

static void find(char **words)
{
    part signature = file(words[0]);
    trewizlow_blob answer =
        trewizlow_find(signature.bytes, signature.length, (uint32_t)number(words[1]));
    PRINT(answer, number);
    PRINT(answer, place);
    PRINT(answer, start);
    PRINT(answer, length);
}

static void read_directory(char **words)
{
    part signature = file(words[0]);
    trewizlow_directory answer = trewizlow_read(signature.bytes, signature.length);
    PRINT(answer, number);
    PRINT(answer, place);
    PRINT(answer, start);
    PRINT(answer, length);
    PRINT(answer, version);
    PRINT(answer, flags);
    PRINT(answer, hash_offset);
    PRINT(answer, ident_offset);
    PRINT(answer, special_slots);
    PRINT(answer, code_slots);
    PRINT(answer, hash_size);
    PRINT(answer, hash_type);
    PRINT(answer, platform);
    PRINT(answer, page_shift);
    PRINT(answer, code_limit);
    PRINT(answer, page_size);
    PRINT(answer, ident_length);
}

static void cdhash(char **words)
{
    part signature = file(words[0]);
    trewizlow_cdhash_answer answer = trewizlow_cdhash(signature.bytes, signature.length);
    PRINT(answer, number);
    PRINT(answer, place);
    print_bytes("hash", answer.hash, sizeof answer.hash);
}

static void launch(char **words)
{
    trewizlow_launch launch = facts(words);
    print_bytes("launch", &launch, sizeof launch);
}

static void interface(char **words)
{
    (void)words;
    printf("interface %d\n", TREWIZLOW_INTERFACE);
}

/* What can be asked for, and how many words it takes. */
static const struct {
    const char *name;
    int words;
    void (*call)(char **words);
} calls[] = {
    {"check", 11, check},          {"recheck", 5, recheck}, {"find", 2, find},
    {"read", 1, read_directory},   {"cdhash", 1, cdhash},   {"launch", 5, launch},
    {"interface", 0, interface},
};

int main(int argc, char **argv)
{
    for (size_t i = 0; i < sizeof calls / sizeof calls[0] && argc > 1; i++) {
        if (strcmp(argv[1], calls[i].name) == 0 && argc - 2 == calls[i].words) {
            calls[i].call(argv + 2);
            return 0;
        }
    }
    fprintf(stderr, "usage: calls FUNCTION ..\n");
    return 2;
}
