/* no_memory STREAM: decodes a stream once for each allocation that it makes, which then fails, and looks at what is
 * answered: want of memory and nothing else, that bytes may be sent again, that a decoder that stopped stays stopped,
 * and that close frees all. Linked with -Wl,--wrap=malloc,--wrap=realloc,--wrap=free. Prints how many allocations
 * failed. */
#include "jevmutzal.h"

#include <stdio.h>
#include <stdlib.h>

void *__real_malloc(size_t size);
void *__real_realloc(void *block, size_t size);
void __real_free(void *block);
void *__wrap_malloc(size_t size);
void *__wrap_realloc(void *block, size_t size);
void __wrap_free(void *block);

/* The allocations until one fails, where this is above 0, and the blocks that are held. */
static long until = 0;
static long held = 0;

static bool fails(void) {
    return until > 0 && --until == 0;
}

void *__wrap_malloc(size_t size) {
    if (fails()) return NULL;
    held++;
    return __real_malloc(size);
}

void *__wrap_realloc(void *block, size_t size) {
    if (fails()) return NULL;
    if (!block) held++;
    return __real_realloc(block, size);
}

void __wrap_free(void *block) {
    if (block) held--;
    __real_free(block);
}

static void fail(const char *what, long number, long answer) {
    printf("allocation %ld: %s: %ld\n", number, what, answer);
    exit(1);
}

/* Whether an allocation failed; `pictures` counts those that were shown. */
static bool decode(const uint8_t *bytes, size_t length, long number, long *pictures) {
    jev_decoder decoder = JEV_DECODER_INIT;
    jev_frame frame;
    bool failed = false;
    long before = held;
    until = number;
    int32_t answer = jev_decoder_open(&decoder);
    if (answer == JEV_NO_MEMORY) {
        if ((answer = jev_decoder_next(&decoder, &frame)) != JEV_CLOSED) fail("next, not opened", number, answer);
        failed = true;
        answer = jev_decoder_open(&decoder);
    }
    if (answer != JEV_OK) fail("open", number, answer);
    if ((answer = jev_decoder_send(&decoder, bytes, length)) == JEV_NO_MEMORY) {
        failed = true;
        answer = jev_decoder_send(&decoder, bytes, length);
    }
    if (answer != JEV_OK) fail("send", number, answer);
    jev_decoder_finish(&decoder);
    for (*pictures = 0; (answer = jev_decoder_next(&decoder, &frame)) == JEV_PICTURE; ++*pictures) {}
    if (answer == JEV_NO_MEMORY) {
        failed = true;
        if ((answer = jev_decoder_next(&decoder, &frame)) != JEV_STOPPED) fail("next, stopped", number, answer);
    } else if (answer != JEV_END) {
        fail("the end", number, answer);
    }
    jev_decoder_close(&decoder);
    if (held != before) fail("blocks that are held", number, held - before);
    until = 0;
    return failed;
}

int main(int count, char **word) {
    static uint8_t bytes[1 << 20];
    FILE *file = count == 2 ? fopen(word[1], "rb") : NULL;
    if (!file) return fputs("usage: no_memory STREAM\n", stderr), 2;
    size_t length = fread(bytes, 1, sizeof bytes, file);
    fclose(file);
    long all, pictures, number = 1;
    if (decode(bytes, length, 0, &all)) fail("nothing was to fail", 0, 0);
    while (decode(bytes, length, number, &pictures)) {
        if (pictures > all) fail("pictures", number, pictures);
        number++;
    }
    if (pictures != all) fail("pictures where none failed", number, pictures);
    printf("%ld\n", number - 1);
    return 0;
}
