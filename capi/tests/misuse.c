/* misuse STREAM: calls that a caller shouldn't make, and what each answers. Prints each answer that differs from the
 * header's, and ends with 1 where one does. STREAM has at least one picture. */
#include "jevmutzal.h"

#include <stdio.h>
#include <stdlib.h>
#include <string.h>

static int wrong = 0;

static void expect(const char *what, long long found, long long wanted) {
    if (found == wanted) return;
    printf("%s: %lld, expected %lld\n", what, found, wanted);
    wrong = 1;
}

static bool is_empty(const jev_frame *frame) {
    static const jev_frame empty;
    return memcmp(frame, &empty, sizeof empty) == 0;
}

static void closed_ones(void) {
    jev_decoder decoder = JEV_DECODER_INIT;
    jev_frame frame;
    jev_format format;
    uint8_t byte = 7;
    memset(&frame, 1, sizeof frame);
    for (int round = 0; round < 3; round++) {
        expect("send, closed", jev_decoder_send(&decoder, &byte, 1), JEV_CLOSED);
        expect("finish, closed", jev_decoder_finish(&decoder), JEV_CLOSED);
        expect("next, closed", jev_decoder_next(&decoder, &frame), JEV_CLOSED);
        expect("plane, closed", jev_decoder_plane(&decoder, 0, &byte, 1, 1), JEV_CLOSED);
        expect("format, closed", jev_decoder_format(&decoder, &format), JEV_CLOSED);
        expect("frame of a closed decoder is empty", is_empty(&frame), 1);
        expect("the byte is as it was", byte, 7);
        if (round == 0) {
            expect("open", jev_decoder_open(&decoder), JEV_OK);
            expect("open, open", jev_decoder_open(&decoder), JEV_OK);
        }
        jev_decoder_close(&decoder);
        jev_decoder_close(&decoder);
    }
}

static void empty_ones(void) {
    jev_decoder decoder = JEV_DECODER_INIT;
    jev_frame frame;
    jev_format format;
    uint8_t byte = 7;
    expect("open", jev_decoder_open(&decoder), JEV_OK);
    expect("format, nothing sent", jev_decoder_format(&decoder, &format), JEV_NO_PICTURE);
    expect("plane, nothing sent", jev_decoder_plane(&decoder, 0, &byte, 1, 1), JEV_NO_PICTURE);
    expect("next, nothing sent", jev_decoder_next(&decoder, &frame), JEV_NEEDS);
    expect("send of no byte", jev_decoder_send(&decoder, &byte, 0), JEV_OK);
    expect("next, no byte sent", jev_decoder_next(&decoder, &frame), JEV_NEEDS);
    expect("finish", jev_decoder_finish(&decoder), JEV_OK);
    expect("finish, finished", jev_decoder_finish(&decoder), JEV_OK);
    for (int round = 0; round < 2; round++) {
        expect("next of an empty stream", jev_decoder_next(&decoder, &frame), JEV_FAULT);
        expect("its unit", (long long)frame.unit, 0);
        expect("its byte", (long long)frame.at, 0);
        expect("its cause", frame.cause, 1);
    }
    jev_decoder_close(&decoder);
}

static void wrong_planes(jev_decoder *decoder, const jev_frame *frame) {
    size_t width = frame->chroma_width, height = frame->chroma_height, stride = width + 5;
    size_t length = stride * (height - 1) + width;
    uint8_t *out = malloc(length), *tight = malloc(width * height);
    if (!out || !tight) exit(3);
    memset(out, 0xEE, length);
    expect("plane 3", jev_decoder_plane(decoder, 3, out, length, stride), JEV_UNKNOWN);
    expect("plane 2^32 - 1", jev_decoder_plane(decoder, UINT32_MAX, out, length, stride), JEV_UNKNOWN);
    expect("a short stride", jev_decoder_plane(decoder, 1, out, length, width - 1), JEV_SMALL);
    expect("no stride", jev_decoder_plane(decoder, 1, out, length, 0), JEV_SMALL);
    expect("a short buffer", jev_decoder_plane(decoder, 1, out, length - 1, stride), JEV_SMALL);
    expect("no buffer", jev_decoder_plane(decoder, 1, out, 0, stride), JEV_SMALL);
    if (height > 1) {
        expect("the longest stride", jev_decoder_plane(decoder, 1, out, length, SIZE_MAX), JEV_SMALL);
        size_t wraps = SIZE_MAX / (height - 1) + 1;
        expect("a stride that wraps", jev_decoder_plane(decoder, 1, out, length, wraps), JEV_SMALL);
    }
    for (size_t at = 0; at < length; at++) expect("a byte behind a refused copy", out[at], 0xEE);
    expect("a plane", jev_decoder_plane(decoder, 1, tight, width * height, width), JEV_OK);
    expect("at a stride", jev_decoder_plane(decoder, 1, out, length, stride), JEV_OK);
    for (size_t at = 0; at < length; at++) {
        size_t row = at / stride, column = at % stride;
        expect("a byte at a stride", out[at], column < width ? tight[row * width + column] : 0xEE);
    }
    free(out);
    free(tight);
}

static void a_stream(const uint8_t *bytes, size_t length) {
    jev_decoder decoder = JEV_DECODER_INIT, moved = JEV_DECODER_INIT;
    jev_frame frame;
    jev_format format;
    uint8_t byte;
    expect("open", jev_decoder_open(&decoder), JEV_OK);
    expect("send", jev_decoder_send(&decoder, bytes, length), JEV_OK);
    expect("finish", jev_decoder_finish(&decoder), JEV_OK);
    expect("plane before next", jev_decoder_plane(&decoder, 0, &byte, 1, 1), JEV_NO_PICTURE);
    expect("the first picture", jev_decoder_next(&decoder, &frame), JEV_PICTURE);
    wrong_planes(&decoder, &frame);
    expect("format", jev_decoder_format(&decoder, &format), JEV_OK);
    expect("its width", format.width, frame.width);
    moved = decoder;
    int32_t answer;
    while ((answer = jev_decoder_next(&moved, &frame)) == JEV_PICTURE) wrong_planes(&moved, &frame);
    expect("the end", answer, JEV_END);
    expect("the end again", jev_decoder_next(&moved, &frame), JEV_END);
    expect("frame of the end is empty", is_empty(&frame), 1);
    expect("plane behind the end", jev_decoder_plane(&moved, 0, &byte, 1, 1), JEV_NO_PICTURE);
    expect("format behind the end", jev_decoder_format(&moved, &format), JEV_OK);
    expect("send behind finish", jev_decoder_send(&moved, bytes, length), JEV_FINISHED);
    expect("send of no byte behind finish", jev_decoder_send(&moved, bytes, 0), JEV_FINISHED);
    expect("the end once more", jev_decoder_next(&moved, &frame), JEV_END);
    jev_decoder_close(&moved);
    /* closed in the middle of a unit, and with pictures that wait */
    expect("open again", jev_decoder_open(&moved), JEV_OK);
    expect("send of a part", jev_decoder_send(&moved, bytes, length - 20), JEV_OK);
    while ((answer = jev_decoder_next(&moved, &frame)) == JEV_PICTURE) {}
    expect("next of a part", answer, JEV_NEEDS);
    jev_decoder_close(&moved);
}

static void names(void) {
    uint8_t name[JEV_CAUSE_ROOM];
    expect("no cause", (long long)jev_cause_name(0, name, sizeof name), 0);
    expect("a cause too many", (long long)jev_cause_name(JEV_CAUSES + 1, name, sizeof name), 0);
    expect("the greatest number", (long long)jev_cause_name(UINT32_MAX, name, sizeof name), 0);
    for (uint32_t cause = 1; cause <= JEV_CAUSES; cause++) {
        size_t length = jev_cause_name(cause, name, sizeof name);
        expect("a name", length > 0 && length <= sizeof name, 1);
        memset(name, 0xEE, sizeof name);
        expect("a name without room", (long long)jev_cause_name(cause, name, length - 1), 0);
        expect("its first byte", name[0], 0xEE);
        expect("a name with just its room", (long long)jev_cause_name(cause, name, length), (long long)length);
    }
}

int main(int count, char **word) {
    FILE *file = count == 2 ? fopen(word[1], "rb") : NULL;
    if (!file) return fputs("usage: misuse STREAM\n", stderr), 2;
    static uint8_t bytes[1 << 20];
    size_t length = fread(bytes, 1, sizeof bytes, file);
    fclose(file);
    expect("version", jev_version(), JEV_VERSION);
    closed_ones();
    empty_ones();
    names();
    a_stream(bytes, length);
    return wrong;
}
