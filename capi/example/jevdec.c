/* jevdec: decodes a Dirac stream to raw pictures or y4m, by the C library. An example of a caller: see jevmutzal.h. */
#define _POSIX_C_SOURCE 200809L

#include "jevmutzal.h"

#include <errno.h>
#include <fcntl.h>
#include <inttypes.h>
#include <stdio.h>
#include <stdlib.h>
#include <string.h>
#include <unistd.h>

/* As dirac_tool ends: 0 done, 2 words, 4 a fault of the stream; here 3 for all that the outside failed at. */
enum { DONE = 0, USAGE = 2, FAILED = 3, FAULTY = 4 };

static const char usage[] =
    "usage: jevdec [-y] [-n] [-p BYTES] [-o FILE] [STREAM]\n"
    "Decodes STREAM, or standard input, to raw pictures: the rows of Y, then U, then V, a byte a sample.\n"
    "  -y         y4m in place of raw pictures; fields are written as pictures of half the rows\n"
    "  -n         decodes and copies, and writes nothing\n"
    "  -p BYTES   the bytes that are read and sent at a time (65536)\n"
    "  -o FILE    writes to FILE and not to standard output\n"
    "Ends with 0, or 4 where the stream has a fault: its pictures are written, and standard error names the fault.\n";

struct words {
    const char *name; /* of the stream, for messages */
    int stream;
    FILE *out;
    size_t piece;
    bool y4m, quiet;
};

/* A picture's planes, one behind another. */
struct planes {
    uint8_t *bytes;
    size_t room;
};

static int fail(const char *name, const char *why) {
    fprintf(stderr, "jevdec: %s: %s\n", name, why);
    return FAILED;
}

static int tell_usage(void) {
    fputs(usage, stderr);
    return USAGE;
}

static int read_words(int count, char **word, struct words *words) {
    int letter;
    while ((letter = getopt(count, word, "ynp:o:h")) != -1) {
        char *end = NULL;
        switch (letter) {
        case 'y': words->y4m = true; break;
        case 'n': words->quiet = true; break;
        case 'p':
            words->piece = strtoul(optarg, &end, 10);
            if (*end || words->piece == 0 || words->piece > PTRDIFF_MAX) return tell_usage();
            break;
        case 'o':
            if (!(words->out = fopen(optarg, "wb"))) return fail(optarg, strerror(errno));
            break;
        case 'h': fputs(usage, stdout); exit(DONE);
        default: return tell_usage();
        }
    }
    if (optind + 1 < count) return tell_usage();
    if (optind < count && strcmp(word[optind], "-") != 0) {
        words->name = word[optind];
        if ((words->stream = open(words->name, O_RDONLY)) < 0) return fail(words->name, strerror(errno));
    }
    return DONE;
}

/* Reads a piece and sends it, or says that there are no more. */
static int feed(jev_decoder *decoder, const struct words *words, uint8_t *piece) {
    ssize_t there;
    do there = read(words->stream, piece, words->piece);
    while (there < 0 && errno == EINTR);
    if (there < 0) return fail(words->name, strerror(errno));
    int32_t answer = there ? jev_decoder_send(decoder, piece, (size_t)there) : jev_decoder_finish(decoder);
    return answer == JEV_OK ? DONE : fail(words->name, "no memory");
}

static int copy_planes(jev_decoder *decoder, const jev_frame *frame, struct planes *planes, size_t *length) {
    size_t luma = (size_t)frame->width * frame->height;
    size_t chroma = (size_t)frame->chroma_width * frame->chroma_height;
    *length = luma + 2 * chroma;
    if (*length > planes->room) {
        uint8_t *bytes = realloc(planes->bytes, *length);
        if (!bytes) return JEV_NO_MEMORY;
        planes->bytes = bytes;
        planes->room = *length;
    }
    int32_t answer = jev_decoder_plane(decoder, 0, planes->bytes, luma, frame->width);
    if (answer == JEV_OK)
        answer = jev_decoder_plane(decoder, 1, planes->bytes + luma, chroma, frame->chroma_width);
    if (answer == JEV_OK)
        answer = jev_decoder_plane(decoder, 2, planes->bytes + luma + chroma, chroma, frame->chroma_width);
    return answer;
}

static void write_y4m_header(jev_decoder *decoder, const jev_frame *frame, FILE *out) {
    static const char *const chroma[] = {"444", "422", "420"};
    jev_format format;
    if (jev_decoder_format(decoder, &format) != JEV_OK || format.chroma > 2) return;
    uint64_t pictures = format.fields ? 2 * format.rate_numerator : format.rate_numerator;
    fprintf(out, "YUV4MPEG2 W%" PRIu32 " H%" PRIu32 " F%" PRIu64 ":%" PRIu64 " Ip A%" PRIu64 ":%" PRIu64 " C%s",
            frame->width, frame->height, pictures, format.rate_denominator, format.aspect_numerator,
            format.aspect_denominator, chroma[format.chroma]);
    if (format.luma_offset == 0 && format.luma_excursion == 255) fputs(" XCOLORRANGE=FULL", out);
    if (format.luma_offset == 16 && format.luma_excursion == 219) fputs(" XCOLORRANGE=LIMITED", out);
    fputc('\n', out);
}

static int write_picture(jev_decoder *decoder, const jev_frame *frame, const struct words *words,
                         struct planes *planes, bool first) {
    size_t length;
    if (copy_planes(decoder, frame, planes, &length) != JEV_OK) return fail(words->name, "no memory");
    if (words->quiet) return DONE;
    if (words->y4m && first) write_y4m_header(decoder, frame, words->out);
    if (words->y4m) fputs("FRAME\n", words->out);
    fwrite(planes->bytes, 1, length, words->out);
    return ferror(words->out) ? fail("output", strerror(errno)) : DONE;
}

static int tell_fault(const jev_frame *frame) {
    uint8_t name[JEV_CAUSE_ROOM];
    size_t length = jev_cause_name(frame->cause, name, sizeof name);
    fprintf(stderr, "fault unit=%" PRIu64 " at=%" PRIu64 " cause=%.*s\n", frame->unit, frame->at, (int)length,
            (const char *)name);
    return FAULTY;
}

static int decode(jev_decoder *decoder, const struct words *words, uint8_t *piece, struct planes *planes) {
    jev_frame frame;
    uint64_t pictures = 0;
    int status = DONE;
    while (status == DONE) {
        int32_t answer = jev_decoder_next(decoder, &frame);
        if (answer == JEV_NEEDS) {
            status = feed(decoder, words, piece);
        } else if (answer == JEV_PICTURE) {
            status = write_picture(decoder, &frame, words, planes, pictures++ == 0);
        } else {
            if (answer != JEV_END && answer != JEV_FAULT) return fail(words->name, "no memory");
            fprintf(stderr, "pictures=%" PRIu64 "\n", pictures);
            return answer == JEV_FAULT ? tell_fault(&frame) : DONE;
        }
    }
    return status;
}

int main(int count, char **word) {
    struct words words = {"standard input", 0, stdout, 65536, false, false};
    int status = read_words(count, word, &words);
    if (status != DONE) return status;
    if (jev_version() != JEV_VERSION) return fail("libjevmutzal", "another version than the header's");
    jev_decoder decoder = JEV_DECODER_INIT;
    struct planes planes = {NULL, 0};
    uint8_t *piece = malloc(words.piece);
    if (!piece || jev_decoder_open(&decoder) != JEV_OK)
        status = fail(words.name, "no memory");
    else
        status = decode(&decoder, &words, piece, &planes);
    jev_decoder_close(&decoder);
    free(planes.bytes);
    free(piece);
    if (fclose(words.out) != 0 && (status == DONE || status == FAULTY)) status = fail("output", strerror(errno));
    if (words.stream != 0) close(words.stream);
    return status;
}
