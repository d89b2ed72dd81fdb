/* jevmutzal.h - a decoder of Dirac video as a C library.
 *
 * Dirac is the video format of the BBC's Dirac Specification 2.2.3; of it this library decodes the core syntax with
 * arithmetic coding and 8 bits (docs/FORMAT.md), to planar YUV pictures of one byte a sample.
 *
 *     jev_decoder decoder = JEV_DECODER_INIT;
 *     jev_frame frame;
 *     if (jev_decoder_open(&decoder) != JEV_OK) ...
 *     for (;;)
 *         switch (jev_decoder_next(&decoder, &frame)) {
 *         case JEV_NEEDS:   read some bytes, then jev_decoder_send, or jev_decoder_finish where there are no more
 *         case JEV_PICTURE: jev_decoder_plane(&decoder, 0, y, y_length, y_stride), and 1 and 2
 *         case JEV_END:     jev_decoder_close(&decoder); done
 *         case JEV_FAULT:   the stream is at fault: frame.cause, frame.unit, frame.at
 *         ...
 *         }
 *
 * capi/example/jevdec.c is a whole program. docs/LIBRARY.md says what is proved of these functions and what is trusted.
 *
 * Rules that the caller keeps. Nothing checks them; a caller that breaks one has undefined behaviour, as in C.
 *
 *  1. A jev_decoder is JEV_DECODER_INIT (all its bytes are 0) before its first use. After that its bytes are changed
 *     by these functions alone. It may be moved between calls by copying its bytes, where the old copy is used no more:
 *     of an open decoder no two copies are used.
 *  2. One decoder is given to one call at a time. Different decoders share nothing, and different threads may use them
 *     at the same time; several threads may use one decoder, if the caller orders the calls.
 *  3. A pointer points to what its type and its length say, aligned for its type, writable where it is not const, and
 *     is never NULL, also where the length is 0. What the pointers of one call point to doesn't overlap.
 *  4. No length is above PTRDIFF_MAX.
 *  5. malloc, realloc and free are those of one allocator. No function is called from a signal handler.
 *
 * What the library keeps. No function starts a thread, takes a lock, waits, touches a file, prints, aborts, or
 * keeps a pointer that it was given; there is no global state. Bytes of a stream can lead to JEV_FAULT and never to
 * undefined behaviour. Memory comes from malloc; want of it is an answer. */
#ifndef JEVMUTZAL_H
#define JEVMUTZAL_H

#include <stdbool.h>
#include <stddef.h>
#include <stdint.h>

#ifdef __cplusplus
extern "C" {
#endif

/* The version of this interface. It grows where a function or a field is added or changed. */
#define JEV_VERSION 1

/* A decoder. It lies wherever the caller likes; its fields are the library's own. The caller closes it. */
typedef struct jev_decoder {
    void *at;
    bool is_open;
} jev_decoder;

#define JEV_DECODER_INIT {0, false}

/* Answers. Errors are below 0. Behind each answer stand the functions that give it. */
enum {
    JEV_OK = 0,          /* open, send, finish, plane, format: it is done */
    JEV_PICTURE = 1,     /* next: a picture; frame says its number and its sizes */
    JEV_NEEDS = 2,       /* next: send more bytes, or finish */
    JEV_END = 3,         /* next: the stream ended, as it should; each later next answers it again */
    JEV_FAULT = -1,      /* next: the stream's first fault, in frame; each later next answers it again */
    JEV_NO_MEMORY = -2,  /* open: it is as it was. send: no byte was taken. next: later ones answer JEV_STOPPED */
    JEV_STOPPED = -3,    /* next: an earlier next answered JEV_NO_MEMORY */
    JEV_CLOSED = -4,     /* send, finish, next, plane, format: the decoder is not open */
    JEV_NO_PICTURE = -5, /* plane: the last next answered no picture. format: no sequence header was read so far */
    JEV_SMALL = -6,      /* plane: stride is less than a row, or length less than the rows at this stride */
    JEV_UNKNOWN = -7,    /* plane: there is no such plane */
    JEV_FINISHED = -8    /* send: finish was called before; no byte was taken */
};

/* What jev_decoder_next tells. All fields are 0 but those of the answer that it gave. */
typedef struct jev_frame {
    /* JEV_PICTURE */
    uint32_t number;        /* the picture's number, as the stream has it */
    uint32_t width;         /* of plane 0, in samples */
    uint32_t height;        /* of plane 0, in rows: those of a frame, or of a field where pictures are fields */
    uint32_t chroma_width;  /* of planes 1 and 2 */
    uint32_t chroma_height;
    /* JEV_FAULT */
    uint32_t cause; /* why: 1 to JEV_CAUSES; jev_cause_name has its name */
    uint64_t unit;  /* in which unit of the stream, counted from 0 */
    uint64_t at;    /* at which byte of the stream, counted from 0 */
} jev_frame;

/* What the stream's sequence header says of the pictures. */
typedef struct jev_format {
    uint32_t width;                /* of a frame, in luma samples */
    uint32_t height;               /* of a frame, in luma rows; pictures that are fields have half of them */
    uint32_t chroma;               /* 0: 4:4:4, 1: 4:2:2, 2: 4:2:0 */
    uint32_t interlaced;           /* 1 where the source was interlaced, else 0; pictures may be frames all the same */
    uint32_t fields;               /* 1 where each picture is a field, else 0 */
    uint32_t base;                 /* the number of the base video format */
    uint64_t rate_numerator;       /* frames a second; where pictures are fields, two are a frame */
    uint64_t rate_denominator;     /* may be 0: then the stream doesn't say */
    uint64_t aspect_numerator;     /* a pixel's width by its height */
    uint64_t aspect_denominator;   /* may be 0 */
    uint64_t luma_offset;          /* the sample that is black: 16 in video range, 0 in full range */
    uint64_t luma_excursion;       /* from black to white: 219 in video range, 255 in full range */
    uint64_t chroma_offset;        /* the sample without colour: 128 */
    uint64_t chroma_excursion;     /* 224 in video range, 255 in full range */
    uint64_t clean_width;          /* the part to be shown; nothing says that it lies in the picture */
    uint64_t clean_height;
    uint64_t clean_left;
    uint64_t clean_top;
} jev_format;

/* The version of the library, as JEV_VERSION is of the header: a caller that finds another number stops. */
uint32_t jev_version(void);

/* Opens a decoder at the beginning of a stream. One that was open is closed then, with all that it held; where memory
 * is wanting it is as it was. JEV_OK or JEV_NO_MEMORY. */
int32_t jev_decoder_open(jev_decoder *decoder);

/* Sends the next bytes of the stream: any number, also 0, cut anywhere. They are copied, so `bytes` stays the caller's.
 * Behind the stream's first fault, and once next answered JEV_NO_MEMORY, they are counted and not kept, and change
 * nothing of what next answers. Till then a decoder holds all that was sent and not yet taken, and at most as many
 * taken bytes: where next is asked until JEV_NEEDS, less than a unit, though also of one that is only passed over,
 * which may have 4 GiB by its header. JEV_OK, or with no byte taken JEV_NO_MEMORY (they
 * may be sent again; also where they would be more than INT64_MAX in all), JEV_FINISHED or JEV_CLOSED. */
int32_t jev_decoder_send(jev_decoder *decoder, const uint8_t *bytes, size_t length);

/* Says that no more bytes follow. Where that was said before it does nothing. JEV_OK or JEV_CLOSED. */
int32_t jev_decoder_finish(jev_decoder *decoder);

/* What is next: JEV_PICTURE, JEV_NEEDS, JEV_END, JEV_FAULT, JEV_NO_MEMORY, JEV_STOPPED or JEV_CLOSED, of which `frame`
 * tells more. Pictures come in the order in which they are shown, all before the end or the fault. Whatever the pieces
 * that were sent, the answers but JEV_NEEDS and JEV_NO_MEMORY are the same. It never waits, and takes units up to the
 * next picture that leaves. */
int32_t jev_decoder_next(jev_decoder *decoder, jev_frame *frame);

/* Copies a plane of the picture that the last next answered, 0 for Y, 1 for U (Cb), 2 for V (Cr), into `out`, of
 * `length` bytes: a byte a sample, the first row at out[0], each further one `stride` bytes behind the one before it.
 * Bytes between and behind rows are left as they are. `length` may end with the last row's last sample. The picture
 * stays, so that planes may be copied in any order and again. JEV_OK, or with no byte written JEV_CLOSED,
 * JEV_NO_PICTURE, JEV_UNKNOWN or JEV_SMALL. */
int32_t jev_decoder_plane(jev_decoder *decoder, uint32_t plane, uint8_t *out, size_t length, size_t stride);

/* The format of the picture that the last next answered; else that of the last sequence whose header was read. JEV_OK,
 * or with `format` as it was JEV_CLOSED or JEV_NO_PICTURE. */
int32_t jev_decoder_format(jev_decoder *decoder, jev_format *format);

/* Closes a decoder and frees all that it holds. A closed one stays closed, so closing twice does nothing. It may be
 * opened again. */
void jev_decoder_close(jev_decoder *decoder);

/* How many causes there are, and room enough for the name of each. */
#define JEV_CAUSES 36
#define JEV_CAUSE_ROOM 32

/* Writes the name of a cause of a fault, such as MissingEnd, with no zero behind it, and returns its length. Returns 0
 * where there is no such cause, or where the name is longer than `length`; then nothing is written. */
size_t jev_cause_name(uint32_t cause, uint8_t *out, size_t length);

#ifdef __cplusplus
}
#endif

#endif
