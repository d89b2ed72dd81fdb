/* jevmutzaldec: a GStreamer decoder of Dirac over libjevmutzal.
 *
 * It takes the bytes of a stream cut anywhere, so no parser is needed before it, and the packets of a container. Each
 * unit is a frame of GstVideoDecoder; those without a picture are let go. Pictures leave in the order that the library
 * gives, each by the frame of its number, so that a container's times stay with their pictures; where there are none,
 * times are counted by the stream's rate. The first fault ends the stream with an error that names it, but for a
 * missing end unit, which containers leave out. Fields leave as pictures of half the rows at twice the rate. */
#include "jevmutzal.h"

#include <gst/gst.h>
#include <gst/video/video.h>

#define PARSE_INFO_LENGTH 13
#define END_OF_SEQUENCE 0x10
#define IS_PICTURE(code) (((code) & 0x08) != 0)

#define JEVMUTZAL_TYPE_DEC (jevmutzal_dec_get_type())
G_DECLARE_FINAL_TYPE(JevmutzalDec, jevmutzal_dec, JEVMUTZAL, DEC, GstVideoDecoder)

struct _JevmutzalDec {
    GstVideoDecoder parent;
    jev_decoder decoder;
    gboolean is_finished;
    GstVideoCodecState *input;
    /* what the pictures that leave now were announced as */
    jev_format format;
    guint width, height;
    gint rate_n, rate_d;
    /* the time of units without a picture, which is that of the picture behind them */
    GstClockTime pending;
    gboolean has_times;
    /* where there are no times: where this format began, and the pictures of it that left */
    GstClockTime began;
    guint64 shown;
};

G_DEFINE_TYPE(JevmutzalDec, jevmutzal_dec, GST_TYPE_VIDEO_DECODER)

static GstStaticPadTemplate sink_template =
    GST_STATIC_PAD_TEMPLATE("sink", GST_PAD_SINK, GST_PAD_ALWAYS, GST_STATIC_CAPS("video/x-dirac"));
static GstStaticPadTemplate src_template = GST_STATIC_PAD_TEMPLATE(
    "src", GST_PAD_SRC, GST_PAD_ALWAYS, GST_STATIC_CAPS(GST_VIDEO_CAPS_MAKE("{ I420, Y42B, Y444 }")));

/* The next unit; where none can be told all that is there, which the library then judges. */
static GstFlowReturn jevmutzal_dec_parse(GstVideoDecoder *base, GstVideoCodecFrame *frame, GstAdapter *adapter,
                                         gboolean at_eos) {
    gsize there = gst_adapter_available(adapter), length = there;
    (void)frame;
    if (there < PARSE_INFO_LENGTH && !at_eos) return GST_VIDEO_DECODER_FLOW_NEED_DATA;
    if (there >= PARSE_INFO_LENGTH) {
        guint8 info[PARSE_INFO_LENGTH];
        gst_adapter_copy(adapter, info, 0, sizeof info);
        guint32 next = GST_READ_UINT32_BE(info + 5);
        if (info[4] == END_OF_SEQUENCE && next == 0) next = PARSE_INFO_LENGTH;
        if (memcmp(info, "BBCD", 4) == 0 && next >= PARSE_INFO_LENGTH) {
            if (there < next && !at_eos) return GST_VIDEO_DECODER_FLOW_NEED_DATA;
            length = MIN(there, next);
        }
    }
    gst_video_decoder_add_to_frame(base, (int)length);
    return gst_video_decoder_have_frame(base);
}

static GstFlowReturn report_fault(JevmutzalDec *self, const jev_frame *frame) {
    char name[JEV_CAUSE_ROOM + 1];
    name[jev_cause_name(frame->cause, (guint8 *)name, JEV_CAUSE_ROOM)] = 0;
    if (self->is_finished && g_str_equal(name, "MissingEnd")) {
        GST_WARNING_OBJECT(self, "the stream has no end unit");
        return GST_FLOW_OK;
    }
    GST_ELEMENT_ERROR(self, STREAM, DECODE, ("The Dirac stream has a fault: %s.", name),
                      ("fault unit=%" G_GUINT64_FORMAT " at=%" G_GUINT64_FORMAT " cause=%s", (guint64)frame->unit,
                       (guint64)frame->at, name));
    return GST_FLOW_ERROR;
}

static GstFlowReturn report_memory(JevmutzalDec *self) {
    GST_ELEMENT_ERROR(self, RESOURCE, NO_SPACE_LEFT, ("No memory to decode the Dirac stream."), (NULL));
    return GST_FLOW_ERROR;
}

/* A ratio of 64-bit numbers as near as 31 bits tell it; nothing and one where the stream doesn't say. */
static void set_ratio(guint64 numerator, guint64 denominator, gint *n, gint *d) {
    while (numerator > G_MAXINT || denominator > G_MAXINT) {
        numerator /= 2;
        denominator /= 2;
    }
    if (numerator == 0 || denominator == 0) return;
    *n = (gint)numerator;
    *d = (gint)denominator;
}

/* How long so many pictures of this format last; nothing where the stream doesn't say. */
static GstClockTime time_of(JevmutzalDec *self, guint64 pictures) {
    if (self->rate_n == 0) return 0;
    return gst_util_uint64_scale(pictures, (guint64)self->rate_d * GST_SECOND, (guint64)self->rate_n);
}

static gboolean announce(JevmutzalDec *self, const jev_frame *frame) {
    static const GstVideoFormat formats[] = {GST_VIDEO_FORMAT_Y444, GST_VIDEO_FORMAT_Y42B, GST_VIDEO_FORMAT_I420};
    GstVideoDecoder *base = GST_VIDEO_DECODER(self);
    jev_format format;
    if (jev_decoder_format(&self->decoder, &format) != JEV_OK || format.chroma > 2) return FALSE;
    if (frame->width == self->width && frame->height == self->height &&
        memcmp(&format, &self->format, sizeof format) == 0)
        return TRUE;
    GstVideoCodecState *state = gst_video_decoder_set_output_state(base, formats[format.chroma], frame->width,
                                                                   frame->height, self->input);
    state->info.fps_n = 0;
    state->info.fps_d = 1;
    set_ratio(format.fields ? 2 * format.rate_numerator : format.rate_numerator, format.rate_denominator,
              &state->info.fps_n, &state->info.fps_d);
    state->info.par_n = state->info.par_d = 1;
    set_ratio(format.aspect_numerator, format.aspect_denominator, &state->info.par_n, &state->info.par_d);
    self->began += time_of(self, self->shown);
    self->shown = 0;
    self->rate_n = state->info.fps_n;
    self->rate_d = state->info.fps_d;
    state->info.interlace_mode = GST_VIDEO_INTERLACE_MODE_PROGRESSIVE;
    state->info.colorimetry.range =
        format.luma_offset == 0 ? GST_VIDEO_COLOR_RANGE_0_255 : GST_VIDEO_COLOR_RANGE_16_235;
    gst_video_codec_state_unref(state);
    self->format = format;
    self->width = frame->width;
    self->height = frame->height;
    return gst_video_decoder_negotiate(base);
}

/* The oldest frame whose unit is the picture of this number. */
static GstVideoCodecFrame *frame_of(GstVideoDecoder *base, guint32 number) {
    GstVideoCodecFrame *found = NULL;
    GList *frames = gst_video_decoder_get_frames(base);
    for (GList *it = frames; it && !found; it = it->next) {
        guint32 *its = gst_video_codec_frame_get_user_data(it->data);
        if (its && *its == number) found = gst_video_codec_frame_ref(it->data);
    }
    g_list_free_full(frames, (GDestroyNotify)gst_video_codec_frame_unref);
    return found;
}

static gboolean copy_planes(JevmutzalDec *self, const jev_frame *frame, GstVideoFrame *out) {
    for (guint plane = 0; plane < 3; plane++) {
        gsize stride = (gsize)GST_VIDEO_FRAME_PLANE_STRIDE(out, plane);
        gsize width = plane ? frame->chroma_width : frame->width, height = plane ? frame->chroma_height : frame->height;
        gsize length = stride * (height - 1) + width;
        if (jev_decoder_plane(&self->decoder, plane, GST_VIDEO_FRAME_PLANE_DATA(out, plane), length, stride) != JEV_OK)
            return FALSE;
    }
    return TRUE;
}

static void set_time(JevmutzalDec *self, GstVideoCodecFrame *leaving) {
    if (self->rate_n == 0) return;
    leaving->duration = time_of(self, 1);
    if (!self->has_times) leaving->pts = self->began + time_of(self, self->shown);
}

static GstFlowReturn show(JevmutzalDec *self, const jev_frame *frame) {
    GstVideoDecoder *base = GST_VIDEO_DECODER(self);
    GstVideoCodecFrame *leaving = frame_of(base, frame->number);
    GstVideoFrame out;
    if (!leaving) return GST_FLOW_OK;
    if (!announce(self, frame)) {
        gst_video_codec_frame_unref(leaving);
        return GST_FLOW_NOT_NEGOTIATED;
    }
    GstFlowReturn flow = gst_video_decoder_allocate_output_frame(base, leaving);
    if (flow != GST_FLOW_OK) {
        gst_video_codec_frame_unref(leaving);
        return flow;
    }
    GstVideoCodecState *state = gst_video_decoder_get_output_state(base);
    gboolean is_copied = gst_video_frame_map(&out, &state->info, leaving->output_buffer, GST_MAP_WRITE);
    gst_video_codec_state_unref(state);
    if (is_copied) {
        is_copied = copy_planes(self, frame, &out);
        gst_video_frame_unmap(&out);
    }
    if (!is_copied) {
        gst_video_decoder_drop_frame(base, leaving);
        return GST_FLOW_ERROR;
    }
    set_time(self, leaving);
    self->shown++;
    return gst_video_decoder_finish_frame(base, leaving);
}

/* Gives all that the library has so far. */
static GstFlowReturn show_all(JevmutzalDec *self) {
    for (;;) {
        jev_frame frame;
        GstFlowReturn flow;
        switch (jev_decoder_next(&self->decoder, &frame)) {
        case JEV_PICTURE:
            if ((flow = show(self, &frame)) != GST_FLOW_OK) return flow;
            break;
        case JEV_NEEDS:
        case JEV_END: return GST_FLOW_OK;
        case JEV_FAULT: return report_fault(self, &frame);
        default: return report_memory(self);
        }
    }
}

static gboolean reopen(JevmutzalDec *self) {
    self->is_finished = FALSE;
    self->pending = GST_CLOCK_TIME_NONE;
    return jev_decoder_open(&self->decoder) == JEV_OK;
}

static GstFlowReturn jevmutzal_dec_handle_frame(GstVideoDecoder *base, GstVideoCodecFrame *frame) {
    JevmutzalDec *self = JEVMUTZAL_DEC(base);
    GstMapInfo map;
    if (self->is_finished && !reopen(self)) return report_memory(self);
    if (!gst_buffer_map(frame->input_buffer, &map, GST_MAP_READ)) return GST_FLOW_ERROR;
    gboolean is_picture = map.size >= PARSE_INFO_LENGTH + 4 && IS_PICTURE(map.data[4]);
    int32_t sent = map.size ? jev_decoder_send(&self->decoder, map.data, map.size) : JEV_OK;
    if (is_picture) {
        guint32 *number = g_new(guint32, 1);
        *number = GST_READ_UINT32_BE(map.data + PARSE_INFO_LENGTH);
        gst_video_codec_frame_set_user_data(frame, number, g_free);
    }
    gst_buffer_unmap(frame->input_buffer, &map);
    if (GST_CLOCK_TIME_IS_VALID(frame->pts)) self->has_times = TRUE;
    if (!is_picture) {
        if (GST_CLOCK_TIME_IS_VALID(frame->pts)) self->pending = frame->pts;
        gst_video_decoder_release_frame(base, frame);
    } else {
        if (!GST_CLOCK_TIME_IS_VALID(frame->pts)) frame->pts = self->pending;
        self->pending = GST_CLOCK_TIME_NONE;
        gst_video_codec_frame_unref(frame);
    }
    return sent == JEV_OK ? show_all(self) : report_memory(self);
}

static GstFlowReturn jevmutzal_dec_finish(GstVideoDecoder *base) {
    JevmutzalDec *self = JEVMUTZAL_DEC(base);
    if (self->is_finished) return GST_FLOW_OK;
    self->is_finished = TRUE;
    jev_decoder_finish(&self->decoder);
    return show_all(self);
}

/* Where a stream pauses: pictures that wait go on waiting for the units behind them. */
static GstFlowReturn jevmutzal_dec_drain(GstVideoDecoder *base) {
    return show_all(JEVMUTZAL_DEC(base));
}

static gboolean jevmutzal_dec_set_format(GstVideoDecoder *base, GstVideoCodecState *state) {
    JevmutzalDec *self = JEVMUTZAL_DEC(base);
    if (self->input) gst_video_codec_state_unref(self->input);
    self->input = gst_video_codec_state_ref(state);
    return TRUE;
}

static gboolean jevmutzal_dec_start(GstVideoDecoder *base) {
    JevmutzalDec *self = JEVMUTZAL_DEC(base);
    self->width = self->height = 0;
    self->rate_n = 0;
    self->began = 0;
    self->shown = 0;
    self->has_times = FALSE;
    return jev_version() == JEV_VERSION && reopen(self);
}

static gboolean jevmutzal_dec_stop(GstVideoDecoder *base) {
    JevmutzalDec *self = JEVMUTZAL_DEC(base);
    jev_decoder_close(&self->decoder);
    g_clear_pointer(&self->input, gst_video_codec_state_unref);
    return TRUE;
}

static gboolean jevmutzal_dec_flush(GstVideoDecoder *base) {
    return reopen(JEVMUTZAL_DEC(base));
}

static void jevmutzal_dec_class_init(JevmutzalDecClass *class) {
    GstElementClass *element = GST_ELEMENT_CLASS(class);
    GstVideoDecoderClass *decoder = GST_VIDEO_DECODER_CLASS(class);
    gst_element_class_add_static_pad_template(element, &sink_template);
    gst_element_class_add_static_pad_template(element, &src_template);
    gst_element_class_set_static_metadata(element, "Jevmutzal Dirac decoder", "Codec/Decoder/Video",
                                          "Decodes Dirac streams by libjevmutzal", "Jevmutzal maintainers");
    decoder->start = jevmutzal_dec_start;
    decoder->stop = jevmutzal_dec_stop;
    decoder->flush = jevmutzal_dec_flush;
    decoder->set_format = jevmutzal_dec_set_format;
    decoder->parse = jevmutzal_dec_parse;
    decoder->handle_frame = jevmutzal_dec_handle_frame;
    decoder->drain = jevmutzal_dec_drain;
    decoder->finish = jevmutzal_dec_finish;
}

static void jevmutzal_dec_init(JevmutzalDec *self) {
    /* GObject gives the memory as zeros, which is JEV_DECODER_INIT */
    gst_video_decoder_set_packetized(GST_VIDEO_DECODER(self), FALSE);
}

static gboolean plugin_init(GstPlugin *plugin) {
    return gst_element_register(plugin, "jevmutzaldec", GST_RANK_PRIMARY, JEVMUTZAL_TYPE_DEC);
}

#define PACKAGE "jevmutzal"
GST_PLUGIN_DEFINE(GST_VERSION_MAJOR, GST_VERSION_MINOR, jevmutzal, "Decodes Dirac", plugin_init, "1.0.0", "unknown",
                  PACKAGE, "libjevmutzal")
