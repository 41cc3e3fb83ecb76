/* The SMC decoder and encoder of libavcodec, in the few calls that the benchmark makes. Each is used as its documentation
 * asks, with no work beyond that: packets and frames are reference-counted before any time is taken, so that libavcodec
 * need not copy them, and a decoded frame is given back before the next packet, so that the decoder paints over it in place.
 *
 * Functions that give an int give 0, or libavcodec's negative error. */
#include <limits.h>
#include <stddef.h>
#include <stdint.h>
#include <string.h>

#include <libavcodec/avcodec.h>
#include <libavutil/avutil.h>
#include <libavutil/frame.h>
#include <libavutil/log.h>

struct bench_coder {
    AVCodecContext *context;
    /* what the decoder gave last */
    AVFrame *frame;
    /* what the encoder gave last */
    AVPacket *packet;
    int64_t sent;
};

const char *bench_ffmpeg_version(void)
{
    return av_version_info();
}

unsigned bench_avcodec_version(void)
{
    return avcodec_version();
}

void bench_close(struct bench_coder *coder)
{
    avcodec_free_context(&coder->context);
    av_frame_free(&coder->frame);
    av_packet_free(&coder->packet);
    av_free(coder);
}

static int open_context(AVCodecContext *context, const AVCodec *codec, int width, int height)
{
    context->width = width;
    context->height = height;
    context->pix_fmt = AV_PIX_FMT_PAL8;
    context->thread_count = 1;
    context->time_base = (AVRational){1, 25};
    /* every frame but the first against the one before it */
    context->gop_size = INT_MAX;
    return avcodec_open2(context, codec, NULL);
}

static struct bench_coder *open_coder(const AVCodec *codec, int width, int height)
{
    av_log_set_level(AV_LOG_QUIET);
    struct bench_coder *coder = codec ? av_mallocz(sizeof *coder) : NULL;
    if (!coder)
        return NULL;
    coder->context = avcodec_alloc_context3(codec);
    coder->frame = av_frame_alloc();
    coder->packet = av_packet_alloc();
    if (coder->context && coder->frame && coder->packet && open_context(coder->context, codec, width, height) == 0)
        return coder;
    bench_close(coder);
    return NULL;
}

struct bench_coder *bench_open_decoder(int width, int height)
{
    return open_coder(avcodec_find_decoder(AV_CODEC_ID_SMC), width, height);
}

struct bench_coder *bench_open_encoder(int width, int height)
{
    return open_coder(avcodec_find_encoder_by_name("smc"), width, height);
}

AVPacket *bench_new_packet(const uint8_t *chunk, int length)
{
    AVPacket *packet = av_packet_alloc();
    if (!packet || av_new_packet(packet, length) < 0) {
        av_packet_free(&packet);
        return NULL;
    }
    memcpy(packet->data, chunk, length);
    return packet;
}

void bench_free_packet(AVPacket *packet)
{
    av_packet_free(&packet);
}

/* All of this is timed. */
int bench_decode(struct bench_coder *decoder, const AVPacket *packet)
{
    /* while the caller has the frame, the decoder would have to copy it before painting on */
    av_frame_unref(decoder->frame);
    int error = avcodec_send_packet(decoder->context, packet);
    return error < 0 ? error : avcodec_receive_frame(decoder->context, decoder->frame);
}

void bench_copy_decoded(const struct bench_coder *decoder, uint8_t *picture)
{
    const AVFrame *frame = decoder->frame;
    for (int y = 0; y < frame->height; y++)
        memcpy(picture + y * frame->width, frame->data[0] + y * frame->linesize[0], frame->width);
}

static int fill_frame(AVFrame *frame, const uint8_t *picture, int width, int height)
{
    frame->format = AV_PIX_FMT_PAL8;
    frame->width = width;
    frame->height = height;
    int error = av_frame_get_buffer(frame, 0);
    if (error < 0)
        return error;
    for (int y = 0; y < height; y++)
        memcpy(frame->data[0] + y * frame->linesize[0], picture + y * width, width);
    memset(frame->data[1], 0, AVPALETTE_SIZE);
    return 0;
}

AVFrame *bench_new_frame(const uint8_t *picture, int width, int height)
{
    AVFrame *frame = av_frame_alloc();
    if (frame && fill_frame(frame, picture, width, height) < 0)
        av_frame_free(&frame);
    return frame;
}

void bench_free_frame(AVFrame *frame)
{
    av_frame_free(&frame);
}

/* All of this is timed. The frame is encoded against the one sent before it. */
int bench_encode(struct bench_coder *encoder, AVFrame *frame)
{
    frame->pts = encoder->sent++;
    int error = avcodec_send_frame(encoder->context, frame);
    return error < 0 ? error : avcodec_receive_packet(encoder->context, encoder->packet);
}

const uint8_t *bench_encoded(const struct bench_coder *encoder, size_t *length)
{
    *length = encoder->packet->size;
    return encoder->packet->data;
}
