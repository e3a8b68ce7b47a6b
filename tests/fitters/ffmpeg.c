/* Plays a file with FFmpeg's flic demuxer and decoder and writes each frame: a byte (1 shown, 0 none came), the
 * pixels, the palette. Prints whether the file was recognised, how many bytes a row of the decoder's buffer has, and
 * for how long a frame shows: a fraction of seconds. */
#include <stdio.h>
#include <stdlib.h>
#include <string.h>

#include <libavcodec/avcodec.h>
#include <libavformat/avformat.h>

static FILE *out;
static int width, height, row_bytes;

static void write_frame(const AVFrame *frame)
{
    fputc(frame != NULL, out);
    for (int y = 0; y < height; y++)
        for (int x = 0; x < width; x++)
            fputc(frame == NULL ? 0 : frame->data[0][y * frame->linesize[0] + x], out);
    for (int i = 0; i < 256; i++) {
        uint32_t colour = 0;
        if (frame != NULL)
            memcpy(&colour, frame->data[1] + 4 * i, 4);
        fputc(colour >> 16 & 255, out);
        fputc(colour >> 8 & 255, out);
        fputc(colour & 255, out);
    }
    if (frame != NULL)
        row_bytes = frame->linesize[0];
}

static AVFormatContext *open_file(const char *path, int *recognised)
{
    AVFormatContext *file = NULL;
    *recognised = avformat_open_input(&file, path, NULL, NULL) == 0 && strcmp(file->iformat->name, "flic") == 0;
    if (*recognised)
        return file;
    avformat_close_input(&file);
    return avformat_open_input(&file, path, av_find_input_format("flic"), NULL) == 0 ? file : NULL;
}

int main(int count, char **words)
{
    if (count != 3 || (out = fopen(words[2], "wb")) == NULL) {
        fprintf(stderr, "use: ffmpeg FILE FRAMES\n");
        return 2;
    }
    av_log_set_level(AV_LOG_QUIET);
    int recognised;
    AVFormatContext *file = open_file(words[1], &recognised);
    if (file == NULL) {
        fprintf(stderr, "%s: FFmpeg can't open it\n", words[1]);
        return 2;
    }
    AVCodecContext *decoder = avcodec_alloc_context3(avcodec_find_decoder(AV_CODEC_ID_FLIC));
    avcodec_parameters_to_context(decoder, file->streams[0]->codecpar);
    decoder->thread_count = 1;
    if (avcodec_open2(decoder, NULL, NULL) != 0) {
        fprintf(stderr, "%s: no flic decoder\n", words[1]);
        return 2;
    }
    width = decoder->width;
    height = decoder->height;
    AVPacket *packet = av_packet_alloc();
    AVFrame *frame = av_frame_alloc();
    while (av_read_frame(file, packet) == 0) {
        int shown = avcodec_send_packet(decoder, packet) == 0 && avcodec_receive_frame(decoder, frame) == 0;
        write_frame(shown ? frame : NULL);
        av_packet_unref(packet);
        av_frame_unref(frame);
    }
    AVRational delay = file->streams[0]->time_base;
    printf("%d %d %d %d\n", recognised, row_bytes, delay.num, delay.den);
    return fclose(out) == 0 ? 0 : 2;
}
