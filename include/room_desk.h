/* room_desk.h: the proved mixer Room Desk Two, for C (C99 on) and C++.
 *
 * One archive has every routine: `rust/archive` writes target/product/libroom_desk.a
 * (x86-64 Linux). Nothing else is linked but memcpy, memset and memmove:
 *
 *     cc -std=c99 -I include show.c target/product/libroom_desk.a
 *
 * Every routine is pure: no global state, no allocation, no system call, no errno. Calls from
 * several threads at once are safe as long as nothing that one writes is lent to another.
 * A routine that refuses writes nothing: every buffer and every place keeps what it held.
 *
 * Stack: a render needs less than 288 KiB. Give a thread that renders 512 KiB.
 * Lengths count elements, not bytes. Buffers of one call must not overlap. A buffer of length 0
 * may stand at any address that is aligned for its type and not null.
 */
#ifndef ROOM_DESK_H
#define ROOM_DESK_H

#include <stddef.h>
#include <stdint.h>

#ifdef __cplusplus
extern "C" {
#endif

/* Answers: 0, or the number of the first question that says no. docs/REFUSALS.md says what to do. */
enum room_desk_answer {
    ROOM_DESK_OK                 = 0,
    ROOM_DESK_FILE_SIZE          = 1,  /* not 1 to 16,384 bytes, or the last is no line feed */
    ROOM_DESK_SPELLING           = 2,  /* a line of the scene is not spelled as the format asks */
    ROOM_DESK_LINE_COUNT         = 3,  /* a table has too many or too few lines */
    ROOM_DESK_RANGE              = 4,  /* a field is out of its range; a rate to write is */
    ROOM_DESK_REFERENCE          = 5,  /* a field names a line that is not there */
    ROOM_DESK_DEPTH              = 6,  /* a track stands deeper than 4 */
    ROOM_DESK_NAMED_TWICE        = 7,  /* a track is routed to one send track twice, or placed twice */
    ROOM_DESK_SOUND_PAST_SAMPLES = 8,  /* an odd number of samples, or a sound past their end */
    ROOM_DESK_SAMPLE_VALUE       = 9,  /* a sample is not a number in -1.0..1.0 */
    ROOM_DESK_LENGTH             = 10, /* a buffer to write has another length than it must have */
    ROOM_DESK_DECIBELS           = 11, /* a level is no number, or above 23.0 */
    ROOM_DESK_NOT_WAVE           = 13, /* not RIFF/WAVE, no 16-byte format chunk, or no data */
    ROOM_DESK_BROKEN_FILE        = 14, /* a chunk past the file's end, or a broken frame */
    ROOM_DESK_SAMPLE_KIND        = 15, /* neither 16-bit nor float, or not one or two channels */
    ROOM_DESK_NOT_AIFF           = 16, /* not AIFF, no 18-byte COMM, or no SSND */
    ROOM_DESK_NOT_16_BIT         = 17, /* a float sample that 16 bits don't hold */
    ROOM_DESK_RATE               = 18  /* a rate that is no whole number in 8000..192000 */
};

/* ---- Shows */

/* Renders a whole show: 0, or a number from 1 to 10.
 *   scene    the bytes of the scene file (docs/SCENE.md)
 *   samples  the house's recordings: left and right in turn, so two samples a frame
 *   visitor  a visitor's, in the same form; length 0 where there is none
 *   output   `channels` samples a frame, block * blocks * channels of them
 * To ask the questions alone, pass an output of length 0: a scene that is good in all else is
 * then answered 10, since every show has a sample.
 */
uint32_t room_desk_render(const uint8_t *scene, size_t scene_length,
                          const float *samples, size_t samples_length,
                          const float *visitor, size_t visitor_length,
                          float *output, size_t output_length);

/* The factor of a level in decibels: 0 and *amplitude, or 11. */
uint32_t room_desk_amplitude(float decibels, float *amplitude);

/* Which tracks cannot be heard, whatever lies inside them (docs/SILENCE.md): 0, or a number from
 * 1 to 9, or 10 where tracks_length is not the number of lines of the tracks table.
 */
enum room_desk_silence {
    ROOM_DESK_NOT_SILENT = 0, /* nothing is promised */
    ROOM_DESK_MUTED      = 1, /* at -60 dB or less all through, and nothing below it is routed */
    ROOM_DESK_HELD       = 2, /* paused at once in block 0 and never resumed */
    ROOM_DESK_INSIDE     = 3  /* below a track that is muted or held */
};
uint32_t room_desk_silent(const uint8_t *scene, size_t scene_length,
                          const float *samples, size_t samples_length,
                          const float *visitor, size_t visitor_length,
                          uint32_t *tracks, size_t tracks_length);

/* ---- WAVE files: one or two channels, 16-bit or 32-bit float (docs/SOUND_FILES.md) */

/* What a file holds: 0, or 13, 14, 15. */
uint32_t room_desk_wave_info(const uint8_t *file, size_t file_length, uint32_t *rate,
                             uint32_t *channels, uint32_t *bits, uint32_t *frames);
/* Its samples, 2 * frames of them (a mono file gives both sides): 0, or 13, 14, 15, 10. */
uint32_t room_desk_wave_read(const uint8_t *file, size_t file_length,
                             float *samples, size_t samples_length, uint32_t *rate);
/* The bytes of the file for so many samples (two a frame); 0 where there is no such file. */
size_t room_desk_wave_length(size_t samples, uint32_t channels, uint32_t bits);
/* The file; one channel takes the left samples: 0, or 4, 15, 8, 9, 10. */
uint32_t room_desk_wave_write(uint32_t rate, uint32_t channels, uint32_t bits,
                              const float *samples, size_t samples_length,
                              uint8_t *file, size_t file_length);

/* ---- AIFF files: one or two channels, 16-bit */

/* 0, or 16, 14, 15, 18. */
uint32_t room_desk_aiff_info(const uint8_t *file, size_t file_length, uint32_t *rate,
                             uint32_t *channels, uint32_t *frames);
/* 0, or 16, 14, 15, 18, 10. */
uint32_t room_desk_aiff_read(const uint8_t *file, size_t file_length,
                             float *samples, size_t samples_length, uint32_t *rate);
size_t room_desk_aiff_length(size_t samples, uint32_t channels);
/* 0, or 4, 15, 8, 9, 10. */
uint32_t room_desk_aiff_write(uint32_t rate, uint32_t channels,
                              const float *samples, size_t samples_length,
                              uint8_t *file, size_t file_length);

/* ---- Converting: the same samples, rate and channels. Make the second buffer
 * room_desk_aiff_length(2 * frames, channels) or room_desk_wave_length(2 * frames, channels, 16)
 * bytes long. */

/* 0, or 13, 14, 15, 17, 18, 10. */
uint32_t room_desk_wave_to_aiff(const uint8_t *wave, size_t wave_length,
                                uint8_t *aiff, size_t aiff_length);
/* 0, or 16, 14, 15, 18, 10. */
uint32_t room_desk_aiff_to_wave(const uint8_t *aiff, size_t aiff_length,
                                uint8_t *wave, size_t wave_length);

#ifdef __cplusplus
}
#endif
#endif
