/* The header as C99 and as C++: the scene examples/first, an amplitude, sound files. */
#include <stdio.h>
#include <string.h>

#include "room_desk.h"

int main(int count, char **words) {
    static uint8_t scene[16384];
    static const float samples[] = {0.5f, -0.25f, 1.0f, 0.0f};
    static const float none[1] = {0.0f};
    float output[4] = {7.0f, 7.0f, 7.0f, 7.0f}, amplitude = -1.0f;
    uint8_t wave[52], aiff[62], again[52];
    uint32_t rate = 0, channels = 0, bits = 0, frames = 0, silences[1] = {9};
    FILE *file = count == 2 ? fopen(words[1], "rb") : NULL;
    size_t length = file ? fread(scene, 1, sizeof scene, file) : 0;

    if (room_desk_render(scene, length, samples, 4, none, 0, output, 0) != ROOM_DESK_LENGTH)
        return 1;
    if (room_desk_render(scene, length, samples, 4, none, 0, output, 4) != ROOM_DESK_OK)
        return 2;
    if (memcmp(output, samples, sizeof samples) != 0)
        return 3;
    if (room_desk_silent(scene, length, samples, 4, none, 0, silences, 1) != ROOM_DESK_OK)
        return 16;
    if (silences[0] != ROOM_DESK_NOT_SILENT)
        return 17;
    if (room_desk_silent(scene, length, samples, 4, none, 0, silences, 0) != ROOM_DESK_LENGTH)
        return 18;
    if (room_desk_amplitude(-60.0f, &amplitude) != ROOM_DESK_OK || amplitude != 0.0f)
        return 4;
    if (room_desk_wave_length(4, 2, 16) != sizeof wave || room_desk_aiff_length(4, 2) != sizeof aiff)
        return 5;
    if (room_desk_wave_write(8192, 2, 16, samples, 4, wave, sizeof wave) != ROOM_DESK_OK)
        return 6;
    if (room_desk_wave_info(wave, sizeof wave, &rate, &channels, &bits, &frames) != ROOM_DESK_OK)
        return 7;
    if (rate != 8192 || channels != 2 || bits != 16 || frames != 2)
        return 8;
    if (room_desk_wave_to_aiff(wave, sizeof wave, aiff, sizeof aiff) != ROOM_DESK_OK)
        return 9;
    if (room_desk_aiff_to_wave(aiff, sizeof aiff, again, sizeof again) != ROOM_DESK_OK)
        return 10;
    if (memcmp(wave, again, sizeof wave) != 0)
        return 11;
    if (room_desk_aiff_read(aiff, sizeof aiff, output, 4, &rate) != ROOM_DESK_OK || rate != 8192)
        return 12;
    if (room_desk_wave_read(aiff, sizeof aiff, output, 4, &rate) != ROOM_DESK_NOT_WAVE)
        return 13;
    if (room_desk_aiff_info(wave, sizeof wave, &rate, &channels, &frames) != ROOM_DESK_NOT_AIFF)
        return 14;
    if (room_desk_aiff_write(7999, 2, samples, 4, aiff, sizeof aiff) != ROOM_DESK_RANGE)
        return 15;
    fclose(file);
    puts("the header's routines answer as they should");
    return 0;
}
