// The month as a plain loop: each sample is looked at once, in turn. It asks 25 and nothing else. For a comparison of speed with month_report.
#include <math.h>
#include <stdint.h>
#include <stdio.h>
#include <string.h>

enum { PIECE = 16384 };

static uint64_t mixes, frames, full, squares, mix, place;
static float peak = -1;

// Answers how many samples the file has, or -1 where one is out of range.
static int64_t read_mix(FILE *file) {
    static float buffer[PIECE];
    uint64_t count = 0;
    size_t n;
    setvbuf(file, NULL, _IONBF, 0);
    while ((n = fread(buffer, 4, PIECE, file)) > 0) {
        for (size_t i = 0; i < n; i++) {
            float x = buffer[i], m = fabsf(x), r = rintf(x * 32768);
            int64_t v = r > 32767 ? 32767 : (int64_t)r;
            if (!(m <= 1)) return -1;
            if (m == 1) full++;
            if (m > peak) { peak = m; mix = mixes; place = count + i + 1; }
            squares += (uint64_t)(v * v);
        }
        count += n;
    }
    return (int64_t)count;
}

int main(void) {
    int c;
    while ((c = getchar()) != EOF) {
        char name[32];
        getchar();
        mixes++;
        snprintf(name, sizeof name, "mix%llu.raw", (unsigned long long)mixes);
        FILE *file = fopen(name, "rb");
        if (!file) continue;
        int64_t count = read_mix(file);
        fclose(file);
        if (count < 0) { printf("refused\n25\n"); return 0; }
        frames += (uint64_t)count / (uint64_t)(c - '0');
    }
    uint32_t bits = 0;
    if (peak >= 0) memcpy(&bits, &peak, 4);
    printf("mixes frames full peak mix sample squares\n%llu %llu %llu %u %llu %llu %llu\n", (unsigned long long)mixes, (unsigned long long)frames,
           (unsigned long long)full, bits, (unsigned long long)mix, (unsigned long long)place, (unsigned long long)squares);
}
