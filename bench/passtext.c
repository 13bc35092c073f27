/* Writes a pass text of some megabytes: passtext MEGABYTES FLAG. Blocks of 2,048 pairs of a noisy carrier at 40,000 Hz, all with one flag. */
#include "signal.h"

enum { PAIRS = 2048 };

int main(int count, char **words) {
    static float samples[2 * PAIRS];
    static char line[16 * PAIRS + 8];
    static const char digits[] = "0123456789abcdef";
    double bytes = (count > 1 ? atof(words[1]) : 100.0) * 1e6;
    int flag = count > 2 ? atoi(words[2]) : 1;
    printf("rate factor mod adaptive dual bank fade nominal target\n40000 1 0 1 1 0 5 0 137500000\nflag samples\n");
    for (double done = 0; done < bytes; done += 16.0 * PAIRS + 3) {
        int at = snprintf(line, sizeof line, "%d ", flag);
        make_signal(samples, PAIRS, 0, 0.01, 0.3);
        for (int i = 0; i < 2 * PAIRS; i++) {
            uint32_t bits;
            memcpy(&bits, &samples[i], 4);
            for (int k = 28; k >= 0; k -= 4) line[at++] = digits[bits >> k & 15];
        }
        line[at++] = '\n';
        fwrite(line, 1, (size_t)at, stdout);
    }
    return 0;
}
