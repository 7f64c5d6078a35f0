/* Times GMime's decoders on a file, for the table in docs/SPEED.md:
 *   cc -O3 bench/gmime.c -o /tmp/gmime $(pkg-config --cflags --libs gmime-3.0) && /tmp/gmime base64 FILE
 * The whole file goes through one decode step; the best of eight runs counts, in raw megabytes a second. */
#include <gmime/gmime.h>
#include <stdio.h>
#include <stdlib.h>
#include <string.h>
#include <time.h>

int main(int argc, char **argv) {
    if (argc < 3) return 1;
    FILE *file = fopen(argv[2], "rb");
    if (!file) return 1;
    fseek(file, 0, SEEK_END);
    size_t len = ftell(file);
    rewind(file);
    unsigned char *raw = malloc(len), *out = malloc(len + 16);
    if (fread(raw, 1, len, file) != len) return 1;
    int base64 = !strcmp(argv[1], "base64");
    double best = 1e9;
    size_t given = 0;
    for (int run = 0; run < 8; run++) {
        struct timespec from, to;
        int state = 0;
        guint32 save = 0;
        clock_gettime(CLOCK_MONOTONIC, &from);
        given = base64 ? g_mime_encoding_base64_decode_step(raw, len, out, &state, &save)
                       : g_mime_encoding_quoted_decode_step(raw, len, out, &state, &save);
        clock_gettime(CLOCK_MONOTONIC, &to);
        double took = (to.tv_sec - from.tv_sec) + (to.tv_nsec - from.tv_nsec) / 1e9;
        if (took < best) best = took;
    }
    printf("raw %zu decoded %zu MB/s %.0f\n", len, given, len / best / 1e6);
    return 0;
}
