/* What bench/sessions.sh times beside the session: `copy SIZE FILE` takes the bytes of a file in pieces of so many bytes and copies them,
 * byte by byte; `echo SIZE FILE` puts frames together by hand and copies each as the reply to it. Both print how many bytes were copied
 * out. */
#include <stdio.h>
#include <stdlib.h>
#include <string.h>

static unsigned char frame[65536], out[131072];
static size_t held, said;

/* not in line: a piece comes from outside */
__attribute__((noinline)) static void copy_piece(const unsigned char *piece, size_t width) {
    for (size_t i = 0; i < width; i++) out[i] = piece[i];
    said += width;
}

__attribute__((noinline)) static void echo_piece(const unsigned char *piece, size_t width) {
    size_t length = held < 4 ? 8 : (size_t)frame[2] << 8 | frame[3], filled = 0;
    for (size_t i = 0; i < width; i++) {
        frame[held++] = piece[i];
        if (held == 4) length = (size_t)frame[2] << 8 | frame[3];
        if (held < 8 || held < length) continue;
        frame[1] = 3;
        for (size_t k = 0; k < length; k++) out[filled + k] = frame[k];
        filled += length;
        held = 0;
        length = 8;
    }
    said += filled;
}

int main(int argc, char **argv) {
    if (argc != 4) return 2;
    size_t size = strtoul(argv[2], 0, 10), length;
    FILE *file = fopen(argv[3], "rb");
    if (!file || size == 0 || size > 65536) return 2;
    fseek(file, 0, SEEK_END);
    length = (size_t)ftell(file);
    rewind(file);
    unsigned char *bytes = malloc(length);
    if (!bytes || fread(bytes, 1, length, file) != length) return 2;
    for (size_t at = 0; at < length; at += size) {
        size_t width = length - at < size ? length - at : size;
        (argv[1][0] == 'c' ? copy_piece : echo_piece)(bytes + at, width);
    }
    printf("said %zu\n", said);
    return 0;
}
