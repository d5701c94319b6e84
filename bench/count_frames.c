/* Counts the frames of standard input (LSP 3.17, base protocol). It checks little: it is what `bench/frames.sh` compares with. */
#include <ctype.h>
#include <stdio.h>
#include <string.h>
#include <unistd.h>

static const char NAME[] = "content-length:";

int main(void) {
    static unsigned char piece[65536];
    unsigned long long frames = 0, bytes = 0, length = 0, body = 0;
    size_t column = 0, spelled = 0;
    ssize_t count;
    while ((count = read(0, piece, sizeof piece)) > 0) {
        bytes += count;
        for (ssize_t at = 0; at < count;) {
            if (body > 0) {
                size_t left = count - at, taken = body < left ? body : left;
                body -= taken;
                at += taken;
                frames += body == 0;
                continue;
            }
            unsigned char c = piece[at++];
            if (c == '\n') {
                if (column == 0) {
                    body = length;
                    frames += length == 0;
                    length = 0;
                }
                column = spelled = 0;
            } else if (c != '\r') {
                if (column == spelled && spelled < sizeof NAME - 1)
                    spelled += tolower(c) == NAME[spelled];
                else if (spelled == sizeof NAME - 1 && isdigit(c))
                    length = length * 10 + (c - '0');
                column++;
            }
        }
    }
    printf("%llu frames, %llu bytes\n", frames, bytes);
    return 0;
}
