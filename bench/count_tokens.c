/* Counts the tokens of standard input (R7RS 7.1.1), of the kinds that `bench/tokens.sh` writes. It checks little: it is what
   that script compares with. */
#include <stdio.h>
#include <stdlib.h>
#include <string.h>

static unsigned char ends[256];

static size_t word(const unsigned char *text, size_t at, size_t size) {
    while (at < size && !ends[text[at]])
        at++;
    return at;
}

static size_t quoted(const unsigned char *text, size_t at, size_t size, unsigned char close) {
    while (at < size && text[at] != close)
        at += text[at] == '\\' ? 2 : 1;
    return at + 1;
}

int main(void) {
    size_t size = 0, room = 1 << 20, count, at = 0, tokens = 0;
    unsigned char *text = malloc(room);
    while ((count = fread(text + size, 1, room - size, stdin)) > 0) {
        size += count;
        if (size == room)
            text = realloc(text, room *= 2);
    }
    for (const char *c = " \t\n\r()\";|"; *c; c++)
        ends[(unsigned char)*c] = 1;
    while (at < size) {
        unsigned char c = text[at];
        if (c == ' ' || c == '\t' || c == '\n' || c == '\r') {
            at++;
        } else if (c == ';') {
            while (at < size && text[at] != '\n')
                at++;
        } else {
            tokens++;
            if (c == '(' || c == ')' || c == '\'')
                at++;
            else if (c == '"' || c == '|')
                at = quoted(text, at + 1, size, c);
            else if (c == '#' && at + 2 < size && text[at + 1] == '\\')
                at = word(text, at + 3, size);
            else
                at = word(text, at, size);
        }
    }
    printf("%zu tokens\n", tokens);
    free(text);
    return 0;
}
