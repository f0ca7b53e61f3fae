/* Runs the script on standard input and prints the result of its run, as the program oauth2_run does.
 *
 *     cc run.c -llifecrib -o run && ./run < script.json
 */
#include <stdio.h>
#include <stdlib.h>

#include "lifecrib.h"

static void stop(const char *why) {
    fprintf(stderr, "run: %s\n", why);
    exit(LIFECRIB_NO_MEMORY);
}

/* Room of so many bytes at least, all of them initialised. */
static uint8_t *room_of(size_t size) {
    uint8_t *room = calloc(size ? size : 1, 1);
    if (!room) stop("out of memory");
    return room;
}

/* All of standard input; *length becomes the number of its bytes. */
static uint8_t *input(size_t *length) {
    size_t size = 4096, got;
    uint8_t *text = room_of(size);
    *length = 0;
    while ((got = fread(text + *length, 1, size - *length, stdin)) > 0) {
        *length += got;
        if (*length == size) {
            size *= 2;
            text = realloc(text, size);
            if (!text) stop("out of memory");
        }
    }
    if (ferror(stdin)) stop("standard input cannot be read");
    return text;
}

int main(void) {
    size_t script_length, length, size = 4096;
    uint8_t *script = input(&script_length), *output = room_of(size);
    int status = lifecrib_run(script, script_length, output, size, &length);
    if (length > size) { /* it did not fit */
        free(output);
        output = room_of(size = length);
        status = lifecrib_run(script, script_length, output, size, &length);
    }
    if (fwrite(output, 1, length, stdout) < length || fflush(stdout)) stop("standard output cannot be written");
    free(output);
    free(script);
    return status;
}
