/* What the examples share. */
#include "tl.h"
#include <stdio.h>
#include <stdlib.h>
#include <string.h>

/* All of a file, and how long it is; NULL where memory runs out. */
static uint8_t *read_file(FILE *file, size_t *len) {
    size_t room = 1 << 16, got;
    uint8_t *page = malloc(room), *more;
    *len = 0;
    while (page != NULL && (got = fread(page + *len, 1, room - *len, file)) > 0) {
        *len += got;
        if (*len < room) continue;
        more = realloc(page, room *= 2);
        if (more == NULL) free(page);
        page = more;
    }
    return page;
}

/* The same of standard input. */
static inline uint8_t *read_page(size_t *len) {
    return read_file(stdin, len);
}

/* The same of the file of a name; NULL where it can't be read, too. */
static inline uint8_t *read_path(const char *path, size_t *len) {
    FILE *file = fopen(path, "rb");
    uint8_t *page = file == NULL ? NULL : read_file(file, len);
    if (file != NULL) fclose(file);
    return page;
}
