/* Makes what a reader typed safe to show in a page:  comment_sanitizer <comment.txt >comment.html */
#include "read_page.h"

int main(void) {
    size_t len, needed, room;
    uint8_t *comment = read_page(&len), *safe = NULL;
    tl_status status = comment == NULL ? TL_OUT_OF_MEMORY : TL_NO_ROOM;
    /* First with some room more than it has bytes, then with as much as is needed. */
    for (room = len + len / 4 + 64; status == TL_NO_ROOM; room = needed) {
        free(safe);
        safe = malloc(room);
        status = safe == NULL ? TL_OUT_OF_MEMORY : tl_sanitize_html(comment, len, safe, room, &needed);
    }
    if (status == TL_DONE) fwrite(safe, 1, needed, stdout);
    else fprintf(stderr, "comment_sanitizer: %s\n", tl_status_text(status));
    free(safe), free(comment);
    return status;
}
