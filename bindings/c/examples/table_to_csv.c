/* Writes the rows of the tables of a page as CSV, of each row its own cells:  table_to_csv <page.html */
#include "read_page.h"

/* Room for any answer: what a page says has at most three bytes for one of it, as of a byte 0 (U+FFFD). */
static uint8_t *text;
static size_t room;

/* Writes the text of a cell in quotes. */
static tl_status write_cell(tl_document *document, uint32_t cell) {
    size_t len;
    tl_status status = tl_node_text(document, cell, text, room, &len);
    if (status != TL_DONE) return status;
    while (len > 0 && text[len - 1] <= ' ') len--;
    putchar('"');
    for (size_t at = 0; at < len; at++) {
        if (text[at] == '"') putchar('"');
        putchar(text[at]);
    }
    putchar('"');
    return TL_DONE;
}

/* Whether a node is a cell. */
static int is_cell(tl_document *document, uint32_t node) {
    uint8_t name[2];
    size_t len;
    return tl_node_name(document, node, name, 2, &len) == TL_DONE && len == 2 && (!memcmp(name, "td", 2) || !memcmp(name, "th", 2));
}

int main(void) {
    tl_document document = TL_NO_DOCUMENT;
    size_t len, count, place;
    uint8_t cause, *page = read_page(&len);
    room = 3 * len + 1;
    text = malloc(room);
    tl_status status = page && text ? tl_parse_html(page, len, &document) : TL_OUT_OF_MEMORY;
    uint32_t *rows = status == TL_DONE ? malloc(tl_node_count(&document) * sizeof *rows) : NULL;
    if (status == TL_DONE && rows == NULL) status = TL_OUT_OF_MEMORY;
    if (status == TL_DONE)
        status = tl_select_css(&document, (const uint8_t *)"tr", 2, rows, tl_node_count(&document), &count, &place, &cause);
    for (size_t at = 0; status == TL_DONE && at < count; at++) {
        const char *comma = "";
        uint32_t node = tl_node_first_child(&document, rows[at]);
        for (; status == TL_DONE && node != TL_NO_NODE; node = tl_node_next_sibling(&document, node))
            if (is_cell(&document, node)) {
                fputs(comma, stdout), comma = ",";
                status = write_cell(&document, node);
            }
        putchar('\n');
    }
    if (status != TL_DONE) fprintf(stderr, "table_to_csv: %s\n", tl_status_text(status));
    tl_free(&document), free(rows), free(text), free(page);
    return status;
}
