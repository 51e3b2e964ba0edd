/* Names the links of pages that lead to no file beside them, or to no place in the page:  link_checker PAGE..
 * Links with a scheme or a host aren't looked at. Status 1 says that some lead nowhere. */
#include "read_page.h"
#include <unistd.h>

/* Whether a tag of the document is the place that a link `#id` leads to. */
static int has_place(tl_document *document, const char *id, size_t room) {
    char *quoted = calloc(1, 2 * room), *selector = malloc(6 * room + 64), *end = quoted;
    uint32_t found = TL_NO_NODE;
    size_t place;
    uint8_t cause;
    for (; quoted && *id; *end++ = *id++) if (*id == '"' || *id == '\\') *end++ = '\\';
    int len = quoted && selector ? sprintf(selector, "[id=\"%s\"], a[name=\"%s\"]", quoted, quoted) : 0;
    if (len > 0) tl_first_css(document, (uint8_t *)selector, len, &found, &place, &cause);
    free(selector), free(quoted);
    return found != TL_NO_NODE;
}

/* Whether a link of a page leads somewhere. */
static int leads(tl_document *document, const char *page, char *link, char *path, size_t room) {
    size_t name_len = strcspn(link, ":/?#");
    if (link[0] == '#') return link[1] == 0 || has_place(document, link + 1, room);
    if (link[name_len] == ':' || link[0] == '/') return 1;
    link[strcspn(link, "?#")] = 0;
    const char *slash = strrchr(page, '/');
    sprintf(path, "%.*s%s", slash ? (int)(slash - page + 1) : 0, page, link);
    return access(path, F_OK) == 0;
}

/* Names the links at a key where a selector holds, and counts those that lead nowhere. */
static tl_status check(tl_document *document, const char *page, const char *selector, const char *key, size_t room, int *lost) {
    uint32_t *nodes = malloc(room * sizeof *nodes);
    uint8_t *link = malloc(room + 1), *path = malloc(room + strlen(page) + 2), cause;
    size_t count, place, len;
    tl_status status = nodes && link && path ? TL_DONE : TL_OUT_OF_MEMORY;
    if (status == TL_DONE) status = tl_select_css(document, (uint8_t *)selector, strlen(selector), nodes, room, &count, &place, &cause);
    for (size_t at = 0; status == TL_DONE && at < count; at++) {
        status = tl_attribute(document, nodes[at], (uint8_t *)key, strlen(key), link, room, &len);
        if (status == TL_DONE) link[len] = 0;
        if (status == TL_DONE && !leads(document, page, (char *)link, (char *)path, room)) printf("%s: %s\n", page, link), ++*lost;
    }
    return free(path), free(link), free(nodes), status;
}

int main(int count, char **pages) {
    int lost = 0;
    for (int at = 1; at < count; at++) {
        tl_document document = TL_NO_DOCUMENT;
        size_t len = 0;
        uint8_t *page = read_path(pages[at], &len);
        tl_status status = page ? tl_parse_html(page, len, &document) : TL_NOT_UNDERSTOOD;
        if (status == TL_DONE) status = check(&document, pages[at], "a[href]", "href", 3 * len + 1, &lost);
        if (status == TL_DONE) status = check(&document, pages[at], "img[src]", "src", 3 * len + 1, &lost);
        if (status != TL_DONE) fprintf(stderr, "%s: %s\n", pages[at], tl_status_text(status)), lost++;
        tl_free(&document), free(page);
    }
    return lost > 0;
}
