/* Calls each function of tl.h that takes a document, for each status. Where one answers otherwise it says so on standard error, and
 * exits with 1. */
#include "tl.h"

#include <stdio.h>
#include <stdlib.h>
#include <string.h>

static uint8_t out[128];
static uint32_t numbers[8];
static size_t needed;

/* How many requests for memory are met before one is refused; none is where this is negative. The linker puts these functions in the
 * place of the heap's. */
static long refused = -1;

void *__real_malloc(size_t size);
void *__real_realloc(void *block, size_t size);
void *__wrap_malloc(size_t size);
void *__wrap_realloc(void *block, size_t size);

void *__wrap_malloc(size_t size) {
    return refused >= 0 && refused-- == 0 ? NULL : __real_malloc(size);
}

void *__wrap_realloc(void *block, size_t size) {
    return refused >= 0 && refused-- == 0 ? NULL : __real_realloc(block, size);
}

#define BYTES(text) (const uint8_t *)(text), sizeof(text) - 1
#define OUT out, sizeof out, &needed
#define NUMBERS numbers, sizeof numbers / sizeof *numbers, &needed
#define NO_NUMBER 4294967295
#define CHECK(fact) \
    do { \
        if (!(fact)) { \
            fprintf(stderr, "documents.c, line %d: %s\n", __LINE__, #fact); \
            exit(1); \
        } \
    } while (0)

/* Whether all from `at` on is as it was before the calls; after that all is so again. */
static int is_rest(size_t at) {
    int is = 1;
    for (; at < sizeof out; at++) is = is && out[at] == '.';
    memset(out, '.', sizeof out);
    return is;
}

/* Whether a call was done and put these bytes at the front of `out`, and wrote nothing after them. */
static int put(tl_status status, const char *bytes, size_t len) {
    return status == TL_DONE && needed == len && memcmp(out, bytes, len) == 0 && is_rest(len);
}

/* The same of numbers. */
static int found(tl_status status, const uint32_t *wanted, size_t count) {
    int is = status == TL_DONE && needed == count;
    for (size_t at = 0; at < 8; at++) is = is && numbers[at] == (at < count ? wanted[at] : NO_NUMBER);
    for (size_t at = 0; at < 8; at++) numbers[at] = NO_NUMBER;
    return is;
}

/* Whether a call answered this status, wrote nothing and needs so many items. */
static int left(tl_status status, tl_status wanted, size_t count) {
    int is = status == wanted && needed == count && is_rest(0);
    for (size_t at = 0; at < 8; at++) is = is && numbers[at] == NO_NUMBER;
    return is;
}

/* Whether the attributes of a node are these: each key with `=` and its value, and a space after it. */
static int has_attributes(tl_document *document, uint32_t node, const char *wanted) {
    uint8_t pairs[256];
    char said[256] = "";
    size_t count, at = 0;
    tl_pair pair;
    if (tl_node_attributes(document, node, pairs, sizeof pairs, &count) != TL_DONE) return 0;
    for (const uint8_t *here = pairs; tl_next_pair(&here, pairs + count, &pair);)
        at += (size_t)sprintf(said + at, "%.*s=%.*s ", (int)pair.key_len, (const char *)pair.key, (int)pair.value_len,
                              (const char *)pair.value);
    return strcmp(said, wanted) == 0;
}

/* Whether the bytes of a page that a node comes from are these. */
static int comes_from(tl_document *document, uint32_t node, const char *page, const char *wanted) {
    size_t start = 99, end = 99;
    if (tl_node_source(document, node, &start, &end) != TL_DONE) return 0;
    return end - start == strlen(wanted) && memcmp(page + start, wanted, end - start) == 0;
}

/* Whether a node comes from no bytes of the page. */
static int comes_from_none(tl_document *document, uint32_t node) {
    size_t start = 99, end = 99;
    return tl_node_source(document, node, &start, &end) == TL_REFUSED && start == 0 && end == 0;
}

#define PUTS(call, bytes) CHECK(put((call), bytes, sizeof(bytes) - 1))
#define FINDS(call, ...) \
    do { \
        const uint32_t wanted[] = {__VA_ARGS__, 0}; \
        CHECK(found((call), wanted, sizeof wanted / sizeof *wanted - 1)); \
    } while (0)
#define LEAVES(call, status, count) CHECK(left((call), (status), (count)))

/* What stands at a selector of CSS, and whether place and cause are told. */
#define WRONG(document, selector, at, why) \
    do { \
        size_t place = 99; \
        uint8_t cause = 99; \
        LEAVES(tl_select_css((document), BYTES(selector), NUMBERS, &place, &cause), TL_REFUSED, 0); \
        CHECK(place == (at) && cause == (why)); \
    } while (0)
#define SELECTS(document, selector, ...) \
    do { \
        size_t place = 99; \
        uint8_t cause = 99; \
        FINDS(tl_select_css((document), BYTES(selector), NUMBERS, &place, &cause), __VA_ARGS__); \
        CHECK(place == 0 && cause == TL_NO_CAUSE); \
    } while (0)

/* What a call answers that says one number, and whether place and cause are told. */
static uint32_t one;
static uint8_t is_met;
#define SAYS(call, wanted, said, number, at, why) \
    do { \
        size_t place = 99; \
        uint8_t cause = 99; \
        said = 99; \
        CHECK((call) == (wanted)); \
        CHECK(said == (number) && place == (at) && cause == (why)); \
    } while (0)
#define FIRST(document, selector, wanted, number, at, why) \
    SAYS(tl_first_css((document), BYTES(selector), &one, &place, &cause), wanted, one, number, at, why)
#define FIRST_BELOW(document, node, selector, wanted, number, at, why) \
    SAYS(tl_node_first_css((document), (node), BYTES(selector), &one, &place, &cause), wanted, one, number, at, why)
#define CLOSEST(document, node, selector, wanted, number, at, why) \
    SAYS(tl_node_closest_css((document), (node), BYTES(selector), &one, &place, &cause), wanted, one, number, at, why)
#define MATCHES(document, node, selector, wanted, number, at, why) \
    SAYS(tl_node_matches_css((document), (node), BYTES(selector), &is_met, &place, &cause), wanted, is_met, number, at, why)
#define SELECTS_BELOW(document, node, selector, ...) \
    do { \
        size_t place = 99; \
        uint8_t cause = 99; \
        FINDS(tl_node_select_css((document), (node), BYTES(selector), NUMBERS, &place, &cause), __VA_ARGS__); \
        CHECK(place == 0 && cause == TL_NO_CAUSE); \
    } while (0)
#define FINDS_NONE_BELOW(document, node, selector) \
    do { \
        size_t place = 99; \
        uint8_t cause = 99; \
        CHECK(found(tl_node_select_css((document), (node), BYTES(selector), NUMBERS, &place, &cause), NULL, 0)); \
        CHECK(place == 0 && cause == TL_NO_CAUSE); \
    } while (0)
#define LEAVES_BELOW(document, node, selector, status, at, why) \
    do { \
        size_t place = 99; \
        uint8_t cause = 99; \
        LEAVES(tl_node_select_css((document), (node), BYTES(selector), NUMBERS, &place, &cause), (status), 0); \
        CHECK(place == (at) && cause == (why)); \
    } while (0)

/* As people write it. 0 is the html, 1 the head, 2 the body, 3 the nav, 4 and 6 are links, 5 and 7 their texts, 8 is a paragraph with a
 * text (9), a comment (10) and a text (12) in a tag (11). */
static const char page[] = "<NAV><a href='?a=1&amp;b=2' hidden @click=f()>y</a><A>z</A></NAV><p>one<!-- no --><b>two";
#define NODES 13

static void asked_of_nodes(tl_document *document) {
    static const uint8_t kinds[] = {TL_ELEMENT, TL_ELEMENT, TL_ELEMENT, TL_ELEMENT, TL_ELEMENT, TL_TEXT, TL_ELEMENT, TL_TEXT,
                                    TL_ELEMENT, TL_TEXT, TL_COMMENT, TL_ELEMENT, TL_TEXT, TL_NONE};
    static const uint32_t parents[] = {TL_NO_NODE, 0, 0, 2, 3, 4, 3, 6, 2, 8, 8, 8, 11, TL_NO_NODE};
    static const uint32_t children[] = {1, TL_NO_NODE, 3, 4, 5, TL_NO_NODE, 7, TL_NO_NODE, 9, TL_NO_NODE, TL_NO_NODE, 12, TL_NO_NODE,
                                        TL_NO_NODE};
    static const uint32_t nexts[] = {TL_NO_NODE, 2, TL_NO_NODE, 8, 6, TL_NO_NODE, TL_NO_NODE, TL_NO_NODE, TL_NO_NODE, 10, 11, TL_NO_NODE,
                                     TL_NO_NODE, TL_NO_NODE};
    static const uint32_t befores[] = {TL_NO_NODE, TL_NO_NODE, 1, TL_NO_NODE, TL_NO_NODE, TL_NO_NODE, 4, TL_NO_NODE, 3, TL_NO_NODE, 9, 10,
                                       TL_NO_NODE, TL_NO_NODE};
    static const uint32_t ends[] = {13, 2, 13, 8, 6, 6, 8, 8, 13, 10, 11, 13, 13, TL_NO_NODE};
    CHECK(tl_node_count(document) == NODES);
    CHECK(tl_is_quirks(document) == 1);
    for (uint32_t node = 0; node <= NODES; node++) {
        CHECK(tl_node_kind(document, node) == kinds[node]);
        CHECK(tl_node_namespace(document, node) == (kinds[node] == TL_ELEMENT ? TL_HTML : TL_NO_NAMESPACE));
        CHECK(tl_node_parent(document, node) == parents[node]);
        CHECK(tl_node_first_child(document, node) == children[node]);
        CHECK(tl_node_next_sibling(document, node) == nexts[node]);
        CHECK(tl_node_previous_sibling(document, node) == befores[node]);
        CHECK(tl_node_end(document, node) == ends[node]);
    }
    CHECK(tl_node_parent(document, TL_NO_NODE) == TL_NO_NODE && tl_node_end(document, TL_NO_NODE) == TL_NO_NODE);

    CHECK(comes_from_none(document, 0) && comes_from_none(document, 1) && comes_from_none(document, NODES));
    CHECK(comes_from(document, 3, page, "<NAV>"));
    CHECK(comes_from(document, 4, page, "<a href='?a=1&amp;b=2' hidden @click=f()>"));
    CHECK(comes_from(document, 9, page, "one"));
    CHECK(comes_from(document, 10, page, "<!-- no -->"));
    CHECK(comes_from(document, 12, page, "two"));

    PUTS(tl_node_name(document, 3, OUT), "nav");
    LEAVES(tl_node_name(document, 3, out, 2, &needed), TL_NO_ROOM, 3);
    LEAVES(tl_node_name(document, 5, OUT), TL_REFUSED, 0);
    LEAVES(tl_node_name(document, NODES, OUT), TL_REFUSED, 0);

    PUTS(tl_attribute(document, 4, BYTES("href"), OUT), "?a=1&b=2");
    PUTS(tl_attribute(document, 4, BYTES("@click"), OUT), "f()");
    PUTS(tl_attribute(document, 4, BYTES("hidden"), OUT), "");
    LEAVES(tl_attribute(document, 4, BYTES("href"), out, 1, &needed), TL_NO_ROOM, 8);
    LEAVES(tl_attribute(document, 4, BYTES("HREF"), OUT), TL_REFUSED, 0);
    LEAVES(tl_attribute(document, 4, BYTES("hre"), OUT), TL_REFUSED, 0);
    LEAVES(tl_attribute(document, 4, BYTES(""), OUT), TL_REFUSED, 0);
    LEAVES(tl_attribute(document, 6, BYTES("href"), OUT), TL_REFUSED, 0);
    LEAVES(tl_attribute(document, 5, BYTES("href"), OUT), TL_REFUSED, 0);
    LEAVES(tl_attribute(document, NODES, BYTES("href"), OUT), TL_REFUSED, 0);

    CHECK(has_attributes(document, 4, "href=?a=1&b=2 hidden= @click=f() "));
    LEAVES(tl_node_attributes(document, 4, out, 10, &needed), TL_NO_ROOM, 3 * 16 + 4 + 8 + 6 + 6 + 3);
    PUTS(tl_node_attributes(document, 6, OUT), "");
    PUTS(tl_node_attributes(document, 5, OUT), "");
    LEAVES(tl_node_attributes(document, NODES, OUT), TL_REFUSED, 0);

    PUTS(tl_node_outer_html(document, 6, OUT), "<a>z</a>");
    PUTS(tl_node_outer_html(document, 9, OUT), "one");
    PUTS(tl_node_outer_html(document, 10, OUT), "<!-- no -->");
    LEAVES(tl_node_outer_html(document, 6, out, 7, &needed), TL_NO_ROOM, 8);
    LEAVES(tl_node_outer_html(document, NODES, OUT), TL_REFUSED, 0);
    PUTS(tl_node_inner_html(document, 8, OUT), "one<!-- no --><b>two</b>");
    PUTS(tl_node_inner_html(document, 9, OUT), "");
    LEAVES(tl_node_inner_html(document, 8, out, 7, &needed), TL_NO_ROOM, 24);
    LEAVES(tl_node_inner_html(document, NODES, OUT), TL_REFUSED, 0);
    LEAVES(tl_document_html(document, out, 7, &needed), TL_NO_ROOM, 140);

    PUTS(tl_node_text(document, 3, OUT), "yz");
    PUTS(tl_node_text(document, 5, OUT), "y");
    PUTS(tl_node_text(document, 8, OUT), "onetwo");
    PUTS(tl_node_text(document, 10, OUT), " no ");
    PUTS(tl_node_text(document, 1, OUT), "");
    LEAVES(tl_node_text(document, 8, out, 5, &needed), TL_NO_ROOM, 6);
    LEAVES(tl_node_text(document, NODES, OUT), TL_REFUSED, 0);
}

/* Of that page: what is found, first, below a node, from one outwards, and at one. */
static void asked_by_selectors(tl_document *document) {
    SELECTS(document, "a", 4, 6);
    SELECTS(document, "A + a", 6);
    SELECTS(document, "nav:has(a), b", 3, 11);
    SELECTS(document, "[href='?a=1&b=2']", 4);
    SELECTS(document, "[\\@click]", 4);
    SELECTS(document, ":scope", 0);
    WRONG(document, "p:hover", 2, TL_NO_PSEUDO_CLASS);
    WRONG(document, "a,", 2, TL_NO_SELECTOR);
    WRONG(document, "> a", 0, TL_NO_SELECTOR);
    WRONG(document, "p:nth-child(9999999999)", 12, TL_LARGE_NUMBER);
    size_t place = 99;
    uint8_t cause = 99;
    CHECK(found(tl_select_css(document, BYTES("i"), NUMBERS, &place, &cause), NULL, 0));
    LEAVES(tl_select_css(document, BYTES("\xff"), NUMBERS, &place, &cause), TL_NOT_UNDERSTOOD, 0);
    CHECK(place == 0 && cause == TL_NO_CAUSE);
    LEAVES(tl_select_css(document, BYTES("a"), numbers, 1, &needed, &place, &cause), TL_NO_ROOM, 2);

    FIRST(document, "a", TL_DONE, 4, 0, TL_NO_CAUSE);
    FIRST(document, "A + a, b", TL_DONE, 6, 0, TL_NO_CAUSE);
    FIRST(document, "i", TL_REFUSED, TL_NO_NODE, 0, TL_NO_CAUSE);
    FIRST(document, "a[", TL_REFUSED, TL_NO_NODE, 2, TL_NO_NAME);
    FIRST(document, "\xff", TL_NOT_UNDERSTOOD, TL_NO_NODE, 0, TL_NO_CAUSE);

    SELECTS_BELOW(document, 3, "a", 4, 6);
    SELECTS_BELOW(document, 3, "nav > a:last-child", 6);
    SELECTS_BELOW(document, 8, "*", 11);
    SELECTS_BELOW(document, 8, "nav ~ p b", 11);
    SELECTS_BELOW(document, 2, "> p, > b", 8);
    SELECTS_BELOW(document, 2, ":scope > *", 3, 8);
    FINDS_NONE_BELOW(document, 3, "nav, p, b");
    FINDS_NONE_BELOW(document, 3, "+ p");
    FINDS_NONE_BELOW(document, 12, "*");
    LEAVES(tl_node_select_css(document, 3, BYTES("a"), numbers, 1, &needed, &place, &cause), TL_NO_ROOM, 2);
    LEAVES_BELOW(document, NODES, "a", TL_REFUSED, 0, TL_NO_CAUSE);
    LEAVES_BELOW(document, 3, "> p:hover", TL_REFUSED, 4, TL_NO_PSEUDO_CLASS);
    LEAVES_BELOW(document, NODES, "p:hover", TL_REFUSED, 2, TL_NO_PSEUDO_CLASS);
    LEAVES_BELOW(document, 3, "\xff", TL_NOT_UNDERSTOOD, 0, TL_NO_CAUSE);
    FIRST_BELOW(document, 3, "a, b", TL_DONE, 4, 0, TL_NO_CAUSE);
    FIRST_BELOW(document, 2, "> b, > p", TL_DONE, 8, 0, TL_NO_CAUSE);
    FIRST_BELOW(document, 11, "a, b", TL_REFUSED, TL_NO_NODE, 0, TL_NO_CAUSE);
    FIRST_BELOW(document, NODES, "a, b", TL_REFUSED, TL_NO_NODE, 0, TL_NO_CAUSE);
    FIRST_BELOW(document, 3, "a,", TL_REFUSED, TL_NO_NODE, 2, TL_NO_SELECTOR);
    FIRST_BELOW(document, 3, "\xff", TL_NOT_UNDERSTOOD, TL_NO_NODE, 0, TL_NO_CAUSE);

    CLOSEST(document, 12, "p, b", TL_DONE, 11, 0, TL_NO_CAUSE);
    CLOSEST(document, 12, "p", TL_DONE, 8, 0, TL_NO_CAUSE);
    CLOSEST(document, 4, "a", TL_DONE, 4, 0, TL_NO_CAUSE);
    CLOSEST(document, 4, "nav:has(> :scope)", TL_DONE, 3, 0, TL_NO_CAUSE);
    CLOSEST(document, 12, "nav", TL_REFUSED, TL_NO_NODE, 0, TL_NO_CAUSE);
    CLOSEST(document, NODES, "p", TL_REFUSED, TL_NO_NODE, 0, TL_NO_CAUSE);
    CLOSEST(document, 12, "> p", TL_REFUSED, TL_NO_NODE, 0, TL_NO_SELECTOR);
    CLOSEST(document, 12, "\xff", TL_NOT_UNDERSTOOD, TL_NO_NODE, 0, TL_NO_CAUSE);

    MATCHES(document, 3, "nav", TL_DONE, 1, 0, TL_NO_CAUSE);
    MATCHES(document, 4, "[href='?a=1&b=2']", TL_DONE, 1, 0, TL_NO_CAUSE);
    MATCHES(document, 6, "nav > a + a", TL_DONE, 1, 0, TL_NO_CAUSE);
    MATCHES(document, 4, "nav > a + a", TL_DONE, 0, 0, TL_NO_CAUSE);
    MATCHES(document, 4, "p, b", TL_DONE, 0, 0, TL_NO_CAUSE);
    MATCHES(document, 4, "nav > :scope", TL_DONE, 1, 0, TL_NO_CAUSE);
    MATCHES(document, 5, "*", TL_DONE, 0, 0, TL_NO_CAUSE);
    MATCHES(document, NODES, "*", TL_REFUSED, 0, 0, TL_NO_CAUSE);
    MATCHES(document, 3, "nav[", TL_REFUSED, 0, 4, TL_NO_NAME);
    MATCHES(document, 3, "\xff", TL_NOT_UNDERSTOOD, 0, 0, TL_NO_CAUSE);
}

/* What is answered without a document. */
static void asked_of_none(tl_document *document) {
    CHECK(tl_node_count(document) == 0 && tl_is_quirks(document) == 0);
    CHECK(tl_node_kind(document, 0) == TL_NONE && tl_node_namespace(document, 0) == TL_NO_NAMESPACE);
    CHECK(tl_node_parent(document, 0) == TL_NO_NODE && tl_node_first_child(document, 0) == TL_NO_NODE);
    CHECK(tl_node_next_sibling(document, 0) == TL_NO_NODE && tl_node_previous_sibling(document, 0) == TL_NO_NODE);
    CHECK(tl_node_end(document, 0) == TL_NO_NODE && comes_from_none(document, 0));
    LEAVES(tl_node_name(document, 0, OUT), TL_REFUSED, 0);
    LEAVES(tl_attribute(document, 0, BYTES("href"), OUT), TL_REFUSED, 0);
    LEAVES(tl_node_attributes(document, 0, OUT), TL_REFUSED, 0);
    LEAVES(tl_node_outer_html(document, 0, OUT), TL_REFUSED, 0);
    LEAVES(tl_node_inner_html(document, 0, OUT), TL_REFUSED, 0);
    LEAVES(tl_document_html(document, OUT), TL_REFUSED, 0);
    LEAVES(tl_node_text(document, 0, OUT), TL_REFUSED, 0);
    LEAVES(tl_nodes(document, NUMBERS), TL_REFUSED, 0);
    LEAVES(tl_parts(document, OUT), TL_REFUSED, 0);
    LEAVES(tl_document_links(document, OUT), TL_REFUSED, 0);
    LEAVES(tl_document_pretty_html(document, OUT), TL_REFUSED, 0);
    LEAVES(tl_node_readable_text(document, 0, OUT), TL_REFUSED, 0);
    LEAVES(tl_node_json(document, 0, OUT), TL_REFUSED, 0);
    LEAVES(tl_table_csv(document, 0, 1000, OUT), TL_REFUSED, 0);
    FIRST(document, "a", TL_REFUSED, TL_NO_NODE, 0, TL_NO_CAUSE);
    CLOSEST(document, 0, "a", TL_REFUSED, TL_NO_NODE, 0, TL_NO_CAUSE);
    LEAVES_BELOW(document, 0, "a", TL_REFUSED, 0, TL_NO_CAUSE);
    LEAVES_BELOW(document, 0, "a[", TL_REFUSED, 2, TL_NO_NAME);
    FIRST_BELOW(document, 0, "a", TL_REFUSED, TL_NO_NODE, 0, TL_NO_CAUSE);
    MATCHES(document, 0, "a", TL_REFUSED, 0, 0, TL_NO_CAUSE);
    WRONG(document, "a[", 2, TL_NO_NAME);
    WRONG(document, "a", 0, TL_NO_CAUSE);
}

/* What is asked of all nodes of that page at once. */
static void asked_of_all(tl_document *document) {
    uint32_t all[4 * NODES];
    size_t count, at = 0;
    uint8_t parts[256], *here = parts;
    CHECK(tl_nodes(document, all, 4 * NODES, &count) == TL_DONE && count == 4 * NODES);
    for (uint32_t node = 0; node < NODES; node++, at += 4) {
        CHECK(all[at] == tl_node_kind(document, node) && all[at + 1] == tl_node_namespace(document, node));
        CHECK(all[at + 2] == tl_node_parent(document, node) && all[at + 3] == tl_node_end(document, node));
    }
    LEAVES(tl_nodes(document, NUMBERS), TL_NO_ROOM, 4 * NODES);
    CHECK(tl_parts(document, parts, sizeof parts, &count) == TL_DONE);
    for (uint32_t node = 0; node < NODES; node++) {
        uint8_t *end = memchr(here, 255, (size_t)(parts + count - here));
        CHECK(end != NULL);
        if (tl_node_kind(document, node) == TL_ELEMENT) {
            CHECK(tl_node_name(document, node, OUT) == TL_DONE && memcmp(here, out, needed) == 0);
            CHECK(needed == (size_t)(end - here) || here[needed] == 0);
        } else {
            CHECK(tl_node_text(document, node, OUT) == TL_DONE && needed == (size_t)(end - here) && memcmp(here, out, needed) == 0);
        }
        is_rest(sizeof out);
        here = end + 1;
    }
    CHECK(here == parts + count);
    static const char first[] = "html\377head\377body\377nav\377a\0href\0?a=1&b=2\0hidden\0\0@click\0f()\377y\377a\377z";
    CHECK(memcmp(parts, first, sizeof first - 1) == 0);
    LEAVES(tl_parts(document, out, 3, &needed), TL_NO_ROOM, count);
}

/* What is taken out of it. */
static void taken_out(tl_document *document) {
    uint8_t bytes[256];
    size_t count;
    tl_link link;
    const uint8_t *at = bytes;
    PUTS(tl_node_readable_text(document, 2, OUT), "z\n\nonetwo"); /* (the first link is hidden) */
    PUTS(tl_node_readable_text(document, 5, OUT), "");
    LEAVES(tl_node_readable_text(document, 2, out, 8, &needed), TL_NO_ROOM, 9);
    LEAVES(tl_node_readable_text(document, NODES, OUT), TL_REFUSED, 0);
    PUTS(tl_node_json(document, 12, OUT), "[{\"attributes\":{},\"name\":null,\"node\":12,\"start\":85,\"end\":88,\"text\":\"two\"}]");
    LEAVES(tl_node_json(document, NODES, OUT), TL_REFUSED, 0);
    CHECK(tl_document_pretty_html(document, bytes, sizeof bytes, &count) == TL_DONE);
    CHECK(memcmp(bytes, "<html>\n  <head></head>\n  <body>\n    <nav><a href=", 49) == 0);
    LEAVES(tl_document_pretty_html(document, out, 9, &needed), TL_NO_ROOM, count);
    CHECK(tl_document_links(document, bytes, sizeof bytes, &count) == TL_DONE && count == 24 + 4 + 8);
    CHECK(tl_next_link(&at, bytes + count, &link) && link.node == 4 && link.key_len == 4 && link.url_len == 8);
    CHECK(memcmp(link.key, "href", 4) == 0 && memcmp(link.url, "?a=1&b=2", 8) == 0 && !tl_next_link(&at, bytes + count, &link));
    LEAVES(tl_document_links(document, out, 9, &needed), TL_NO_ROOM, 36);
    LEAVES(tl_table_csv(document, 3, 1000, OUT), TL_REFUSED, 0);
    LEAVES(tl_table_csv(document, 5, 1000, OUT), TL_REFUSED, 0);
    LEAVES(tl_table_csv(document, NODES, 1000, OUT), TL_REFUSED, 0);
}

static void of_tables(void) {
    tl_document document = TL_NO_DOCUMENT;
    CHECK(tl_parse_html(BYTES("<svg></svg><table><tr><th colspan=2>a,b<tr><td>\"<td>d</table>"), &document) == TL_DONE);
    PUTS(tl_table_csv(&document, 4, 1000, OUT), "\"a,b\",\"a,b\"\n\"\"\"\",d\n");
    PUTS(tl_table_csv(&document, 4, 19, OUT), "\"a,b\",\"a,b\"\n\"\"\"\",d\n");
    LEAVES(tl_table_csv(&document, 4, 18, OUT), TL_NOT_UNDERSTOOD, 0);
    LEAVES(tl_table_csv(&document, 4, 1000, out, 18, &needed), TL_NO_ROOM, 19);
    tl_free(&document);
}

/* The values at a key of the elements where a selector holds. */
static void of_values(void) {
    static const char lent[] = "<a href='?a=1&amp;b'>1</a><a>2</a><A HREF=''>3</A><svg><a xlink:href=x>";
    tl_document document = TL_NO_DOCUMENT;
    size_t place = 99, len;
    uint8_t cause = 99;
    const uint8_t *at = out, *value;
#define VALUES(selector, key) tl_select_values(&document, BYTES(selector), BYTES(key), OUT, &place, &cause)
    LEAVES(VALUES("a", "href"), TL_REFUSED, 0);
    CHECK(place == 0 && cause == TL_NO_CAUSE);
    CHECK(tl_parse_html(BYTES(lent), &document) == TL_DONE);
    CHECK(VALUES("a", "href") == TL_DONE && needed == 8);
    CHECK(tl_next_value(&at, out + needed, &value, &len) && len == 6 && memcmp(value, "?a=1&b", 6) == 0);
    CHECK(tl_next_value(&at, out + needed, &value, &len) && len == 0 && !tl_next_value(&at, out + needed, &value, &len));
    CHECK(is_rest(needed));
    PUTS(VALUES("a", "href"), "?a=1&b\377\377");
    PUTS(VALUES("svg a", "xlink:href"), "x\377");
    PUTS(VALUES("a", "HREF"), "");
    PUTS(VALUES("i", "href"), "");
    CHECK(place == 0 && cause == TL_NO_CAUSE);
    LEAVES(VALUES("a:hover", "href"), TL_REFUSED, 0);
    CHECK(place == 2 && cause == TL_NO_PSEUDO_CLASS);
    LEAVES(VALUES("\xff", "href"), TL_NOT_UNDERSTOOD, 0);
    LEAVES(tl_select_values(&document, BYTES("a"), BYTES("href"), out, 7, &needed, &place, &cause), TL_NO_ROOM, 8);
#undef VALUES
    tl_free(&document);
}

/* Tags and elements changed, each by a change of its own. */
static const char own[] = "<DIV>1<A HREF=/x b>2</A></DIV><table><tr><td>3</table>";
static size_t at_place;
static uint8_t why;
#define CHANGE(key, value, node, change) {(const uint8_t *)(key), sizeof(key) - 1, (const uint8_t *)(value), sizeof(value) - 1, node, change}
#define PATCHES(document, changes) \
    tl_patch_nodes((document), BYTES(own), (changes), sizeof(changes) / sizeof *(changes), OUT, &at_place, &why)
#define EDIT(content, node, edit, form) {(const uint8_t *)(content), sizeof(content) - 1, node, edit, form}
#define EDITS(document, edits) tl_edit_nodes((document), BYTES(own), (edits), sizeof(edits) / sizeof *(edits), OUT, &at_place, &why)
#define TOLD(place, cause) CHECK(at_place == (place) && why == (cause))

/* (0 is the html, 3 the division, 5 the link, 7 the table, 8 its body, 9 the row, 10 the cell) */
static void of_changes(void) {
    tl_document document = TL_NO_DOCUMENT;
    const tl_change changes[] = {CHANGE("c", "&", 10, TL_SET), CHANGE("href", "/y", 5, TL_SET), CHANGE("b", "", 5, TL_UNSET),
                                 CHANGE("d", "1", 5, TL_SET), CHANGE("a", "", 8, TL_UNSET)};
    const tl_change untagged[] = {CHANGE("c", "", 3, TL_SET), CHANGE("a", "", 8, TL_SET)};
    const tl_change unwritten[] = {CHANGE("a b", "", 5, TL_SET)}, of_text[] = {CHANGE("a", "", 4, TL_SET)}, none[] = {CHANGE("a", "", 3, 2)};
    LEAVES(PATCHES(&document, changes), TL_REFUSED, 0);
    TOLD(0, TL_NO_CAUSE);
    CHECK(tl_parse_html(BYTES(own), &document) == TL_DONE);
    PUTS(PATCHES(&document, changes), "<DIV>1<A d=\"1\" HREF=\"/y\">2</A></DIV><table><tr><td c=\"&amp;\">3</table>");
    TOLD(0, TL_NO_CAUSE);
    LEAVES(PATCHES(&document, untagged), TL_REFUSED, 0);
    TOLD(37, TL_UNTAGGED);
    LEAVES(PATCHES(&document, unwritten), TL_REFUSED, 0);
    TOLD(6, TL_NOT_WRITTEN);
    LEAVES(PATCHES(&document, of_text), TL_REFUSED, 0);
    TOLD(5, TL_NO_START_TAG);
    LEAVES(PATCHES(&document, none), TL_NOT_UNDERSTOOD, 0);
    TOLD(0, TL_NO_CAUSE);
    CHECK(put(tl_patch_nodes(&document, BYTES(own), changes, 0, OUT, &at_place, &why), own, sizeof own - 1));
    LEAVES(tl_patch_nodes(&document, BYTES(own), changes, 0, out, 53, &needed, &at_place, &why), TL_NO_ROOM, 54);
    tl_free(&document);
}

static void of_edits(void) {
    tl_document document = TL_NO_DOCUMENT;
    const tl_edit edits[] = {EDIT("<", 10, TL_FILL, TL_AS_TEXT), EDIT("", 5, TL_UNWRAP, 9), EDIT("<hr>", 3, TL_PUT_BEFORE, TL_AS_MARKUP)};
    const tl_edit untagged[] = {EDIT("", 8, TL_REMOVE, 0)}, across[] = {EDIT("", 5, TL_UNWRAP, 0), EDIT("b", 5, TL_RENAME, 0)};
    const tl_edit no_form[] = {EDIT("", 5, TL_FILL, 2)}, none[] = {EDIT("", 5, 9, 0)};
    LEAVES(EDITS(&document, edits), TL_REFUSED, 0);
    TOLD(0, TL_NO_CAUSE);
    CHECK(tl_parse_html(BYTES(own), &document) == TL_DONE);
    PUTS(EDITS(&document, edits), "<hr><DIV>12</DIV><table><tr><td>&lt;</table>");
    TOLD(0, TL_NO_CAUSE);
    LEAVES(EDITS(&document, untagged), TL_REFUSED, 0);
    TOLD(37, TL_UNTAGGED);
    LEAVES(EDITS(&document, across), TL_REFUSED, 0);
    TOLD(6, TL_ACROSS);
    LEAVES(EDITS(&document, no_form), TL_NOT_UNDERSTOOD, 0);
    LEAVES(EDITS(&document, none), TL_NOT_UNDERSTOOD, 0);
    TOLD(0, TL_NO_CAUSE);
    LEAVES(tl_edit_nodes(&document, BYTES(own), edits, 0, out, 53, &needed, &at_place, &why), TL_NO_ROOM, 54);
    tl_free(&document);
}

/* Selectors that are read once. */
static void of_compiled(void) {
    tl_document document = TL_NO_DOCUMENT;
    tl_compiled links = TL_NO_COMPILED, none = TL_NO_COMPILED;
    CHECK(tl_parse_html(BYTES(own), &document) == TL_DONE);
    LEAVES(tl_compiled_select(&document, &none, NUMBERS), TL_REFUSED, 0);
    CHECK(tl_compile_css(BYTES("a[href], td"), &links, &at_place, &why) == TL_DONE && links.at != NULL);
    TOLD(0, TL_NO_CAUSE);
    CHECK(tl_compile_css(BYTES("a[href], :b"), &links, &at_place, &why) == TL_REFUSED);
    TOLD(10, TL_NO_PSEUDO_CLASS);
    CHECK(tl_compile_css(BYTES("\xff"), &links, &at_place, &why) == TL_NOT_UNDERSTOOD);
    FINDS(tl_compiled_select(&document, &links, NUMBERS), 5, 10);
    LEAVES(tl_compiled_select(&document, &links, numbers, 1, &needed), TL_NO_ROOM, 2);
    FINDS(tl_compiled_select_below(&document, 7, &links, NUMBERS), 10);
    LEAVES(tl_compiled_select_below(&document, 99, &links, NUMBERS), TL_REFUSED, 0);
    CHECK(tl_compiled_first(&document, &links, &one) == TL_DONE && one == 5);
    CHECK(tl_compiled_first_below(&document, 7, &links, &one) == TL_DONE && one == 10);
    CHECK(tl_compiled_first_below(&document, 5, &links, &one) == TL_REFUSED && one == TL_NO_NODE);
    CHECK(tl_compiled_matches(&document, 5, &links, &is_met) == TL_DONE && is_met == 1);
    CHECK(tl_compiled_matches(&document, 3, &links, &is_met) == TL_DONE && is_met == 0);
    CHECK(tl_compiled_closest(&document, 6, &links, &one) == TL_DONE && one == 5);
    CHECK(tl_compiled_closest(&document, 3, &links, &one) == TL_REFUSED && one == TL_NO_NODE);
    CHECK(tl_compile_css(BYTES("> tbody"), &links, &at_place, &why) == TL_DONE);
    FINDS(tl_compiled_select_below(&document, 7, &links, NUMBERS), 8);
    CHECK(tl_compiled_first(&document, &links, &one) == TL_REFUSED && one == TL_NO_NODE);
    tl_free(&document);
    LEAVES(tl_compiled_select(&document, &links, NUMBERS), TL_REFUSED, 0);
    CHECK(tl_compiled_first(&document, &links, &one) == TL_REFUSED && one == TL_NO_NODE);
    CHECK(tl_compiled_matches(&document, 0, &links, &is_met) == TL_REFUSED && is_met == 0);
    CHECK(tl_compiled_closest(&document, 0, &links, &one) == TL_REFUSED && one == TL_NO_NODE);
    tl_free_compiled(&links);
    CHECK(links.at == NULL);
    tl_free_compiled(&links);
}

/* An allocator of one's own: so many bytes are left, and so many blocks were taken. */
static size_t left_there, taken;

static void *of_own(void *context, size_t size) {
    taken += context == &taken;
    return size <= left_there ? malloc(size) : NULL;
}

static void of_copies(void) {
    static char long_page[2048];
    tl_document document = TL_NO_DOCUMENT;
    uint8_t *text;
    size_t len;
    memset(long_page, 'x', sizeof long_page);
    memcpy(long_page, "<p>", 3);
    left_there = 4096, taken = 0;
    CHECK(tl_node_copy(tl_node_text, &document, 0, of_own, &taken, &text, &len) == TL_REFUSED && text == NULL && len == 0 && taken == 0);
    CHECK(tl_parse_html((const uint8_t *)long_page, sizeof long_page, &document) == TL_DONE);
    CHECK(tl_node_copy(tl_node_text, &document, 0, of_own, &taken, &text, &len) == TL_DONE && taken == 1);
    CHECK(len == sizeof long_page - 3 && memcmp(text, long_page + 3, len) == 0 && text[len] == 0);
    free(text);
    CHECK(tl_node_copy(tl_node_name, &document, 3, of_own, &taken, &text, &len) == TL_DONE && taken == 2);
    CHECK(len == 1 && strcmp((char *)text, "p") == 0);
    free(text);
    left_there = 1;
    CHECK(tl_node_copy(tl_node_name, &document, 3, of_own, &taken, &text, &len) == TL_OUT_OF_MEMORY && text == NULL && len == 0);
    tl_free(&document);
}

/* How many elements a selector finds by a block of so many bytes at most, where each is one behind the last; -1 where memory runs out. */
static long selected(tl_document *document, uint32_t node, const char *selector, size_t bytes, uint32_t first, uint32_t step) {
    tl_compiled compiled = TL_NO_COMPILED;
    tl_selection selection;
    uint32_t number;
    long count = 0;
    size_t place;
    uint8_t cause;
    CHECK(tl_compile_css((const uint8_t *)selector, strlen(selector), &compiled, &place, &cause) == TL_DONE);
    left_there = bytes;
    tl_status status = tl_selection_of(document, node, &compiled, of_own, &taken, &selection);
    for (; tl_next_selected(&selection, &number); count++) CHECK(number == first + step * (uint32_t)count);
    CHECK(status == TL_DONE || (count == 0 && selection.count == 0));
    free(selection.numbers);
    tl_free_compiled(&compiled);
    return status == TL_DONE ? count : status == TL_OUT_OF_MEMORY ? -1 : -2;
}

static void of_selections(void) {
    static char many[4 * 100 + 1];
    tl_document document = TL_NO_DOCUMENT;
    for (size_t at = 0; at < 100; at++) memcpy(many + 4 * at, "<p>x", 4);
    taken = 0;
    CHECK(selected(&document, TL_NO_NODE, "p", 4096, 0, 0) == -2 && taken == 0);
    CHECK(tl_parse_html(BYTES(many), &document) == TL_DONE);
    CHECK(selected(&document, TL_NO_NODE, "p", 4096, 3, 2) == 100 && taken == 1);
    CHECK(selected(&document, TL_NO_NODE, "p", 100 * 4 - 1, 3, 2) == -1 && taken == 2);
    CHECK(selected(&document, TL_NO_NODE, "p + p + p", 4096, 7, 2) == 98 && taken == 3);
    CHECK(selected(&document, TL_NO_NODE, "p:nth-child(-n+64)", 64 * 4, 3, 2) == 64 && taken == 4);
    CHECK(selected(&document, 2, "> p:last-child", 4, 201, 0) == 1 && taken == 5);
    CHECK(selected(&document, 3, "p", 0, 0, 0) == 0 && taken == 5);
    CHECK(selected(&document, 9999, "p", 0, 0, 0) == -2 && taken == 5);
    tl_free(&document);
}

/* Where links lead, and what stands in the header alone. */
static void of_no_document(void) {
    size_t column;
    PUTS(tl_join_url(BYTES("https://a.org/b/c"), BYTES("../d?\xc3\xa9"), OUT), "https://a.org/d?%C3%A9");
    PUTS(tl_join_url(BYTES("https://a.org"), BYTES(""), OUT), "https://a.org/");
    LEAVES(tl_join_url(BYTES("https://a.org"), BYTES(""), out, 13, &needed), TL_NO_ROOM, 14);
    LEAVES(tl_join_url(BYTES("a.org"), BYTES("x"), OUT), TL_REFUSED, 0);
    LEAVES(tl_join_url(BYTES("https://a.org"), BYTES("http://["), OUT), TL_REFUSED, 0);
    LEAVES(tl_join_url(BYTES("https://\xff"), BYTES("x"), OUT), TL_NOT_UNDERSTOOD, 0);
    PUTS(tl_css_escape(BYTES("1a.b\0\x1f-_\xc3\xa9"), OUT), "\\31 a\\.b\xef\xbf\xbd\\1f -_\xc3\xa9");
    PUTS(tl_css_escape(BYTES("-1"), OUT), "-\\31 ");
    PUTS(tl_css_escape(BYTES("-"), OUT), "\\-");
    PUTS(tl_css_escape(BYTES("\x01\x7f"), OUT), "\\1 \\7f ");
    LEAVES(tl_css_escape(BYTES("a b"), out, 3, &needed), TL_NO_ROOM, 4);
    CHECK(tl_line_at((const uint8_t *)"a\nbc\n", 3, &column) == 2 && column == 1);
    CHECK(strcmp(tl_error_message(TL_REFUSED, TL_NO_NAME), "expected a name") == 0);
    CHECK(strcmp(tl_error_message(TL_OUT_OF_MEMORY, TL_NO_CAUSE), "out of memory") == 0);
}

/* A doctype (0), a template (4) with contents (5) in which an item stands (6), a svg (8) with a use (9), a formula (10) with an mi (11),
 * and a table (12) whose body (13) no tag stands for. */
static const char parts[] = "\xef\xbb\xbf<!DOCTYPE html><body><template><li>x</template><svg><use xlink:href='#a' viewbox=1></svg>"
                            "<math><mi></math><table><tr></table>";

static void of_parts(void) {
    tl_document document = TL_NO_DOCUMENT;
    CHECK(tl_parse_html(BYTES(parts), &document) == TL_DONE);
    CHECK(tl_is_quirks(&document) == 0 && tl_node_count(&document) == 15);
    CHECK(tl_node_kind(&document, 0) == TL_DOCTYPE && tl_node_kind(&document, 5) == TL_CONTENTS);
    CHECK(comes_from(&document, 0, parts, "<!DOCTYPE html>") && comes_from(&document, 4, parts, "<template>"));
    CHECK(comes_from_none(&document, 5) && comes_from_none(&document, 13) && comes_from(&document, 14, parts, "<tr>"));
    PUTS(tl_node_outer_html(&document, 0, OUT), "<!DOCTYPE html>");
    PUTS(tl_node_text(&document, 0, OUT), "");
    PUTS(tl_node_outer_html(&document, 4, OUT), "<template><li>x</li></template>");
    PUTS(tl_node_inner_html(&document, 4, OUT), "<li>x</li>");
    PUTS(tl_node_inner_html(&document, 5, OUT), "<li>x</li>");
    PUTS(tl_node_text(&document, 4, OUT), "");
    PUTS(tl_node_text(&document, 5, OUT), "x");
    CHECK(tl_node_parent(&document, 6) == 5 && tl_node_first_child(&document, 4) == 5);
    CHECK(tl_node_namespace(&document, 8) == TL_SVG && tl_node_namespace(&document, 11) == TL_MATHML);
    CHECK(has_attributes(&document, 9, "xlink:href=#a viewBox=1 "));
    PUTS(tl_attribute(&document, 9, BYTES("xlink:href"), OUT), "#a");
    LEAVES(tl_attribute(&document, 9, BYTES("href"), OUT), TL_REFUSED, 0);
    LEAVES(tl_attribute(&document, 9, BYTES("viewbox"), OUT), TL_REFUSED, 0);
    FIRST(&document, "li", TL_REFUSED, TL_NO_NODE, 0, TL_NO_CAUSE);
    FIRST_BELOW(&document, 5, "li", TL_DONE, 6, 0, TL_NO_CAUSE);
    MATCHES(&document, 6, "li", TL_DONE, 1, 0, TL_NO_CAUSE);
    CHECK(tl_parse_html(BYTES("<p>x"), &document) == TL_DONE);
    PUTS(tl_document_html(&document, OUT), "<html><head></head><body><p>x</p></body></html>");
    CHECK(tl_parse_html(BYTES(""), &document) == TL_DONE && tl_node_count(&document) == 3);
    tl_free(&document);
}

static void calls(void) {
    tl_document document = TL_NO_DOCUMENT;
    asked_of_none(&document);
    CHECK(tl_parse_html(BYTES("\xff"), &document) == TL_NOT_UNDERSTOOD && document.at == NULL);

    /* The page is given back at once, so what is asked is asked of the copy. */
    uint8_t *lent = malloc(sizeof page - 1);
    CHECK(lent != NULL);
    memcpy(lent, page, sizeof page - 1);
    CHECK(tl_parse_html(lent, sizeof page - 1, &document) == TL_DONE && document.at != NULL);
    memset(lent, '<', sizeof page - 1);
    free(lent);
    asked_of_nodes(&document);
    asked_of_all(&document);
    taken_out(&document);
    asked_by_selectors(&document);

    /* A page that isn't understood leaves the document as it was; another page gives it back. */
    CHECK(tl_parse_html(BYTES("\xff"), &document) == TL_NOT_UNDERSTOOD);
    asked_of_nodes(&document);
    CHECK(tl_parse_html(BYTES("<b>c"), &document) == TL_DONE);
    PUTS(tl_node_text(&document, 0, OUT), "c");

    /* Another document beside it. */
    tl_document other = TL_NO_DOCUMENT;
    CHECK(tl_parse_html(BYTES("<i>d"), &other) == TL_DONE && other.at != NULL);
    FIRST(&other, "b", TL_REFUSED, TL_NO_NODE, 0, TL_NO_CAUSE);
    FIRST(&document, "b", TL_DONE, 3, 0, TL_NO_CAUSE);

    tl_free(&document);
    CHECK(document.at == NULL);
    tl_free(&document);
    CHECK(document.at == NULL);
    asked_of_none(&document);
    PUTS(tl_node_text(&other, 0, OUT), "d");
    tl_free(&other);
}

/* A page whose tree is out of proportion to it: the text in each `p` opens again all that the first one holds. It leaves the document as
 * it was. */
static void out_of_proportion(void) {
    enum { TIMES = 1000, ROOM = 16 * TIMES };
    static char steep[ROOM];
    tl_document document = TL_NO_DOCUMENT;
    size_t len = (size_t)sprintf(steep, "<p>");
    for (int row = 0; row < TIMES; row++) len += (size_t)sprintf(steep + len, "<i a%d>", row);
    for (int row = 0; row < TIMES; row++) len += (size_t)sprintf(steep + len, "<p>x");
    CHECK(tl_parse_html(BYTES("<b>c"), &document) == TL_DONE);
    CHECK(tl_parse_html((const uint8_t *)steep, len, &document) == TL_NOT_UNDERSTOOD);
    PUTS(tl_node_text(&document, 0, OUT), "c");
    tl_free(&document);
}

/* Whether a call that is refused its request of this number answers so; it is done where it makes no more requests. */
#define REFUSES(number, call, unchanged) \
    refused = (number); \
    tl_status status = (call); \
    int is_done = refused >= 0; \
    refused = -1; \
    CHECK(status == (is_done ? TL_DONE : TL_OUT_OF_MEMORY)); \
    if (is_done) break; \
    unchanged
#define RUNS_OUT(call) \
    for (long number = 0;; number++) { \
        REFUSES(number, (call), CHECK(left(status, TL_OUT_OF_MEMORY, 0))); \
    }
#define RUNS_OUT_ONE(call, unchanged) \
    for (long number = 0;; number++) { \
        REFUSES(number, (call), CHECK(unchanged)); \
    }
/* The same of a selector, of whose place and cause nothing is told then, and of one number, which is that of none. */
#define RUNS_OUT_OF(call, unchanged) \
    for (long number = 0;; number++) { \
        size_t place = 99; \
        uint8_t cause = 99; \
        REFUSES(number, (call), CHECK(unchanged); CHECK(place == 0 && cause == TL_NO_CAUSE)); \
    }

/* A copy for which the allocator or the library is refused memory, so short that it is made at once, and so long that it is made twice. */
static void copies_refused(void) {
    static char long_page[1024];
    tl_document document = TL_NO_DOCUMENT;
    uint8_t *text;
    size_t len;
    memset(long_page, 'x', sizeof long_page);
    memcpy(long_page, "<i><p>", 6);
    left_there = sizeof long_page + 64;
    CHECK(tl_parse_html((const uint8_t *)long_page, sizeof long_page, &document) == TL_DONE);
    RUNS_OUT_ONE(tl_node_copy(tl_node_name, &document, 3, of_own, NULL, &text, &len), text == NULL && len == 0);
    CHECK(len == 1 && strcmp((char *)text, "i") == 0);
    free(text);
    for (long number = 0;; number++) {
        REFUSES(number, tl_node_copy(tl_node_outer_html, &document, 3, of_own, NULL, &text, &len), free(text));
    }
    CHECK(len == sizeof long_page + 8 && memcmp(text, long_page, sizeof long_page) == 0 && strcmp((char *)text + len - 8, "</p></i>") == 0);
    free(text);
    tl_free(&document);
}

/* What takes no memory is answered though the first request would be refused. */
static void without_memory(tl_document *document) {
    refused = 0;
    CHECK(tl_node_count(document) == NODES && tl_is_quirks(document) == 1 && tl_node_kind(document, 5) == TL_TEXT);
    CHECK(tl_node_namespace(document, 3) == TL_HTML && tl_node_parent(document, 3) == 2 && tl_node_end(document, 3) == 8);
    CHECK(comes_from(document, 3, page, "<NAV>"));
    PUTS(tl_node_name(document, 3, OUT), "nav");
    PUTS(tl_attribute(document, 4, BYTES("href"), OUT), "?a=1&b=2");
    LEAVES(tl_node_text(document, NODES, OUT), TL_REFUSED, 0);
    LEAVES(tl_node_attributes(document, NODES, OUT), TL_REFUSED, 0);
    LEAVES(tl_node_outer_html(document, NODES, OUT), TL_REFUSED, 0);
    LEAVES(tl_node_inner_html(document, NODES, OUT), TL_REFUSED, 0);
    LEAVES(tl_node_readable_text(document, NODES, OUT), TL_REFUSED, 0);
    LEAVES(tl_node_json(document, NODES, OUT), TL_REFUSED, 0);
    CHECK(tl_parse_html(BYTES("\xff"), document) == TL_NOT_UNDERSTOOD);
    tl_free(document);
    LEAVES(tl_document_html(document, OUT), TL_REFUSED, 0);
    LEAVES(tl_document_pretty_html(document, OUT), TL_REFUSED, 0);
    LEAVES(tl_nodes(document, NUMBERS), TL_REFUSED, 0);
    LEAVES(tl_parts(document, OUT), TL_REFUSED, 0);
    LEAVES(tl_document_links(document, OUT), TL_REFUSED, 0);
    CHECK(refused == 0);
    refused = -1;
}

static void refusals(void) {
    tl_document document = TL_NO_DOCUMENT;
    CHECK(tl_parse_html(BYTES("<b>c"), &document) == TL_DONE);
    RUNS_OUT(tl_document_html(&document, OUT));
    PUTS(TL_DONE, "<html><head></head><body><b>c</b></body></html>");
    for (long number = 0;; number++) {
        REFUSES(number, tl_parse_html(BYTES(page), &document), PUTS(tl_node_text(&document, 0, OUT), "c"));
    }
    asked_of_nodes(&document);
    RUNS_OUT(tl_node_text(&document, 3, OUT));
    PUTS(TL_DONE, "yz");
    RUNS_OUT(tl_node_outer_html(&document, 6, OUT));
    PUTS(TL_DONE, "<a>z</a>");
    RUNS_OUT(tl_node_inner_html(&document, 8, OUT));
    PUTS(TL_DONE, "one<!-- no --><b>two</b>");
    RUNS_OUT(tl_node_attributes(&document, 4, OUT));
    CHECK(needed == 75 && is_rest(75) == 1);
    static uint8_t whole[1024];
    static uint32_t all[4 * NODES];
    RUNS_OUT(tl_nodes(&document, all, 4 * NODES, &needed));
    RUNS_OUT(tl_parts(&document, whole, sizeof whole, &needed));
    RUNS_OUT(tl_document_links(&document, whole, sizeof whole, &needed));
    RUNS_OUT(tl_document_pretty_html(&document, whole, sizeof whole, &needed));
    RUNS_OUT(tl_node_json(&document, 3, whole, sizeof whole, &needed));
    RUNS_OUT(tl_node_readable_text(&document, 3, OUT));
    PUTS(TL_DONE, "z");
    RUNS_OUT(tl_join_url(BYTES("https://a.org"), BYTES("x"), OUT));
    PUTS(TL_DONE, "https://a.org/x");
    RUNS_OUT_OF(tl_select_css(&document, BYTES("nav > a"), NUMBERS, &place, &cause), left(status, TL_OUT_OF_MEMORY, 0));
    CHECK(found(TL_DONE, (const uint32_t[]){4, 6}, 2));
    RUNS_OUT_OF(tl_node_select_css(&document, 3, BYTES("> a"), NUMBERS, &place, &cause), left(status, TL_OUT_OF_MEMORY, 0));
    CHECK(found(TL_DONE, (const uint32_t[]){4, 6}, 2));
    RUNS_OUT_OF(tl_first_css(&document, BYTES("nav > a"), &one, &place, &cause), one == TL_NO_NODE);
    CHECK(one == 4);
    RUNS_OUT_OF(tl_node_first_css(&document, 3, BYTES("a"), &one, &place, &cause), one == TL_NO_NODE);
    CHECK(one == 4);
    RUNS_OUT_OF(tl_node_closest_css(&document, 12, BYTES("body > p"), &one, &place, &cause), one == TL_NO_NODE);
    CHECK(one == 8);
    RUNS_OUT_OF(tl_node_matches_css(&document, 6, BYTES("nav > a"), &is_met, &place, &cause), is_met == 0);
    CHECK(is_met == 1);
    RUNS_OUT_OF(tl_select_values(&document, BYTES("a"), BYTES("href"), OUT, &place, &cause), left(status, TL_OUT_OF_MEMORY, 0));
    PUTS(TL_DONE, "?a=1&b=2\377");
    tl_document other = TL_NO_DOCUMENT;
    tl_compiled links = TL_NO_COMPILED;
    const tl_change changes[] = {CHANGE("b", "c", 3, TL_SET), CHANGE("d", "", 5, TL_SET)};
    const tl_edit edits[] = {EDIT("x", 5, TL_FILL, TL_AS_TEXT), EDIT("", 10, TL_REMOVE, 0)};
    CHECK(tl_parse_html(BYTES(own), &other) == TL_DONE);
    RUNS_OUT(PATCHES(&other, changes));
    PUTS(TL_DONE, "<DIV b=\"c\">1<A d=\"\" HREF=/x b>2</A></DIV><table><tr><td>3</table>");
    RUNS_OUT(EDITS(&other, edits));
    PUTS(TL_DONE, "<DIV>1<A HREF=/x b>x</A></DIV><table><tr></table>");
    tl_free(&other);
    RUNS_OUT_OF(tl_compile_css(BYTES("nav > a"), &links, &place, &cause), links.at == NULL);
    RUNS_OUT(tl_compiled_select(&document, &links, NUMBERS));
    CHECK(found(TL_DONE, (const uint32_t[]){4, 6}, 2));
    RUNS_OUT(tl_compiled_select_below(&document, 3, &links, NUMBERS));
    CHECK(found(TL_DONE, (const uint32_t[]){4, 6}, 2));
    RUNS_OUT_ONE(tl_compiled_first(&document, &links, &one), one == TL_NO_NODE);
    RUNS_OUT_ONE(tl_compiled_first_below(&document, 3, &links, &one), one == TL_NO_NODE);
    RUNS_OUT_ONE(tl_compiled_matches(&document, 6, &links, &is_met), is_met == 0);
    RUNS_OUT_ONE(tl_compiled_closest(&document, 7, &links, &one), one == TL_NO_NODE);
    CHECK(one == 6 && is_met == 1);
    tl_selection selection;
    left_there = 64;
    RUNS_OUT_ONE(tl_selection_of(&document, 3, &links, of_own, NULL, &selection), selection.numbers == NULL && selection.count == 0);
    CHECK(selection.count == 2 && selection.numbers[0] == 4 && selection.numbers[1] == 6);
    free(selection.numbers);
    tl_free_compiled(&links);
    copies_refused();
    without_memory(&document);
}

int main(void) {
    memset(out, '.', sizeof out);
    for (size_t at = 0; at < 8; at++) numbers[at] = NO_NUMBER;
    /* Many times, so that memory that isn't given back would be seen. */
    for (int turn = 0; turn < 100; turn++) {
        calls();
        of_parts();
        of_tables();
        of_no_document();
        of_values();
        of_changes();
        of_edits();
        of_compiled();
        of_copies();
        of_selections();
    }
    out_of_proportion();
    refusals();
    return 0;
}
