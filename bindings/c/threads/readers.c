/* Threads that ask one document: by turns, and all at once, each by a reader of its own. `./x bindings --threads` has the thread
 * sanitizer look at what they and the library read and write. */
#include "tl.h"

#include <pthread.h>
#include <stdio.h>
#include <stdlib.h>
#include <string.h>

#define THREADS 4
#define ITEMS 200
#define ROOM 65536
#define BYTES(text) (const uint8_t *)(text), sizeof(text) - 1
#define CHECK(fact) \
    do { \
        if (!(fact)) { \
            fprintf(stderr, "readers.c, line %d: %s\n", __LINE__, #fact); \
            exit(1); \
        } \
    } while (0)
#define DONE(call) CHECK((call) == TL_DONE)

static char page[ITEMS * 32];
static size_t page_len;
static tl_document document = TL_NO_DOCUMENT;
static pthread_mutex_t lock = PTHREAD_MUTEX_INITIALIZER;

/* What takes a node, or all of the document. */
static void ask_of_nodes(tl_document *own, uint32_t node, uint8_t *out) {
    static const char text[] = "x & 199";
    size_t needed, start, end;
    for (uint32_t at = 0; at < tl_node_count(own); at++) CHECK(tl_node_kind(own, at) != TL_NONE && tl_node_end(own, at) > at);
    CHECK(tl_node_parent(own, node) == tl_node_parent(own, tl_node_previous_sibling(own, node)));
    DONE(tl_node_source(own, node, &start, &end));
    DONE(tl_node_name(own, node, out, ROOM, &needed));
    DONE(tl_attribute(own, node, BYTES("id"), out, ROOM, &needed));
    DONE(tl_node_attributes(own, node, out, ROOM, &needed));
    DONE(tl_node_text(own, node, out, ROOM, &needed));
    CHECK(needed == sizeof text - 1 && memcmp(out, text, needed) == 0);
    DONE(tl_node_readable_text(own, node, out, ROOM, &needed));
    DONE(tl_node_outer_html(own, node, out, ROOM, &needed));
    DONE(tl_node_inner_html(own, node, out, ROOM, &needed));
    DONE(tl_node_json(own, node, out, ROOM, &needed));
    DONE(tl_parts(own, out, ROOM, &needed));
    DONE(tl_document_html(own, out, ROOM, &needed));
    DONE(tl_document_pretty_html(own, out, ROOM, &needed));
    DONE(tl_document_links(own, out, ROOM, &needed));
}

/* What takes a selector, and a page with changes. */
static void ask_by_selectors(tl_document *own, uint8_t *out) {
    static uint32_t none[1];
    uint32_t numbers[ITEMS], node;
    uint8_t cause, matches;
    size_t needed, place;
    tl_compiled items = TL_NO_COMPILED;
    CHECK(tl_nodes(own, none, 0, &needed) == TL_NO_ROOM);
    DONE(tl_select_css(own, BYTES("ul > li:nth-child(2n) + li, a[href]"), numbers, ITEMS, &needed, &place, &cause));
    CHECK(needed == ITEMS / 2 - 1);
    DONE(tl_select_values(own, BYTES("li"), BYTES("id"), out, ROOM, &needed, &place, &cause));
    DONE(tl_first_css(own, BYTES("li:last-child"), &node, &place, &cause));
    DONE(tl_node_matches_css(own, node, BYTES("li ~ li"), &matches, &place, &cause));
    DONE(tl_compile_css(BYTES("li"), &items, &place, &cause));
    DONE(tl_compiled_select(own, &items, numbers, ITEMS, &needed));
    CHECK(needed == ITEMS && numbers[ITEMS - 1] == node && matches == 1);
    tl_free_compiled(&items);
    const tl_change change = {(const uint8_t *)"class", 5, (const uint8_t *)"x", 1, node, TL_SET};
    DONE(tl_patch_nodes(own, (const uint8_t *)page, page_len, &change, 1, out, ROOM, &needed, &place, &cause));
    ask_of_nodes(own, node, out);
}

static void *ask_by_turns(void *out) {
    pthread_mutex_lock(&lock);
    ask_by_selectors(&document, out);
    pthread_mutex_unlock(&lock);
    return NULL;
}

static void *ask_at_once(void *out) {
    tl_document own = tl_reader_of(&document);
    for (int turn = 0; turn < 8; turn++) ask_by_selectors(&own, out);
    return NULL;
}

static void run(void *(*ask)(void *)) {
    static uint8_t out[THREADS][ROOM];
    pthread_t threads[THREADS];
    for (int at = 0; at < THREADS; at++) CHECK(pthread_create(&threads[at], NULL, ask, out[at]) == 0);
    for (int at = 0; at < THREADS; at++) CHECK(pthread_join(threads[at], NULL) == 0);
}

int main(void) {
    page_len = (size_t)sprintf(page, "<ul>");
    for (int at = 0; at < ITEMS; at++) page_len += (size_t)sprintf(page + page_len, "<li id=i%d>x &amp; %d", at, at);
    DONE(tl_parse_html((const uint8_t *)page, page_len, &document));
    run(ask_by_turns);
    run(ask_at_once);
    tl_free(&document);
    return 0;
}
