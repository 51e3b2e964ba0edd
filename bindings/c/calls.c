/* Calls each function of tl.h that takes a page for each status that it can answer, and exits with 1 and a line on standard error where one answers
 * otherwise. It is linked with --wrap=malloc,--wrap=realloc,--wrap=free, so that requests of the library for memory go through here.
 */
#include "tl.h"

#include <stdio.h>
#include <stdlib.h>
#include <string.h>

#define CHECK(fact) \
    do { \
        if (!(fact)) { \
            fprintf(stderr, "calls.c, line %d: %s\n", __LINE__, #fact); \
            exit(1); \
        } \
    } while (0)

/* How many requests for memory were made, which of them is refused (none where it is 0), and how many blocks are held. */
static unsigned long requests, refused;
static long held;

void *__real_malloc(size_t size);
void *__real_realloc(void *block, size_t size);
void __real_free(void *block);
void *__wrap_malloc(size_t size);
void *__wrap_realloc(void *block, size_t size);
void __wrap_free(void *block);

void *__wrap_malloc(size_t size) {
    if (++requests == refused) return NULL;
    held++;
    return __real_malloc(size);
}

void *__wrap_realloc(void *block, size_t size) {
    if (++requests == refused) return NULL;
    if (block == NULL) held++;
    return __real_realloc(block, size);
}

void __wrap_free(void *block) {
    if (block != NULL) held--;
    __real_free(block);
}

/* The room that is lent, of dots where nothing was written, and what was needed. */
static uint8_t out[256];
static size_t needed;

#define TEXT(text) (const uint8_t *)(text), sizeof(text) - 1
#define OUT out, sizeof out, &needed
#define ROOM(room) out, (room), &needed

static int is_dotted_from(size_t start) {
    for (size_t at = start; at < sizeof out; at++)
        if (out[at] != '.') return 0;
    return 1;
}

/* Whether a call was done, put these bytes at the front of `out` and wrote nothing after them. It makes all dots again. */
static int has_put(tl_status status, const char *bytes, size_t len) {
    int is = status == TL_DONE && needed == len && memcmp(out, bytes, len) == 0 && is_dotted_from(len);
    memset(out, '.', sizeof out);
    return is && held == 0;
}

/* Whether a call answered this status, needs so many bytes and wrote nothing. */
static int has_left(tl_status status, tl_status wanted, size_t count) {
    return status == wanted && needed == count && is_dotted_from(0) && held == 0;
}

#define PUTS(bytes, call) CHECK(has_put((call), bytes, sizeof(bytes) - 1))
#define LEAVES(status, count, call) CHECK(has_left((call), (status), (count)))

/* Refuses each request for memory of a call in turn: it answers that, and nothing else. The last run makes them all. */
#define RUNS_OUT(bytes, call) \
    for (refused = 1;; refused++) { \
        requests = 0; \
        tl_status status = (call); \
        if (requests < refused) { \
            CHECK(refused > 1 && has_put(status, bytes, sizeof(bytes) - 1)); \
            refused = 0; \
            break; \
        } \
        LEAVES(TL_OUT_OF_MEMORY, 0, status); \
    }

static void of_sanitize_html(void) {
    PUTS("I &lt;3 you", tl_sanitize_html(TEXT("I <3 you"), OUT));
    PUTS("<a href=\"/x\">y</a>", tl_sanitize_html(TEXT("<A HREF=/x onclick=f()>y<script>z"), OUT));
    PUTS("<ul><li>a</li><li>b</li></ul>", tl_sanitize_html(TEXT("<ul><li>a<li>b</ul>"), OUT));
    LEAVES(TL_NO_ROOM, 8, tl_sanitize_html(TEXT("<P>x"), ROOM(7)));
    LEAVES(TL_NOT_UNDERSTOOD, 0, tl_sanitize_html(TEXT("\xff"), OUT));
    PUTS("", tl_sanitize_html(TEXT(""), OUT));
    RUNS_OUT("<p>x</p>", tl_sanitize_html(TEXT("<P>x"), OUT));
}

static void of_policies(void) {
    static const char page[] = "<h1>a</h1><table><tr><td>b";
    PUTS("<h1>a</h1>b", tl_sanitize_html_by(TL_BLOG, TEXT(page), OUT));
    PUTS("ab", tl_sanitize_html_by(TL_COMMENTS, TEXT(page), OUT));
    PUTS("<h1>a</h1><table><tbody><tr><td>b</td></tr></tbody></table>", tl_sanitize_html_by(TL_DOCUMENTS, TEXT(page), OUT));
    PUTS("<img src=\"x.png\">", tl_sanitize_html_by(TL_DOCUMENTS, TEXT("<IMG SRC=x.png>"), OUT));
    LEAVES(TL_NOT_UNDERSTOOD, 0, tl_sanitize_html_by(3, TEXT(page), OUT));
    LEAVES(TL_NOT_UNDERSTOOD, 0, tl_sanitize_html_by(255, TEXT(page), OUT));
    LEAVES(TL_NOT_UNDERSTOOD, 0, tl_sanitize_html_by(TL_BLOG, TEXT("\xff"), OUT));
    LEAVES(TL_NO_ROOM, 2, tl_sanitize_html_by(TL_COMMENTS, TEXT(page), ROOM(1)));
    RUNS_OUT("<p>x</p>", tl_sanitize_html_by(TL_COMMENTS, TEXT("<P>x"), OUT));
}

/* What a page is in, and its text. */
static void of_encodings(void) {
    static const char page[] = "<meta charset=koi8-r>\xc9";
    PUTS("KOI8-R", tl_encoding_of(TEXT(""), TEXT(page), OUT));
    PUTS("windows-1252", tl_encoding_of(TEXT(" Latin1\n"), TEXT(page), OUT));
    PUTS("UTF-16BE", tl_encoding_of(TEXT("latin1"), TEXT("\xfe\xff\0a"), OUT));
    PUTS("UTF-8", tl_encoding_of(TEXT(""), TEXT("\xe9"), OUT));
    LEAVES(TL_REFUSED, 0, tl_encoding_of(TEXT("nope"), TEXT(page), OUT));
    LEAVES(TL_NO_ROOM, 6, tl_encoding_of(TEXT(""), TEXT(page), ROOM(5)));
    PUTS("<meta charset=koi8-r>\xd0\xb8", tl_decode_page(TEXT(""), TEXT(page), OUT));
    PUTS("\xef\xbb\xbfx", tl_decode_page(TEXT("latin1"), TEXT("\xef\xbb\xbfx"), OUT));
    PUTS("caf\xef\xbf\xbd", tl_decode_page(TEXT(""), TEXT("caf\xe9"), OUT));
    LEAVES(TL_REFUSED, 0, tl_decode_page(TEXT("nope"), TEXT(page), OUT));
    LEAVES(TL_NO_ROOM, 5, tl_decode_page(TEXT("latin1"), TEXT("caf\xe9"), ROOM(4)));
    RUNS_OUT("caf\xc3\xa9", tl_decode_page(TEXT("latin1"), TEXT("caf\xe9"), OUT));
}

static size_t place;
static uint8_t cause;

/* What goes of a page, where and why. */
static void of_removals(void) {
    static const char page[] = "\xef\xbb\xbf<P onclick=f()>x\n<svg><path></svg><table><td>y<A HREF=javascript:f()>z";
    static const struct {
        const char *tag, *name, *key;
        uint8_t why;
    } gone[] = {
        {"<P onclick=f()>", "p", "onclick", TL_WHY_UNLISTED_KEY},
        {"<svg>", "svg", "", TL_WHY_FOREIGN_TAG},
        {"<table>", "table", "", TL_WHY_UNLISTED_TAG},
        {"<td>", "td", "", TL_WHY_UNLISTED_TAG},
        {"<A HREF=javascript:f()>", "a", "href", TL_WHY_UNLISTED_VALUE},
    };
    tl_lists lists = TL_LISTS_OF(TL_BLOG);
    static uint8_t room[512];
    size_t row = 0;
    CHECK(tl_removed_html(&lists, TEXT(page), room, sizeof room, &needed, &cause) == TL_DONE);
    tl_removal removal;
    for (const uint8_t *at = room; tl_next_removal(&at, room + needed, &removal); row++) {
        CHECK(row < sizeof gone / sizeof gone[0] && removal.why == gone[row].why && strlen(tl_why_text(removal.why)) > 9);
        CHECK(removal.end - removal.start == strlen(gone[row].tag));
        CHECK(memcmp(page + 3 + removal.start, gone[row].tag, removal.end - removal.start) == 0);
        CHECK(removal.name_len == strlen(gone[row].name) && memcmp(removal.name, gone[row].name, removal.name_len) == 0);
        CHECK(removal.key_len == strlen(gone[row].key) && memcmp(removal.key, gone[row].key, removal.key_len) == 0);
    }
    CHECK(row == sizeof gone / sizeof gone[0]);
    PUTS("", tl_removed_html(&lists, TEXT("<p>x</p>"), OUT, &cause));
    LEAVES(TL_NO_ROOM, 46, tl_removed_html(&lists, TEXT("<script>"), ROOM(45), &cause));
    LEAVES(TL_NOT_UNDERSTOOD, 0, tl_removed_html(&lists, TEXT("\xff"), OUT, &cause));
    CHECK(cause == TL_NO_REASON);
    lists.tags = tl_list_of("script");
    LEAVES(TL_REFUSED, 0, tl_removed_html(&lists, TEXT(page), OUT, &cause));
    CHECK(cause == TL_OPAQUE_TAG);
    lists = (tl_lists)TL_LISTS_OF(TL_BLOG);
    RUNS_OUT("", tl_removed_html(&lists, TEXT("<p>x</p>"), OUT, &cause));
}

/* Lists of one's own over those of a policy, and the word that no policy may list. */
static void of_lists(void) {
    static const char written[] = "<P CLASS=own-a>x<A HREF=b.png>y</A><H1>z</H1><b>c</b>";
    tl_lists lists = TL_LISTS_OF(TL_BLOG);
    PUTS("<p>x<a>y</a></p><h1>z</h1><b>c</b>", tl_sanitize_html_with(&lists, TEXT(written), OUT, &cause));
    CHECK(cause == TL_NO_REASON);
    LEAVES(TL_REFUSED, 0, tl_refused_word(&lists, OUT, &cause));
    CHECK(cause == TL_NO_REASON);
    lists.policy = TL_COMMENTS;
    PUTS("<p>x<a>y</a></p>z<b>c</b>", tl_sanitize_html_with(&lists, TEXT(written), OUT, &cause));
    lists.relative_links = true;
    PUTS("<p>x<a href=\"b.png\">y</a></p>z<b>c</b>", tl_sanitize_html_with(&lists, TEXT(written), OUT, &cause));
    lists.tags = tl_list_of(",a,,h1,");
    PUTS("x<a href=\"b.png\">y</a><h1>z</h1>c", tl_sanitize_html_with(&lists, TEXT(written), OUT, &cause));
    lists.tags = tl_list_of("-p,+h1");
    PUTS("x<a href=\"b.png\">y</a><h1>z</h1><b>c</b>", tl_sanitize_html_with(&lists, TEXT(written), OUT, &cause));
    lists.nofollow_links = true;
    PUTS("<a rel=\"nofollow noopener\" href=\"/b\">y</a>", tl_sanitize_html_with(&lists, TEXT("<A HREF=/b>y"), OUT, &cause));
    lists.tags = tl_list_of("");
    PUTS("xyzc", tl_sanitize_html_with(&lists, TEXT(written), OUT, &cause));
    lists.keys = tl_list_of("class,id");
    lists.classes = tl_list_of("own-*");
    lists.id_prefix = tl_list_of("my-");
    lists.tags = tl_list_of("p");
    PUTS("<p class=\"own-a\">xy</p>zc", tl_sanitize_html_with(&lists, TEXT(written), OUT, &cause));
    LEAVES(TL_NO_ROOM, 25, tl_sanitize_html_with(&lists, TEXT(written), ROOM(24), &cause));
    RUNS_OUT("<p class=\"own-a\">xy</p>zc", tl_sanitize_html_with(&lists, TEXT(written), OUT, &cause));
    LEAVES(TL_NOT_UNDERSTOOD, 0, tl_sanitize_html_with(&lists, TEXT("\xff"), OUT, &cause));
    CHECK(cause == TL_NO_REASON);

    static const char options[] = "--tags p\n--keys class,id,rel\n--link-keys cite,href\n--links https://,http://\n"
                                  "--relative-links\n--nofollow-links\n--classes own-*\n--prefix my-\n";
    PUTS(options, tl_list_options(&lists, OUT));
    LEAVES(TL_NO_ROOM, sizeof options - 1, tl_list_options(&lists, ROOM(9)));
    RUNS_OUT(options, tl_list_options(&lists, OUT));
    lists.tags = tl_list_of("script");
    lists.classes = tl_list_of("+hljs,-own-*");
    PUTS("--tags script\n--keys class,id,rel\n--link-keys cite,href\n--links https://,http://\n"
         "--relative-links\n--nofollow-links\n--classes hljs\n--prefix my-\n", tl_list_options(&lists, OUT));

    static const struct {
        const char *tags, *keys, *link_keys, *link_prefixes, *classes, *id_prefix, *word;
        uint8_t reason;
    } wrong[] = {
        {"p,B", NULL, NULL, NULL, NULL, NULL, "B", TL_MALFORMED_TAG},
        {"p,script", "onclick", NULL, NULL, NULL, NULL, "script", TL_OPAQUE_TAG},
        {"body", NULL, NULL, NULL, NULL, NULL, "body", TL_STRUCTURAL_TAG},
        {NULL, "a.b", NULL, NULL, NULL, NULL, "a.b", TL_MALFORMED_KEY},
        {NULL, "onclick", NULL, NULL, NULL, NULL, "onclick", TL_SCRIPT_KEY},
        {NULL, "style", NULL, NULL, NULL, NULL, "style", TL_ACTIVE_KEY},
        {NULL, NULL, "cite", NULL, NULL, NULL, "href", TL_LINK_KEY},
        {NULL, NULL, NULL, "a b", NULL, NULL, "a b", TL_MALFORMED_LINK},
        {NULL, NULL, NULL, "javascript:", NULL, NULL, "javascript:", TL_ACTIVE_SCHEME},
        {NULL, NULL, NULL, "www", NULL, NULL, "www", TL_NO_SCHEME},
        {NULL, NULL, NULL, NULL, "*,a*b", "1", "a*b", TL_MALFORMED_CLASS},
        {NULL, NULL, NULL, NULL, NULL, "1", "1", TL_MALFORMED_PREFIX},
    };
    for (size_t row = 0; row < sizeof wrong / sizeof *wrong; row++) {
        tl_lists own = TL_LISTS_OF(TL_BLOG);
        if (wrong[row].tags) own.tags = tl_list_of(wrong[row].tags);
        if (wrong[row].keys) own.keys = tl_list_of(wrong[row].keys);
        if (wrong[row].link_keys) own.link_keys = tl_list_of(wrong[row].link_keys);
        if (wrong[row].link_prefixes) own.link_prefixes = tl_list_of(wrong[row].link_prefixes);
        if (wrong[row].classes) own.classes = tl_list_of(wrong[row].classes);
        if (wrong[row].id_prefix) own.id_prefix = tl_list_of(wrong[row].id_prefix);
        LEAVES(TL_REFUSED, 0, tl_sanitize_html_with(&own, TEXT(written), OUT, &cause));
        CHECK(cause == wrong[row].reason);
        cause = 99;
        CHECK(has_put(tl_refused_word(&own, OUT, &cause), wrong[row].word, strlen(wrong[row].word)));
        CHECK(cause == wrong[row].reason);
    }
    tl_lists own = TL_LISTS_OF(TL_BLOG);
    own.nofollow_links = true;
    own.link_keys = tl_list_of("href,src,cite,rel");
    PUTS("rel", tl_refused_word(&own, OUT, &cause));
    CHECK(cause == TL_UNLISTED_MARK);
    LEAVES(TL_NO_ROOM, 3, tl_refused_word(&own, ROOM(2), &cause));
    RUNS_OUT("rel", tl_refused_word(&own, OUT, &cause));
    own.policy = 3;
    LEAVES(TL_NOT_UNDERSTOOD, 0, tl_sanitize_html_with(&own, TEXT(written), OUT, &cause));
    LEAVES(TL_NOT_UNDERSTOOD, 0, tl_refused_word(&own, OUT, &cause));
    LEAVES(TL_NOT_UNDERSTOOD, 0, tl_list_options(&own, OUT));
    own.policy = TL_BLOG;
    own.id_prefix = tl_list_of("\xff");
    LEAVES(TL_NOT_UNDERSTOOD, 0, tl_sanitize_html_with(&own, TEXT(written), OUT, &cause));
    LEAVES(TL_NOT_UNDERSTOOD, 0, tl_refused_word(&own, OUT, &cause));
    CHECK(cause == TL_NO_REASON);
    LEAVES(TL_NOT_UNDERSTOOD, 0, tl_list_options(&own, OUT));
}

static int is_told(size_t at, uint8_t why) {
    return place == at && cause == why;
}

static void of_patch(void) {
#define PATCH(edit, selector, key, value, page) tl_patch_css(edit, TEXT(selector), TEXT(key), TEXT(value), TEXT(page), OUT, &place, &cause)
    PUTS("<!DOCTYPE X><P><IMG a=\"b&amp;\" SRC=x>3 < 4", PATCH(TL_SET, "p > img", "a", "b&", "<!DOCTYPE X><P><IMG SRC=x>3 < 4"));
    CHECK(is_told(0, TL_NO_CAUSE));
    PUTS("<P>x</P>", PATCH(TL_UNSET, "p", "onclick", "", "<P ONCLICK=f()>x</P>"));
    PUTS("<P>x", PATCH(TL_SET, "i", "a", "b", "<P>x"));
    LEAVES(TL_REFUSED, 0, PATCH(TL_SET, "p:hover", "a", "b", "<P>x"));
    CHECK(is_told(2, TL_NO_PSEUDO_CLASS));
    LEAVES(TL_REFUSED, 0, PATCH(TL_SET, "p", "a b", "c", "x<P>y"));
    CHECK(is_told(1, TL_NOT_WRITTEN));
    PUTS("<table><tr a=\"b\"><td>x</table>", PATCH(TL_SET, "table > tbody > tr", "a", "b", "<table><tr><td>x</table>"));
    LEAVES(TL_REFUSED, 0, PATCH(TL_SET, "tbody", "a", "c", "<table><tr><td>x</table>"));
    CHECK(is_told(7, TL_UNTAGGED));
    PUTS("<p>x", PATCH(TL_UNSET, "*", "a", "", "<p a>x"));
    LEAVES(TL_REFUSED, 0, PATCH(TL_SET, "b", "a", "c", "<svg><title><b></title></svg>"));
    CHECK(is_told(12, TL_NO_START_TAG));
    LEAVES(TL_NOT_UNDERSTOOD, 0, PATCH(2, "p", "a", "b", "<P>x"));
    LEAVES(TL_NOT_UNDERSTOOD, 0, PATCH(TL_SET, "\xff", "a", "b", "<P>x"));
    LEAVES(TL_NOT_UNDERSTOOD, 0, PATCH(TL_SET, "p", "a", "b", "\xff"));
    CHECK(is_told(0, TL_NO_CAUSE));
    LEAVES(TL_NO_ROOM, 10, tl_patch_css(TL_SET, TEXT("p"), TEXT("a"), TEXT("b"), TEXT("<p>x"), ROOM(9), &place, &cause));
    RUNS_OUT("<p a=\"b\">x", PATCH(TL_SET, "p", "a", "b", "<p>x"));
#undef PATCH
}

/* Elements changed where a selector holds. */
static void of_elements(void) {
#define EDIT(edit, form, selector, content, page) tl_edit_css(edit, form, TEXT(selector), TEXT(content), TEXT(page), OUT, &place, &cause)
    PUTS("<!DOCTYPE X><div a>x</div>", EDIT(TL_RENAME, 9, "p", "div", "<!DOCTYPE X><P a>x</P>"));
    CHECK(is_told(0, TL_NO_CAUSE));
    LEAVES(TL_REFUSED, 0, EDIT(TL_RENAME, 9, "p", "DIV", "<!DOCTYPE X><P a>x</P>"));
    CHECK(is_told(12, TL_NO_CONTENT));
    PUTS("<P>x</P>", EDIT(TL_REMOVE, 9, "b", "", "<P>x<B>y</B></P>"));
    PUTS("<P>xy</P>", EDIT(TL_UNWRAP, 9, "b", "", "<P>x<B>y</B></P>"));
    PUTS("<P>x3 &lt; 4</P>", EDIT(TL_REPLACE, TL_AS_TEXT, "b", "3 < 4", "<P>x<B>y</B></P>"));
    PUTS("<P>x<i>z</i></P>", EDIT(TL_REPLACE, TL_AS_MARKUP, "b", "<i>z</i>", "<P>x<B>y</B></P>"));
    PUTS("<P>x<B>z</B></P>", EDIT(TL_FILL, TL_AS_TEXT, "b", "z", "<P>x<B>y</B></P>"));
    PUTS("<P>x<B>zy</B></P>", EDIT(TL_PREPEND, TL_AS_TEXT, "b", "z", "<P>x<B>y</B></P>"));
    PUTS("<P>x<B>yz</B></P>", EDIT(TL_APPEND, TL_AS_TEXT, "b", "z", "<P>x<B>y</B></P>"));
    PUTS("<P>xz<B>y</B></P>", EDIT(TL_PUT_BEFORE, TL_AS_TEXT, "b", "z", "<P>x<B>y</B></P>"));
    PUTS("<P>x<B>y</B>z</P>", EDIT(TL_PUT_AFTER, TL_AS_TEXT, "b", "z", "<P>x<B>y</B></P>"));
    PUTS("<P>x", EDIT(TL_REMOVE, 9, "i", "", "<P>x"));
    LEAVES(TL_REFUSED, 0, EDIT(TL_REMOVE, 0, "p:hover", "", "<P>x"));
    CHECK(is_told(2, TL_NO_PSEUDO_CLASS));
    LEAVES(TL_REFUSED, 0, EDIT(TL_FILL, TL_AS_TEXT, "br", "y", "x<br>"));
    CHECK(is_told(1, TL_NOT_MEANT));
    LEAVES(TL_REFUSED, 0, EDIT(TL_FILL, TL_AS_MARKUP, "style", "</style>", "x<style></style>"));
    CHECK(is_told(1, TL_NO_CONTENT));
    LEAVES(TL_REFUSED, 0, EDIT(TL_FILL, TL_AS_TEXT, "style", "</style>", "x<style></style>"));
    CHECK(is_told(1, TL_READ_OTHERWISE));
    LEAVES(TL_REFUSED, 0, EDIT(TL_FILL, TL_AS_TEXT, "style", "a</noscript><img>", "<noscript><style></style></noscript>"));
    CHECK(is_told(10, TL_MISREAD));
    LEAVES(TL_REFUSED, 0, EDIT(TL_RENAME, 9, "b", "svg", "<b><style>&</style></b>"));
    CHECK(is_told(0, TL_MISREAD));
    LEAVES(TL_REFUSED, 0, EDIT(TL_REMOVE, 0, "p", "", "x</p>"));
    CHECK(is_told(5, TL_UNTAGGED));
    LEAVES(TL_REFUSED, 0, EDIT(TL_REMOVE, 0, "b", "", "<svg><title><b></title></svg>"));
    CHECK(is_told(12, TL_NO_START_TAG));
    LEAVES(TL_REFUSED, 0, EDIT(TL_REMOVE, 0, "svg", "", "<svg><p>x</p></svg>y"));
    CHECK(is_told(8, TL_NOT_WHOLE));
    PUTS("<svg></svg>y", EDIT(TL_REMOVE, 0, "p", "", "<svg><p>x</p></svg>y"));
    PUTS("<p>xy", EDIT(TL_APPEND, TL_AS_TEXT, "p", "y", "<p>x"));
    LEAVES(TL_NOT_UNDERSTOOD, 0, EDIT(9, TL_AS_TEXT, "p", "a", "<P>x</P>"));
    LEAVES(TL_NOT_UNDERSTOOD, 0, EDIT(TL_FILL, 2, "p", "a", "<P>x</P>"));
    LEAVES(TL_NOT_UNDERSTOOD, 0, EDIT(TL_REMOVE, 0, "\xff", "", "<P>x</P>"));
    LEAVES(TL_NOT_UNDERSTOOD, 0, EDIT(TL_REMOVE, 0, "p", "", "\xff"));
    CHECK(is_told(0, TL_NO_CAUSE));
    LEAVES(TL_NO_ROOM, 8, tl_edit_css(TL_FILL, TL_AS_TEXT, TEXT("p"), TEXT("y"), TEXT("<p>x</p>"), ROOM(7), &place, &cause));
    RUNS_OUT("<p>y</p>", EDIT(TL_FILL, TL_AS_TEXT, "p", "y", "<p>x</p>"));
#undef EDIT
}

static void of_words(void) {
    CHECK(strcmp(TL_VERSION, VERSION) == 0);
    CHECK(strcmp(tl_status_text(TL_NO_ROOM), "no room") == 0);
    CHECK(strcmp(tl_status_text(99), "no status") == 0);
    CHECK(strcmp(tl_cause_text(TL_UNCLOSED), "opened here and never closed") == 0);
    CHECK(strcmp(tl_cause_text(TL_NO_CAUSE), "no cause") == 0);
    CHECK(strcmp(tl_cause_text(TL_NO_CONTENT), "the new content or name can't be written there") == 0);
    CHECK(strcmp(tl_reason_text(TL_LINK_KEY), "the value of this attribute is a URL, so it has to be a link attribute too") == 0);
    CHECK(strcmp(tl_reason_text(TL_NO_REASON), "no reason") == 0);
}

static void of_version(void) {
    PUTS(VERSION, tl_version(OUT));
    LEAVES(TL_NO_ROOM, sizeof(VERSION) - 1, tl_version(ROOM(sizeof(VERSION) - 2)));
    requests = 0;
    PUTS(VERSION, tl_version(OUT));
    CHECK(requests == 0);
}

/* A call that makes something of a page alone. */
typedef tl_status page_call(const uint8_t *page, size_t page_len, uint8_t *out, size_t room, size_t *needed);

/* What a call makes of a page, in a block of its own: first with as much room as the page has bytes, then with what is needed. */
static uint8_t *made(page_call *call, const uint8_t *page, size_t len, size_t *count) {
    for (size_t room = len + 1;; room = *count) {
        uint8_t *block = malloc(room);
        CHECK(block != NULL);
        tl_status status = call(page, len, block, room, count);
        if (status == TL_DONE) return block;
        free(block);
        CHECK(status == TL_NO_ROOM);
    }
}

/* Whether a call makes so many times these bytes of a page of so many times a text. */
static int makes(page_call *call, size_t times, const uint8_t *text, size_t len, size_t wanted_times, const uint8_t *wanted,
                 size_t wanted_len) {
    size_t count;
    uint8_t *page = malloc(len * times);
    CHECK(page != NULL);
    for (size_t at = 0; at < times; at++) memcpy(page + at * len, text, len);
    uint8_t *block = made(call, page, len * times, &count);
    int is = count == wanted_len * wanted_times;
    for (size_t at = 0; is && at < wanted_times; at++) is = memcmp(block + at * wanted_len, wanted, wanted_len) == 0;
    free(block);
    free(page);
    return is && held == 0;
}

static tl_status keyed(const uint8_t *page, size_t page_len, uint8_t *block, size_t room, size_t *count) {
    return tl_patch_css(TL_SET, TEXT("b"), TEXT("a"), TEXT("c"), page, page_len, block, room, count, &place, &cause);
}

/* Pages and answers of 10 MB, and tags deep in one another: none of them wants more memory than there is. */
static void of_large(void) {
    CHECK(makes(tl_sanitize_html, 1000000, TEXT("<B>xyz</B>"), 1000000, TEXT("<b>xyz</b>")));
    CHECK(makes(tl_sanitize_html, 10000, TEXT("<x-y>z"), 10000, TEXT("z")));
    CHECK(makes(keyed, 1000000, TEXT("<B>xyz</B>"), 1000000, TEXT("<B a=\"c\">xyz</B>")));
}

int main(void) {
    memset(out, '.', sizeof out);
    of_sanitize_html();
    of_policies();
    of_encodings();
    of_lists();
    of_removals();
    of_patch();
    of_elements();
    of_words();
    of_version();
    of_large();
    size_t count;
    uint8_t *block = made(tl_sanitize_html, TEXT("<p>x"), &count);
    CHECK(count == 8 && memcmp(block, "<p>x</p>", 8) == 0);
    free(block);
    CHECK(held == 0);
    return 0;
}
