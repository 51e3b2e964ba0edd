/* tl.h: reads pages of HTML, however broken: asks once of a page, or keeps a document that answers any number of questions.
 *
 *     cc -I include program.c libtl.a
 *
 * libtl.a takes memory by malloc, realloc and free, and needs nothing else of the C library but memcpy, memmove, memset and the
 * like, which compilers call.
 *
 * Each call reads the bytes that it is lent, and puts its answer at the front of `out` (or `numbers`), which has room for `room`
 * items. `*needed` is the number of items of the answer. What is returned is one of these:
 *
 *   TL_DONE            the answer stands in the first `*needed` items of `out`, and the rest of `out` is as it was
 *   TL_REFUSED         the selector is invalid, or what is asked for isn't there: no document, no such node, no such value; `*needed`
 *                      is 0
 *   TL_NOT_UNDERSTOOD  an argument is not valid UTF-8, a page has more than 4294967295 bytes, its tree is out of proportion to it
 *                      (`tl_parse_html` says when), or nothing that can be asked for is asked; `*needed` is 0
 *   TL_OUT_OF_MEMORY   memory ran out, or the numbers of 32 bits for the parts of a tree did; `*needed` is 0
 *   TL_NO_ROOM         the answer has `*needed` items, which is more than `room`: lend as many and call again
 *
 * With all but TL_DONE `out` is as it was. But for TL_OUT_OF_MEMORY what is lent, `room` and the document determine all of it: this is proved,
 * for all bytes and each document that the calls made. Of `tl_patch_css`, `tl_edit_css`, `tl_patch_nodes` and `tl_edit_nodes` it is proved what they write, and that a
 * reason for which they write nothing holds.
 *
 * Lengths     are in bytes, also of texts. Nothing ends with a byte 0, and texts may hold some.
 * Texts       are UTF-8, those that come out too.
 * Numbers     The nodes of a document are counted from 0 in the order of its tree: a node comes before what is below it, and that
 *             before the sibling behind it. Node 0 is the first at the top.
 * Memory      A call keeps no pointer. The calls with a page give back all memory that they took before they return; a document
 *             keeps its own until `tl_free`.
 * Threads     There is no state between calls with a page: any number of threads may call at once. Threads take turns with a document, or each
 *             asks by a reader of its own (`tl_reader_of`).
 *
 * What a caller owes, and nothing checks:
 *   - each pointer is not null, also where its length is 0, and leads to as many items as its length says, for writing where it isn't
 *     `const`;
 *   - no length is above PTRDIFF_MAX bytes;
 *   - what is written (`out`, `*needed`, `*place`, `*cause` and the like, `*document`) lies apart from each other and from all that is
 *     read (what is read may overlap), and no other thread writes to what the call is lent, or reads what it writes, until the call
 *     returns;
 *   - a `tl_document` is TL_NO_DOCUMENT before its first call, and after that only these calls write it. It may be moved, and isn't
 *     copied but by `tl_reader_of`: of two copies that are freed the second frees memory again that is no longer the document's;
 *   - one call at a time uses a document, and where another thread calls next, a lock or the like stands between. Calls that only ask
 *     write to it too: while they last it is TL_NO_DOCUMENT. So no call takes a `const tl_document *`;
 *   - no call comes from a signal handler, or from the forked child of a process with threads.
 *
 * `./x library` compares the names of this header with those of the library, and `./x bindings` calls each function.
 */
#ifndef TL_H
#define TL_H

#include <stdbool.h>
#include <stddef.h>
#include <stdint.h>

#ifdef __cplusplus
extern "C" {
#endif

/* The version of this header; `tl_version` says that of the library. */
#define TL_VERSION "0.1.0"

typedef uint8_t tl_status;

enum {
    TL_DONE = 0,
    TL_REFUSED = 1,
    TL_NOT_UNDERSTOOD = 2,
    TL_OUT_OF_MEMORY = 3,
    TL_NO_ROOM = 4
};

/* A status in words. */
static inline const char *tl_status_text(tl_status status) {
    switch (status) {
    case TL_DONE: return "done";
    case TL_REFUSED: return "refused";
    case TL_NOT_UNDERSTOOD: return "not understood";
    case TL_OUT_OF_MEMORY: return "out of memory";
    case TL_NO_ROOM: return "no room";
    default: return "no status";
    }
}

/* Calls with a page. */

/* What the policy for the text of a blog keeps of the page: docs/SAFE.md says what that is, and what it does not promise. The page is
 * read as browsers read it: end tags that are left out, names in upper case, values without quotes and references mean there what they
 * mean to a browser, and a `<` that begins no tag stays a text. For pages that people write, and for what they type into a form. A page
 * whose tree is out of proportion to it isn't understood; of one that is too large there is no memory. */
tl_status tl_sanitize_html(const uint8_t *page, size_t page_len,
                           uint8_t *out, size_t room, size_t *needed);

/* The policies: for the text of a blog, as above; for comments of readers, with emphasis, quotes, lists, code and links to the web; and
 * for documents, with tables, the parts of a document, and pictures and links beside the page. docs/SAFE.md has their lists. */
enum {
    TL_BLOG = 0,
    TL_COMMENTS = 1,
    TL_DOCUMENTS = 2
};

/* The same by one of these policies. Another number is not understood. */
tl_status tl_sanitize_html_by(uint8_t policy, const uint8_t *page, size_t page_len,
                              uint8_t *out, size_t room, size_t *needed);

/* A list of a policy: words with commas between them, as "a,b,p"; empty words are left out. Where it isn't said, the list is that of
 * the policy, and the text isn't read. One that begins with `+` or `-` changes the policy's list: a word behind `-` goes, one behind `+`
 * or alone comes, as "+img,-b". The prefix is one word, and isn't changed so. */
typedef struct {
    const uint8_t *text;
    size_t len;
    bool is_said;
} tl_list;

/* A policy of one's own: that of a number, with the lists that are said instead of its own, as `tl sanitize` takes them. */
typedef struct {
    tl_list tags;          /* the tags that may stand */
    tl_list keys;          /* the keys of attributes that may stand */
    tl_list link_keys;     /* the keys that hold links */
    tl_list link_prefixes; /* what links begin with */
    tl_list classes;       /* the patterns of classes that may stand: a `*` at the end of one stands for any characters, as "language-*,hljs" */
    tl_list id_prefix;     /* what stands in front of `id` and `name` and of links to them: one word */
    bool relative_links;   /* whether links beside the page may stand too, as `x.png`; also where that is the policy's own */
    bool nofollow_links;   /* whether each link is marked with rel="nofollow noopener"; `rel` is among the keys then */
    uint8_t policy;        /* TL_BLOG, TL_COMMENTS or TL_DOCUMENTS */
} tl_lists;

/* A list that isn't said, and lists of which none is: tl_lists lists = TL_LISTS_OF(TL_COMMENTS); */
#define TL_OWN_LIST {(const uint8_t *)"", 0, false}
#define TL_LISTS_OF(policy) {TL_OWN_LIST, TL_OWN_LIST, TL_OWN_LIST, TL_OWN_LIST, TL_OWN_LIST, TL_OWN_LIST, false, false, (policy)}

/* The list that a text of C says: lists.tags = tl_list_of("a,b,p"); */
static inline tl_list tl_list_of(const char *words) {
    tl_list list = {(const uint8_t *)words, 0, true};
    while (words[list.len] != 0) list.len++;
    return list;
}

/* Why lists are an invalid policy. */
enum {
    TL_NO_REASON = 0,
    TL_MALFORMED_TAG = 1,    /* a tag name is a letter a-z, then letters and digits */
    TL_OPAQUE_TAG = 2,       /* the content of this element isn't HTML markup */
    TL_STRUCTURAL_TAG = 3,   /* this element affects the page around it, or loads other content */
    TL_MALFORMED_KEY = 4,    /* an attribute name is a letter a-z, then letters and `-` */
    TL_SCRIPT_KEY = 5,       /* the value of this attribute is a script */
    TL_ACTIVE_KEY = 6,       /* the value of this attribute isn't a name, text or URL */
    TL_LINK_KEY = 7,         /* the value of this attribute is a URL, so it has to be a link attribute too */
    TL_MALFORMED_LINK = 8,   /* a link prefix is printable ASCII without spaces, `"`, `<` and `>` */
    TL_ACTIVE_SCHEME = 9,    /* URLs that begin so are programs or documents */
    TL_NO_SCHEME = 10,       /* links begin with a scheme and its `:`, or with `/`, `#`, `?` or `.` */
    TL_MALFORMED_PREFIX = 11, /* a prefix is a letter a-z, then letters and `-` */
    TL_UNLISTED_MARK = 12,   /* links are marked with `rel`, which isn't allowed, or is a link attribute */
    TL_NO_TABLE_BODY = 13,   /* `tbody`, `thead` or `tfoot` has to be allowed too, or rows lose their text */
    TL_NO_ROW = 14,          /* `tr` has to be allowed too, or rows lose their text */
    TL_NO_CELL = 15,         /* `td` or `th` has to be allowed too, or cells lose their text */
    TL_NO_CAPTION = 16,      /* `caption` has to be allowed too, or captions lose their text */
    TL_NO_TABLE = 17,        /* `table` has to be allowed too, as this element belongs in one */
    TL_MALFORMED_CLASS = 18  /* a pattern of classes is a word without spaces and `"`, with a `*` at its end alone */
};

/* A reason in words. */
static inline const char *tl_reason_text(uint8_t reason) {
    switch (reason) {
    case TL_MALFORMED_TAG: return "invalid tag name: expected a letter a-z, then letters and digits";
    case TL_OPAQUE_TAG: return "a policy can't allow this element: its content isn't HTML markup";
    case TL_STRUCTURAL_TAG: return "a policy can't allow this element: it affects the page around it, or loads other content";
    case TL_MALFORMED_KEY: return "invalid attribute name: expected a letter a-z, then letters and `-`";
    case TL_SCRIPT_KEY: return "a policy can't allow this attribute: its value is a script";
    case TL_ACTIVE_KEY: return "a policy can't allow this attribute: its value isn't a name, text or URL";
    case TL_LINK_KEY: return "the value of this attribute is a URL, so it has to be a link attribute too";
    case TL_MALFORMED_LINK: return "invalid link prefix: expected printable ASCII without spaces, `\"`, `<` and `>`";
    case TL_ACTIVE_SCHEME: return "URLs that begin so are programs or documents";
    case TL_NO_SCHEME: return "invalid link prefix: expected a scheme with its `:`, or `/`, `#`, `?` or `.` first";
    case TL_MALFORMED_PREFIX: return "invalid prefix: expected a letter a-z, then letters and `-`";
    case TL_UNLISTED_MARK: return "links can't be marked with this attribute: it isn't allowed, or is a link attribute";
    case TL_NO_TABLE_BODY: return "`tbody`, `thead` or `tfoot` has to be allowed too, or rows lose their text";
    case TL_NO_ROW: return "`tr` has to be allowed too, or rows lose their text";
    case TL_NO_CELL: return "`td` or `th` has to be allowed too, or cells lose their text";
    case TL_NO_CAPTION: return "`caption` has to be allowed too, or captions lose their text";
    case TL_NO_TABLE: return "`table` has to be allowed too, as this element belongs in one";
    case TL_MALFORMED_CLASS: return "invalid class pattern: expected no spaces and no `\"`, and `*` only at the end";
    default: return "no reason";
    }
}

/* What a policy of these lists keeps of the page, which is read as above. Lists that are no policy are refused, and `*cause` says why;
 * else it is 0. A list that is not valid UTF-8, and another number of a policy, are not understood. */
tl_status tl_sanitize_html_with(const tl_lists *lists, const uint8_t *page, size_t page_len,
                                uint8_t *out, size_t room, size_t *needed, uint8_t *cause);

/* The options of `tl sanitize` that say these lists, one on each line, as "--tags a,b,p": so an app can show what a policy keeps, also
 * one that is there (TL_LISTS_OF). Whether the lists are a policy isn't looked at. A list that is not valid UTF-8, and another number of a
 * policy, are not understood. */
tl_status tl_list_options(const tl_lists *lists, uint8_t *out, size_t room, size_t *needed);

/* The first word for which these lists are no policy: by the order of tags, keys, link prefixes, classes and the prefix of names,
 * and of the words in each; then `rel` where links can't be marked; then `table` or a part of a table, where one lacks the other. `*cause` says
 * why, and in which list the word stands. Lists that are a policy have no such word: that is refused, and `*cause` is 0. */
tl_status tl_refused_word(const tl_lists *lists, uint8_t *out, size_t room, size_t *needed, uint8_t *cause);

/* A number in 8 bytes, the lowest first. */
static inline uint64_t tl_number_at(const uint8_t *bytes) {
    uint64_t number = 0;
    for (int place = 7; place >= 0; place--) number = number << 8 | bytes[place];
    return number;
}

/* Why something goes of a page. */
enum {
    TL_WHY_UNLISTED_TAG = 1,  /* the tag isn't listed: what is in the element stands in its place */
    TL_WHY_OPAQUE_TAG = 2,    /* what is in the element is no markup of HTML, or isn't shown: it goes with all of that */
    TL_WHY_FOREIGN_TAG = 3,   /* the element is one of `svg` or `math`: it goes with all that is in it */
    TL_WHY_MISPLACED_TAG = 4, /* the tag is listed, and may not stand where it is: what is in it stands in its place */
    TL_WHY_UNLISTED_KEY = 5,  /* the attribute isn't listed */
    TL_WHY_UNLISTED_VALUE = 6 /* the value may not stand in its attribute, as a link that begins with what no link may */
};

/* It in words. */
static inline const char *tl_why_text(uint8_t why) {
    switch (why) {
    case TL_WHY_UNLISTED_TAG: return "the tag isn't listed";
    case TL_WHY_OPAQUE_TAG: return "what is in it isn't shown as markup";
    case TL_WHY_FOREIGN_TAG: return "it is no element of HTML";
    case TL_WHY_MISPLACED_TAG: return "the tag may not stand here";
    case TL_WHY_UNLISTED_KEY: return "the attribute isn't listed";
    case TL_WHY_UNLISTED_VALUE: return "the value may not stand here";
    default: return "no reason";
    }
}

/* What goes of the page by a policy of these lists, in the order of the page, so that an app can tell its author: each element that goes, but
 * those in one that goes whole, and of each that stays the attributes that go. An element that the standard puts in, which nobody wrote,
 * isn't told, nor are values that change. `tl_next_removal` reads them. The status and `*cause` are those of `tl_sanitize_html_with`. */
tl_status tl_removed_html(const tl_lists *lists, const uint8_t *page, size_t page_len,
                          uint8_t *out, size_t room, size_t *needed, uint8_t *cause);

/* What goes, where it stands in the answer. */
typedef struct {
    size_t start, end;         /* where the start tag of the element stands in the page, behind a byte order mark */
    const uint8_t *name, *key; /* the name of the element, and the key of the attribute */
    size_t name_len, key_len;  /* `key_len` is 0 where the element itself goes */
    uint8_t why;
} tl_removal;

/* Reads what goes at a place of an answer of `tl_removed_html` and moves the place behind it; false at the end:
 * for (const uint8_t *at = out; tl_next_removal(&at, out + needed, &removal);) .. */
static inline bool tl_next_removal(const uint8_t **at, const uint8_t *end, tl_removal *removal) {
    const uint8_t *head = *at;
    if (head == end) return false;
    removal->start = (size_t)tl_number_at(head);
    removal->end = (size_t)tl_number_at(head + 8);
    removal->why = (uint8_t)tl_number_at(head + 16);
    removal->name_len = (size_t)tl_number_at(head + 24);
    removal->key_len = (size_t)tl_number_at(head + 32);
    removal->name = head + 40;
    removal->key = removal->name + removal->name_len;
    *at = removal->key + removal->key_len;
    return true;
}

/* The name of the encoding that a page is in, as "windows-1252": that of its byte-order mark, else of this label of the Encoding standard,
 * else, where the label is empty, what the page says, as browsers tell it. What is no label is refused. It takes no memory. */
tl_status tl_encoding_of(const uint8_t *label, size_t label_len, const uint8_t *page, size_t page_len, uint8_t *out, size_t room,
                         size_t *needed);

/* The text of a page in UTF-8, which the other calls read, by the encoding that `tl_encoding_of` tells. U+FFFD stands for bytes that are
 * wrong; a byte-order mark stays, and is passed over by what reads the text. */
tl_status tl_decode_page(const uint8_t *label, size_t label_len, const uint8_t *page, size_t page_len, uint8_t *out, size_t room,
                         size_t *needed);

/* The version, as "0.1.0". It takes no memory. */
tl_status tl_version(uint8_t *out, size_t room, size_t *needed);

/* Documents.
 *
 *     tl_document document = TL_NO_DOCUMENT;
 *     if (tl_parse_html(page, page_len, &document) == TL_DONE) {
 *         status = tl_select_css(&document, selector, selector_len, numbers, room, &needed, &place, &cause);
 *         ..
 *     }
 *     tl_free(&document);
 *
 * No call but those that read and `tl_free` changes what a document holds. */

/* A document, or none. What `at` leads to is the library's. */
typedef struct {
    void *at;
} tl_document;

#define TL_NO_DOCUMENT {NULL}

/* Reads a copy of the page into `document`, and gives back what that held before. With a status but TL_DONE it holds that still.
 *
 * What is held is the tree that a browser builds of the page (the HTML standard's tree construction, with scripting off): an `html`, a
 * `head` and a `body` stand in it also where the page has no tag of theirs, and what is misnested stands where browsers put it. Texts
 * and values are the characters that they say (`&lt;` is `<`), names of HTML elements and their keys are in lower case. A byte order
 * mark is no part of it.
 *
 * Isn't understood: a page that is not valid UTF-8, one of more than 4294967295 bytes, and one whose tree is out of proportion to it: in which
 * more than four elements for each of its tags, comments and texts, and 65536 beside, are put in or opened again that no start tag
 * stands for. */
tl_status tl_parse_html(const uint8_t *page, size_t page_len, tl_document *document);

/* Gives a document's memory back, and leaves TL_NO_DOCUMENT there. On TL_NO_DOCUMENT, so when called again, it does nothing. */
void tl_free(tl_document *document);

/* A document of its own for a thread that asks this one while other threads do: it leads to the same nodes. No call but those that only
 * ask takes it, `tl_free` isn't called on it, and nobody asks by it once the document is freed or reads another page. Calls that ask
 * write to nothing that readers share: `./x bindings --threads` has the thread sanitizer look at them; it is not proved. */
static inline tl_document tl_reader_of(const tl_document *document) {
    return *document;
}

/* How many nodes there are: their numbers are those below it. Without a document 0. It takes no memory. */
uint32_t tl_node_count(tl_document *document);

/* 1 where the document is in quirks mode, as without a doctype: then classes and ids of selectors hold in any case. Else, and without a
 * document, 0. It takes no memory. */
uint8_t tl_is_quirks(tl_document *document);

/* The whole page as markup, as the HTML standard serializes its tree. */
tl_status tl_document_html(tl_document *document, uint8_t *out, size_t room, size_t *needed);

/* The same with a tag on each line where white space doesn't count, as `tl print --pretty`. */
tl_status tl_document_pretty_html(tl_document *document, uint8_t *out, size_t room, size_t *needed);

/* All nodes at once, for those who walk through a whole tree: of each node four numbers, in document order. They are its kind (TL_ELEMENT
 * ..), its namespace (TL_HTML ..), the number of the node that it stands in or TL_NO_NODE, and that behind the last node below it. */
tl_status tl_nodes(tl_document *document, uint32_t *numbers, size_t room, size_t *needed);

/* What stands in each node itself, in document order, and a byte 255 behind each, which no UTF-8 has: of a text and of a comment what
 * they say; of an element its name, and its keys and values with a byte 0 before each, as "a\0href\0/x"; of others nothing. */
tl_status tl_parts(tl_document *document, uint8_t *out, size_t room, size_t *needed);

/* Each URL in an attribute of the document, as `tl links` lists them, in document order: the number of the element, how many
 * bytes the key and the URL have, each in 8 bytes with the lowest first; and the key and the URL. `tl_next_link` reads them. Of a `srcset`
 * each of its URLs is one. */
tl_status tl_document_links(tl_document *document, uint8_t *out, size_t room, size_t *needed);

/* A link, where it stands in the answer. */
typedef struct {
    const uint8_t *key, *url;
    size_t key_len, url_len;
    uint32_t node;
} tl_link;

/* Reads the link at a place of an answer of `tl_document_links` and moves the place behind it; false at the end:
 * for (const uint8_t *at = out; tl_next_link(&at, out + needed, &link);) .. */
static inline bool tl_next_link(const uint8_t **at, const uint8_t *end, tl_link *link) {
    const uint8_t *head = *at;
    if (head == end) return false;
    link->node = (uint32_t)tl_number_at(head);
    link->key_len = (size_t)tl_number_at(head + 8);
    link->url_len = (size_t)tl_number_at(head + 16);
    link->key = head + 24;
    link->url = link->key + link->key_len;
    *at = link->url + link->url_len;
    return true;
}

/* Where a link leads from a base, by the URL standard: "https://a.b/c/d" from "https://a.b/c/" and "d". The base of a page is its own URL,
 * or, where it has a `base` with an `href`, where that leads from there. It is refused where the base is no URL, or the link is none from
 * there; a base that is not valid UTF-8 isn't understood. */
tl_status tl_join_url(const uint8_t *base, size_t base_len, const uint8_t *link, size_t link_len,
                      uint8_t *out, size_t room, size_t *needed);

/* What stands where there is no node. */
#define TL_NO_NODE UINT32_MAX

/* What is wrong with a selector of CSS. */
enum {
    TL_NO_CAUSE = 0,
    TL_UNCLOSED = 1,         /* a bracket, a string or a comment that begins here isn't closed */
    TL_NO_SELECTOR = 2,      /* a selector has to stand here */
    TL_NO_NAME = 3,          /* a name has to stand here */
    TL_NO_OPERATOR = 4,      /* `=` or one of `~= |= ^= $= *=` has to stand here, or a `]` */
    TL_NO_VALUE = 5,         /* a name or a string has to stand here */
    TL_NO_FLAG = 6,          /* this flag is neither `i` nor `s` */
    TL_NO_FORMULA = 7,       /* `an+b`, `odd` or `even` has to be here */
    TL_LARGE_NUMBER = 8,     /* this number is above 2147483647 */
    TL_NO_PSEUDO_CLASS = 9,  /* no pseudo-class has this name */
    TL_PSEUDO_ELEMENT = 10,  /* pseudo-elements are no tags */
    TL_NAMESPACE = 11,       /* an unknown namespace prefix */
    TL_NEEDS_ARGUMENT = 12,  /* the pseudo-class needs an argument in parentheses */
    TL_TAKES_NONE = 13,      /* the pseudo-class takes no argument */
    TL_TOO_DEEP = 14,        /* so many selectors wait here for those inside them that this one is too much */
    TL_UNEXPECTED = 15       /* this byte can't stand here */
};

/* A cause in words. */
static inline const char *tl_cause_text(uint8_t cause) {
    switch (cause) {
    case TL_UNCLOSED: return "opened here and never closed";
    case TL_NO_SELECTOR: return "expected a selector";
    case TL_NO_NAME: return "expected a name";
    case TL_NO_OPERATOR: return "expected `=`, `~=`, `|=`, `^=`, `$=`, `*=` or `]`";
    case TL_NO_VALUE: return "expected a value";
    case TL_NO_FLAG: return "expected the flag `i` or `s`";
    case TL_NO_FORMULA: return "expected `an+b`, `odd` or `even`";
    case TL_LARGE_NUMBER: return "number above 2147483647";
    case TL_NO_PSEUDO_CLASS: return "unknown pseudo-class";
    case TL_PSEUDO_ELEMENT: return "pseudo-elements match no element";
    case TL_NAMESPACE: return "unknown namespace prefix";
    case TL_NEEDS_ARGUMENT: return "expected an argument in parentheses";
    case TL_TAKES_NONE: return "this pseudo-class takes no argument";
    case TL_TOO_DEEP: return "selectors nested too deeply";
    case TL_UNEXPECTED: return "unexpected text";
    case 16: return "this element has no start tag";
    case 17: return "the new attribute or name can't be written in this tag";
    case 18: return "this edit would change how other parts of the page are read";
    case 19: return "this element can't be edited this way: its end tag is missing, or its kind doesn't allow it";
    case 20: return "this edit overlaps the edit of another element";
    case 21: return "nothing can be inserted after the end of the page";
    case 22: return "the new content or name can't be written there";
    case 23: return "a browser may read raw text as markup here";
    case 24: return "browsers add this element: it has no tag to edit";
    case 25: return "only attributes of this element can be edited: what begins here is in it by its tags or in browsers, but not both";
    default: return "no cause";
    }
}

/* Why a call did nothing, in words: the cause, where it says one, else the status. */
static inline const char *tl_error_message(tl_status status, uint8_t cause) {
    return cause == TL_NO_CAUSE ? tl_status_text(status) : tl_cause_text(cause);
}

/* The numbers of the elements that match a CSS selector (docs/COMMANDS.md says which are read), rising, without those in the
 * contents of a `template`. `:scope` is the root of the document. Where the bytes are no selector, which is refused, `*place` is the
 * first byte that is wrong and `*cause` says why; else both are 0. */
tl_status tl_select_css(tl_document *document, const uint8_t *selector, size_t selector_len,
                        uint32_t *numbers, size_t room, size_t *needed, size_t *place, uint8_t *cause);

/* The values at a key of these elements, in order, with a byte 255 behind each, which no UTF-8 has; an element without the key has none.
 * Keys are compared as with tl_attribute. `tl_next_value` reads them. */
tl_status tl_select_values(tl_document *document, const uint8_t *selector, size_t selector_len, const uint8_t *key, size_t key_len,
                           uint8_t *out, size_t room, size_t *needed, size_t *place, uint8_t *cause);

/* Reads the value at a place of an answer of `tl_select_values` and moves the place behind it; false at the end:
 * for (const uint8_t *at = out; tl_next_value(&at, out + needed, &value, &len);) .. */
static inline bool tl_next_value(const uint8_t **at, const uint8_t *end, const uint8_t **value, size_t *len) {
    *value = *at;
    if (*at == end) return false;
    while (**at != 255) *at += 1;
    *len = (size_t)(*at - *value);
    *at += 1;
    return true;
}

/* The first of them alone. Where there is none that is refused with no cause, and `*number` is TL_NO_NODE. */
tl_status tl_first_css(tl_document *document, const uint8_t *selector, size_t selector_len,
                       uint32_t *number, size_t *place, uint8_t *cause);

/* The same of the elements below a node, as `querySelectorAll` of an element has it: the selector is asked of the whole document, so it
 * may name what stands around the node, which is itself none of them, and `:scope` is the node. A selector may begin with a combinator:
 * `> li` is `:scope > li`. What `+ li` and `~ li` lead to is not below the node, so they find nothing. Of a node in the contents of a
 * `template`, and of contents themselves, what stands in them is found. Where there is no such node that is refused. */
tl_status tl_node_select_css(tl_document *document, uint32_t node, const uint8_t *selector, size_t selector_len,
                             uint32_t *numbers, size_t room, size_t *needed, size_t *place, uint8_t *cause);
tl_status tl_node_first_css(tl_document *document, uint32_t node, const uint8_t *selector, size_t selector_len,
                            uint32_t *number, size_t *place, uint8_t *cause);

/* Whether a node matches a CSS selector: `*matches` is 1 if it does, and else 0, as at each node that is no element. `:scope` is
 * the node. Where there is no such node that is refused. A selector of a type, ids, classes and attributes (`li.a[href]`) is asked of the node
 * alone, any other of the whole document: who asks that of many nodes asks tl_select_css once. */
tl_status tl_node_matches_css(tl_document *document, uint32_t node, const uint8_t *selector, size_t selector_len,
                              uint8_t *matches, size_t *place, uint8_t *cause);

/* Of a node and the elements that it stands in the innermost one that matches a CSS selector. `:scope` is the node. Where it holds at
 * none, and where there is no such node, that is refused with no cause, and `*number` is TL_NO_NODE. */
tl_status tl_node_closest_css(tl_document *document, uint32_t node, const uint8_t *selector, size_t selector_len,
                              uint32_t *number, size_t *place, uint8_t *cause);

/* A selector of CSS that is read once, and asked of any number of documents. What `at` leads to is the library's. */
typedef struct {
    void *at;
} tl_compiled;

#define TL_NO_COMPILED {NULL}

/* Reads a selector, which may begin with a combinator, into `compiled`, and gives back what that held before. With a status but TL_DONE it
 * holds that still. Where the bytes are no selector, which is refused, `*place` is the first byte that is wrong and `*cause` says why; else
 * both are 0. What a caller owes a `tl_document` it owes a `tl_compiled` too. */
tl_status tl_compile_css(const uint8_t *selector, size_t selector_len, tl_compiled *compiled, size_t *place, uint8_t *cause);

/* Gives its memory back, and leaves TL_NO_COMPILED there; called again it does nothing. */
void tl_free_compiled(tl_compiled *compiled);

/* What tl_select_css, tl_first_css, tl_node_select_css, tl_node_first_css, tl_node_matches_css and tl_node_closest_css answer, by a selector
 * that was read. A combinator that it begins with leads from the root of the document, or from the node. Without a selector that is
 * refused. */
tl_status tl_compiled_select(tl_document *document, tl_compiled *compiled, uint32_t *numbers, size_t room, size_t *needed);
tl_status tl_compiled_first(tl_document *document, tl_compiled *compiled, uint32_t *number);
tl_status tl_compiled_select_below(tl_document *document, uint32_t node, tl_compiled *compiled, uint32_t *numbers, size_t room,
                                   size_t *needed);
tl_status tl_compiled_first_below(tl_document *document, uint32_t node, tl_compiled *compiled, uint32_t *number);
tl_status tl_compiled_matches(tl_document *document, uint32_t node, tl_compiled *compiled, uint8_t *matches);
tl_status tl_compiled_closest(tl_document *document, uint32_t node, tl_compiled *compiled, uint32_t *number);

/* What is done with the tags that match a CSS selector. */
enum {
    TL_SET = 0,  /* the key gets the value */
    TL_UNSET = 1 /* the key goes; the value isn't read, and its length may be 0 */
};

/* Why tags can't be edited this way, beside the causes above; then the place is one of the page. */
enum {
    TL_NO_START_TAG = 16,  /* the tokenizer by itself reads no start tag here, as in a `title` of an `svg` */
    TL_NOT_WRITTEN = 17,   /* this key or this value can't be written in the tag that begins here; keys are in lower case */
    TL_READ_OTHERWISE = 18, /* of tl_edit_css alone: the page would be read otherwise than asked */
    TL_UNTAGGED = 24       /* the selector matches an element that no tag stands for, as a `tbody` that browsers put in: the place is
                              where begins what it was put in before */
};

/* The page with an attribute set or unset in the start tag of each element that matches a CSS selector, and with each other byte as it was:
 * it isn't printed anew. The selector is asked of the tree that browsers build. If nothing matches the answer is the page. Where the bytes are no
 * selector, or a tag can't be changed, that is refused, and `*place` and `*cause` say why; else both are 0. */
tl_status tl_patch_css(uint8_t edit, const uint8_t *selector, size_t selector_len,
                       const uint8_t *key, size_t key_len, const uint8_t *value, size_t value_len,
                       const uint8_t *page, size_t page_len,
                       uint8_t *out, size_t room, size_t *needed, size_t *place, uint8_t *cause);

/* A change of the start tag of a node, by its number: TL_SET or TL_UNSET. */
typedef struct {
    const uint8_t *key;
    size_t key_len;
    const uint8_t *value; /* of TL_UNSET it isn't read */
    size_t value_len;
    uint32_t node;
    uint8_t change;
} tl_change;

/* The page of a document with these changes of the start tags of its nodes, in any order, and with each other byte as it was: so a
 * value can be made of the old one, for each node by itself, and the page is neither read nor written once more for each. `page` is the
 * page that was read into the document, which isn't looked at: of another page the answer is one with these changes at other tags, or a
 * refusal. Several changes of one tag are made one after the other; a start tag that stands for several nodes, as that of formatting
 * that is opened again, has a change of each. A node that no tag stands for can't get a key, and has none that could go. Where a tag
 * can't be changed, that is refused, and `*place` and `*cause` say why, as with tl_patch_css; else both are 0. Another number of a
 * change is not understood. */
tl_status tl_patch_nodes(tl_document *document, const uint8_t *page, size_t page_len, const tl_change *changes, size_t count,
                         uint8_t *out, size_t room, size_t *needed, size_t *place, uint8_t *cause);

/* What is done with the elements that match a CSS selector. */
enum {
    TL_RENAME = 0,    /* the element gets the name that `content` is, in lower case; its attributes stay */
    TL_REMOVE = 1,    /* it goes */
    TL_UNWRAP = 2,    /* its tags go, and what is in it stays */
    TL_REPLACE = 3,   /* the content stands in its place */
    TL_FILL = 4,      /* instead of what is in it */
    TL_PREPEND = 5,   /* first in it */
    TL_APPEND = 6,    /* last in it */
    TL_PUT_BEFORE = 7, /* before it */
    TL_PUT_AFTER = 8  /* after it */
};

/* What the content is. */
enum {
    TL_AS_TEXT = 0,  /* a text, which is escaped where it has to be */
    TL_AS_MARKUP = 1 /* markup, as it is */
};

/* Why elements can't be edited this way, beside the causes above; the place is that of the element in the page, also with
 * TL_READ_OTHERWISE, but with TL_NOT_WHOLE that of what crosses it. */
enum {
    TL_NOT_MEANT = 19,   /* the element isn't closed, is a tag alone, or it is a body or html, after which nothing can stand */
    TL_ACROSS = 20,      /* its change and that of another element cut across each other */
    TL_END_OF_PAGE = 21, /* what is put would stand behind the end of the page; none does */
    TL_NO_CONTENT = 22,  /* the new content or name can't be written there: markup in raw text, or text that would be read as something else */
    TL_MISREAD = 23,     /* a browser may read as markup a text with `&` or `<` in a `style`, `script` and the like, as it stands
                            behind a `svg`, `math`, `frameset`, `template`, `noscript` or `select`: such a text would be put
                            there, or the element would get such a name before such a text */
    TL_NOT_WHOLE = 25    /* an element isn't whole, so its tag alone can be changed (tl_patch_css): what begins at the place stands in
                            the bytes that it has by its end tags, and not in it in the tree that browsers build, or the other way
                            round, as a `p` in an `svg`, or formatting that is opened again */
};

/* The page with each element changed where a selector of CSS holds, and with each other byte as it was. The selector is asked of the tree
 * that browsers build. The end tags of the page say which bytes an element has, and it has to be whole: what comes of these bytes is in it
 * in the tree, and nothing else is. What is read of the answer is the page with just that changed. An element in what another takes away
 * goes with it. `form` is read with a content from TL_REPLACE on; the content of TL_REMOVE and TL_UNWRAP isn't read, and its length may be 0. Where the selector holds
 * nowhere the answer is the page. Where the bytes are no selector, or an element can't be changed, that is refused, and `*place` and
 * `*cause` say why; else both are 0. */
tl_status tl_edit_css(uint8_t edit, uint8_t form, const uint8_t *selector, size_t selector_len,
                      const uint8_t *content, size_t content_len,
                      const uint8_t *page, size_t page_len,
                      uint8_t *out, size_t room, size_t *needed, size_t *place, uint8_t *cause);

/* A patch of the element that is a node, by its number: what tl_edit_css does by these numbers and with this content. */
typedef struct {
    const uint8_t *content;
    size_t content_len;
    uint32_t node;
    uint8_t edit; /* TL_RENAME .. TL_PUT_AFTER */
    uint8_t form; /* TL_AS_TEXT or TL_AS_MARKUP */
} tl_edit;

/* The page of a document with these patches of the elements that are its nodes, in any order, and with each other byte as it was; `page`
 * is that which was read, as with tl_patch_nodes. Several patches of one element are made in their order, where they don't cut across
 * each other. Tags are changed by tl_patch_nodes alone, in a pass of its own. Where an element can't be changed, that is refused, and
 * `*place` and `*cause` say why, as with tl_edit_css; else both are 0. Other numbers of a patch are not understood. */
tl_status tl_edit_nodes(tl_document *document, const uint8_t *page, size_t page_len, const tl_edit *edits, size_t count,
                        uint8_t *out, size_t room, size_t *needed, size_t *place, uint8_t *cause);

/* Of a node. Where there is no such node, all that answer a status are refused. */

/* What a node is. */
enum {
    TL_NONE = 0,    /* there is no such node */
    TL_ELEMENT = 1,
    TL_TEXT = 2,
    TL_COMMENT = 3,
    TL_DOCTYPE = 4,
    TL_CONTENTS = 5 /* the contents of a `template`: the one child of that element, in which stands what is written in it */
};

/* It takes no memory. */
uint8_t tl_node_kind(tl_document *document, uint32_t node);

/* The namespace of an element. */
enum {
    TL_NO_NAMESPACE = 0, /* it is no element, or there is no such node */
    TL_HTML = 1,
    TL_SVG = 2,
    TL_MATHML = 3
};

/* It takes no memory. */
uint8_t tl_node_namespace(tl_document *document, uint32_t node);

/* Where a node stands: the node that it stands in, the first of those that stand in it, and those behind it and before it in what it
 * stands in, or at the top. TL_NO_NODE where there is none, and where there is no such node. They take no memory, and all but
 * tl_node_previous_sibling the same time for each node; that takes a time linear in how deep the node before it is. */
uint32_t tl_node_parent(tl_document *document, uint32_t node);
uint32_t tl_node_first_child(tl_document *document, uint32_t node);
uint32_t tl_node_next_sibling(tl_document *document, uint32_t node);
uint32_t tl_node_previous_sibling(tl_document *document, uint32_t node);

/* The number behind the last node below it: what is below it are the numbers from node + 1 up to this one, without it. TL_NO_NODE where
 * there is no such node. It takes no memory. */
uint32_t tl_node_end(tl_document *document, uint32_t node);

/* The bytes of the page that a node comes from: from `*start` up to `*end`, without it. Of an element that is its start tag, of a comment
 * and of a doctype all of it. Of a text it is what stands between two tags, comments or doctypes, where the text begins. An element that
 * no tag of the page stands for (a `tbody` that browsers put in) and the contents of a `template` come from none: that is refused, and
 * both are 0. It takes no memory. */
tl_status tl_node_source(tl_document *document, uint32_t node, size_t *start, size_t *end);

/* The name of an element: of HTML in lower case. It is refused where the node is none. It takes no memory. */
tl_status tl_node_name(tl_document *document, uint32_t node, uint8_t *out, size_t room, size_t *needed);

/* Its attributes in the order of its tag: of each how many bytes the key and the value have, in 8 bytes with the lowest first; and
 * the key and the value. A key is as it is serialized (`xlink:href` in a `svg`), and each has a value, `hidden` the empty one. A node
 * that is no element has none. `tl_next_pair` reads them. That takes a time linear in what is written. */
tl_status tl_node_attributes(tl_document *document, uint32_t node, uint8_t *out, size_t room, size_t *needed);

/* A key and its value, where they stand in the answer. */
typedef struct {
    const uint8_t *key, *value;
    size_t key_len, value_len;
} tl_pair;

/* Reads the pair at a place of an answer of `tl_node_attributes` and moves the place behind it; false at the end:
 * for (const uint8_t *at = out; tl_next_pair(&at, out + needed, &pair);) .. */
static inline bool tl_next_pair(const uint8_t **at, const uint8_t *end, tl_pair *pair) {
    const uint8_t *head = *at;
    if (head == end) return false;
    pair->key_len = (size_t)tl_number_at(head);
    pair->value_len = (size_t)tl_number_at(head + 8);
    pair->key = head + 16;
    pair->value = pair->key + pair->key_len;
    *at = pair->value + pair->value_len;
    return true;
}

/* The value of a node at a key, which is compared as keys are serialized: `href` of an `a`, `xlink:href` of a `use` in a `svg`. Keys of
 * HTML elements are in lower case. It is refused where the node has no such key. It takes no memory. */
tl_status tl_attribute(tl_document *document, uint32_t node, const uint8_t *key, size_t key_len,
                       uint8_t *out, size_t room, size_t *needed);

/* A node as markup, and what is inside of it, as the HTML standard serializes them (`outerHTML`, `innerHTML`). The inside of a `template`
 * is that of its contents; nothing is inside of a text, a comment or a doctype. */
tl_status tl_node_outer_html(tl_document *document, uint32_t node, uint8_t *out, size_t room, size_t *needed);
tl_status tl_node_inner_html(tl_document *document, uint32_t node, uint8_t *out, size_t room, size_t *needed);

/* What a node says (`textContent`): a text and a comment what they say, any other node what the texts below it say, one after the other,
 * without those in the contents of a `template` below it. A doctype says nothing. */
tl_status tl_node_text(tl_document *document, uint32_t node, uint8_t *out, size_t room, size_t *needed);

/* The text of what is below a node as a browser shows it without style sheets (`innerText`), as `tl text -w`: blocks on lines of their own,
 * one space between words, without scripts and styles. */
tl_status tl_node_readable_text(tl_document *document, uint32_t node, uint8_t *out, size_t room, size_t *needed);

/* A node with what is below it as JSON: an array of one object, as `tl select --json --tree` writes it. */
tl_status tl_node_json(tl_document *document, uint32_t node, uint8_t *out, size_t room, size_t *needed);

/* A `table` element as CSV, as `tl table`: a line for each row, with a value for each column, which is the readable text of the cell that
 * covers the place. A node that is no `table` is refused. A few cells can span very many places: lines with more bytes than `limit` are
 * not understood; `tl table` takes 65536, and 64 for each byte of the page. */
tl_status tl_table_csv(tl_document *document, uint32_t node, size_t limit, uint8_t *out, size_t room, size_t *needed);

/* A call that answers bytes of a node, as tl_node_text. */
typedef tl_status tl_node_bytes(tl_document *document, uint32_t node, uint8_t *out, size_t room, size_t *needed);

/* An allocator of one's own: room for so many bytes, or NULL; `context` is lent to it, as an arena. */
typedef void *tl_allocate(void *context, size_t size);

/* The bytes that such a call answers, in one block of an allocator of one's own, with a byte 0 behind them: into `*text`, and their number
 * into `*len`. Where `*text` isn't NULL the block is the caller's, also where memory ran out while it was filled; then it says nothing. An
 * answer of more than 256 bytes is made twice, first to see how long it is.
 *
 *     static void *of_heap(void *context, size_t size) { return (void)context, malloc(size); }
 *     ..
 *     if (tl_node_copy(tl_node_text, &document, node, of_heap, NULL, &text, &len) == TL_DONE) puts((char *)text);
 *     free(text); */
static inline tl_status tl_node_copy(tl_node_bytes *call, tl_document *document, uint32_t node, tl_allocate *allocate, void *context,
                                     uint8_t **text, size_t *len) {
    uint8_t few[256];
    size_t needed = 0;
    tl_status status = call(document, node, few, sizeof few, &needed);
    *text = NULL;
    *len = 0;
    if (status != TL_DONE && status != TL_NO_ROOM) return status;
    uint8_t *block = (uint8_t *)allocate(context, needed + 1);
    if (block == NULL) return TL_OUT_OF_MEMORY;
    if (status == TL_DONE) {
        for (size_t at = 0; at < needed; at++) block[at] = few[at];
    } else {
        status = call(document, node, block, needed, &needed);
    }
    block[needed] = 0;
    *text = block;
    *len = needed;
    return status;
}

/* The matching elements, to be gone through one by one. */
typedef struct {
    uint32_t *numbers;
    size_t count, at;
} tl_selection;

/* Asks for the elements that match a compiled selector, in the whole document, or below a node where that isn't TL_NO_NODE. Their numbers
 * stand in one block of an allocator of one's own, `numbers`, or NULL where there is none. The block is the caller's, also where memory ran
 * out while it was filled; then there is no element to go through. More than 64 elements are asked for twice, first to see how many.
 *
 *     if (tl_selection_of(&document, TL_NO_NODE, &links, of_heap, NULL, &selection) == TL_DONE)
 *         while (tl_next_selected(&selection, &node)) ..
 *     free(selection.numbers); */
static inline tl_status tl_selection_of(tl_document *document, uint32_t node, tl_compiled *compiled, tl_allocate *allocate,
                                        void *context, tl_selection *selection) {
    uint32_t few[64], *numbers = few;
    size_t room = 64, count = 0;
    const tl_selection none = {NULL, 0, 0};
    *selection = none;
    for (int turn = 0; turn < 2; turn++) {
        tl_status status = node == TL_NO_NODE ? tl_compiled_select(document, compiled, numbers, room, &count)
                                              : tl_compiled_select_below(document, node, compiled, numbers, room, &count);
        if (status != TL_DONE && (status != TL_NO_ROOM || turn == 1)) return status;
        if (turn == 1 || count == 0) break;
        selection->numbers = (uint32_t *)allocate(context, count * sizeof *numbers);
        if (selection->numbers == NULL) return TL_OUT_OF_MEMORY;
        if (status == TL_DONE) {
            for (size_t at = 0; at < count; at++) selection->numbers[at] = few[at];
            break;
        }
        numbers = selection->numbers, room = count;
    }
    selection->count = count;
    return TL_DONE;
}

/* The next of them, in document order; false at the end. */
static inline bool tl_next_selected(tl_selection *selection, uint32_t *node) {
    if (selection->at == selection->count) return false;
    *node = selection->numbers[selection->at++];
    return true;
}

/* The line of a place of the page, from 1, and into `*column` how many bytes stand before it there. */
static inline size_t tl_line_at(const uint8_t *page, size_t place, size_t *column) {
    size_t line = 1;
    *column = 0;
    for (size_t at = 0; at < place; at++) {
        *column += 1;
        if (page[at] == '\n') {
            line += 1;
            *column = 0;
        }
    }
    return line;
}

/* A name of UTF-8 as it stands in a selector, so that each of its characters is one of the name (`CSS.escape`). `*needed` is the number of
 * its bytes; where that is more than `room` nothing is written, which is TL_NO_ROOM. */
static inline tl_status tl_css_escape(const uint8_t *name, size_t name_len, uint8_t *out, size_t room, size_t *needed) {
    for (int is_written = 0; is_written < 2; is_written++) {
        size_t len = 0;
        for (size_t at = 0; at < name_len; at++) {
            const uint8_t byte = name[at], digits[] = "0123456789abcdef";
            const bool is_digit = byte >= '0' && byte <= '9', is_letter = (byte | 32) >= 'a' && (byte | 32) <= 'z';
            const bool is_first = at == 0 || (at == 1 && name[0] == '-');
            uint8_t part[4] = {byte, 0, 0, 0};
            size_t part_len = 1;
            if (byte == 0) {
                part[0] = 0xef, part[1] = 0xbf, part[2] = 0xbd, part_len = 3;
            } else if (byte < 32 || byte == 127 || (is_digit && is_first)) {
                part[0] = '\\', part_len = 1;
                if (byte >= 16) part[part_len++] = digits[byte >> 4];
                part[part_len++] = digits[byte & 15];
                part[part_len++] = ' ';
            } else if ((byte == '-' && name_len == 1) || (byte < 128 && !is_digit && !is_letter && byte != '-' && byte != '_')) {
                part[0] = '\\', part[1] = byte, part_len = 2;
            }
            for (size_t of = 0; of < part_len; of++, len++)
                if (is_written) out[len] = part[of];
        }
        *needed = len;
        if (len > room) return TL_NO_ROOM;
    }
    return TL_DONE;
}

#ifdef __cplusplus
}
#endif

#endif
