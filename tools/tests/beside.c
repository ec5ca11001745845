/* Runs one script of dictionaries through kb_run and through Graphviz's libcdt, and compares the replies, byte for byte:
 *   beside METHOD LINES KEYS SEED [FAIL]
 * The script has so many lines on random ones of so many keys: in a set or bag, in order or not, of six lines two insert, one
 * deletes, and three look, or go on from an object where there is an order; in a stack or queue of three lines two insert and
 * one takes the first object out. At the end all objects are walked, but those of a set or bag in no order. With FAIL each
 * allocation of kb_run fails in turn, up to the first that isn't made: the status has to be that of want of memory, with a
 * front of the replies, and all memory has to be freed. Told are the bytes of the replies, and the allocations.
 * It is linked with -Wl,--wrap=malloc,--wrap=realloc,--wrap=free. */
#include <cdt.h>
#include <kolbista.h>
#include <stdio.h>
#include <stdlib.h>
#include <string.h>
#include "counted.h"

/* A text that grows. */
typedef struct {
    char *bytes;
    size_t size, room;
} Text;

static void put(Text *text, const char *bytes, size_t size) {
    if (text->size + size > text->room) {
        text->room = 2 * (text->room + size);
        text->bytes = realloc(text->bytes, text->room);
        if (!text->bytes) exit(99);
    }
    memcpy(text->bytes + text->size, bytes, size);
    text->size += size;
}

static void put_text(Text *text, const char *bytes) {
    put(text, bytes, strlen(bytes));
}

static void put_number(Text *text, unsigned long number) {
    char digits[24];
    put(text, digits, (size_t)sprintf(digits, "%lu", number));
}

static void put_line(Text *text, const char *word, const char *object) {
    put_text(text, word);
    put_text(text, object);
    put(text, "\n", 1);
}

static Dtmethod_t *method_of(const char *name) {
    if (!strcmp(name, "set")) return Dtset;
    if (!strcmp(name, "bag")) return Dtbag;
    if (!strcmp(name, "oset")) return Dtoset;
    if (!strcmp(name, "obag")) return Dtobag;
    if (!strcmp(name, "stack")) return Dtstack;
    if (!strcmp(name, "queue")) return Dtqueue;
    exit(99);
}

static unsigned long state;

static unsigned long below(unsigned long n) {
    state = state * 6364136223846793005UL + 1442695040888963407UL;
    return (state >> 33) % n;
}

static Text script_of(const char *method, long lines, unsigned long keys) {
    static const char *const looks[] = {"search d ", "next d ", "prev d "};
    int is_ordered = method[0] == 'o', is_keyed = is_ordered || strstr(method, "set") || strstr(method, "bag");
    Text text = {0};
    char key[32];
    put_text(&text, "open r best 1\ndict d ");
    put_text(&text, method);
    put_text(&text, " r 1\n");
    for (long i = 0; i < lines; i++) {
        unsigned long kind = below(6);
        sprintf(key, "k%lu", below(keys));
        if (kind < 2 || (!is_keyed && kind < 4)) put_line(&text, "insert d ", key);
        else if (!is_keyed) put_line(&text, "delete d", "");
        else if (kind == 2) put_line(&text, "delete d ", key);
        else put_line(&text, looks[is_ordered ? kind - 3 : 0], key);
        if (i % 1000 == 999) put_line(&text, "count d", "");
    }
    if (is_ordered || !is_keyed) put_text(&text, "walk d\nfirst d\nlast d\n");
    put_text(&text, "shut d\nclose r\n");
    return text;
}

/* An object of libcdt's. */
typedef struct {
    Dtlink_t link;
    char key[32];
} Object;

static int is_made;

static void *make(Dt_t *dict, void *like, Dtdisc_t *disc) {
    Object *object = malloc(sizeof *object);
    (void)dict, (void)disc;
    if (!object) exit(99);
    strcpy(object->key, ((Object *)like)->key);
    is_made = 1;
    return object;
}

static void end(Dt_t *dict, void *object, Dtdisc_t *disc) {
    (void)dict, (void)disc;
    free(object);
}

static Dtdisc_t disc = {offsetof(Object, key), 0, offsetof(Object, link), make, end, NULL, NULL, NULL, NULL};

static void put_found(Text *text, const char *word, Object *object) {
    if (object) put_line(text, word, object->key);
    else put_text(text, "none\n");
}

/* The object behind the last one that matches, or before the first. */
static Object *beside(Dt_t *dict, char *key, int is_next) {
    Object *object = dtmatch(dict, key);
    while (object && !strcmp(object->key, key)) object = is_next ? dtnext(dict, object) : dtprev(dict, object);
    return object;
}

static void put_walk(Text *text, Dt_t *dict) {
    put_number(text, (unsigned long)dtsize(dict));
    for (Object *object = dtfirst(dict); object; object = dtnext(dict, object)) {
        put(text, " ", 1);
        put_text(text, object->key);
    }
    put(text, "\n", 1);
}

static void put_deleted(Text *text, Dt_t *dict, char *key) {
    Object *object = *key ? dtmatch(dict, key) : dtfirst(dict);
    put_found(text, "gone ", object);
    if (object) dtdelete(dict, object);
}

static void run_line(Text *text, Dt_t *dict, const char *word, char *key) {
    Object like, *object;
    switch (word[0]) {
    case 'i':
        strcpy(like.key, key);
        is_made = 0;
        object = dtinsert(dict, &like);
        put_line(text, is_made ? "new " : "old ", object->key);
        break;
    case 'd': put_deleted(text, dict, key); break;
    case 's': put_found(text, "found ", dtmatch(dict, key)); break;
    case 'n': put_found(text, "found ", beside(dict, key, 1)); break;
    case 'p': put_found(text, "found ", beside(dict, key, 0)); break;
    case 'f': put_found(text, "found ", dtfirst(dict)); break;
    case 'l': put_found(text, "found ", dtlast(dict)); break;
    case 'c': put_number(text, (unsigned long)dtsize(dict)), put(text, "\n", 1); break;
    default: put_walk(text, dict);
    }
}

/* Runs a script by libcdt. The lines that open and close are told by their first bytes. */
__attribute__((noinline)) static void by_libcdt(const char *method, const Text *script, Text *text) {
    Dt_t *dict = dtopen(&disc, method_of(method));
    const char *all = script->bytes + script->size;
    if (!dict) exit(99);
    put_text(text, "r open\nd open\n");
    for (const char *line = script->bytes, *end; line < all; line = end + 1) {
        char key[32] = "";
        const char *behind = memchr(line, ' ', 16);
        end = memchr(line, '\n', (size_t)(all - line));
        if (end - behind > 3) memcpy(key, behind + 3, (size_t)(end - behind - 3));
        if (memcmp(line, "op", 2) && memcmp(line, "di", 2) && memcmp(line, "sh", 2) && memcmp(line, "cl", 2))
            run_line(text, dict, line, key);
    }
    put_text(text, "d shut\n");
    dtclose(dict);
}

/* Runs it by kb_run into a text that has room. */
static uint32_t by_kolbista(const Text *script, Text *text) {
    uint8_t err[128];
    size_t err_used;
    begin_counting();
    uint32_t status = kb_run(KB_DTRUN, 0, (const uint8_t *)script->bytes, script->size, (uint8_t *)text->bytes, text->room,
                             &text->size, err, sizeof err, &err_used);
    end_counting();
    return status;
}

static int is_front(const Text *front, const Text *text) {
    return front->size <= text->size && !memcmp(front->bytes, text->bytes, front->size);
}

/* Each allocation fails in turn, up to the first that isn't made. */
static void fail_each(const Text *script, const Text *wanted, Text *text) {
    for (long n = 1;; n++) {
        fail_at = n;
        uint32_t status = by_kolbista(script, text);
        if (made < n && status == KB_OK) return;
        if (status != KB_MEMORY || !is_front(text, wanted)) {
            printf("allocation %ld: status %u\n", n, status);
            exit(1);
        }
    }
}

int main(int argc, char **argv) {
    if (argc < 5) return 99;
    state = strtoul(argv[4], NULL, 10);
    Text script = script_of(argv[1], strtol(argv[2], NULL, 10), strtoul(argv[3], NULL, 10)), theirs = {0}, ours = {0};
    put(&script, "", 1), script.size--;
    by_libcdt(argv[1], &script, &theirs);
    ours.room = theirs.size + 64;
    ours.bytes = malloc(ours.room);
    if (!ours.bytes) return 99;
    uint32_t status = by_kolbista(&script, &ours);
    long all = made;
    static const char closed[] = "r closed ";
    if (status != KB_OK || !is_front(&theirs, &ours) || memcmp(ours.bytes + theirs.size, closed, sizeof closed - 1)) {
        printf("the replies differ: status %u\n", status);
        return 1;
    }
    Text wanted = {0};
    put(&wanted, ours.bytes, ours.size);
    if (argc > 5) fail_each(&script, &wanted, &ours);
    printf("%zu bytes of replies, %ld allocations\n", wanted.size, all);
    free(script.bytes), free(theirs.bytes), free(ours.bytes), free(wanted.bytes);
    return 0;
}
