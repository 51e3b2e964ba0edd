/* The heap of a checked build: it refuses the request for memory whose number the environment names, as RATTLE_REFUSED=3 the third of
   a run. It is linked between the program and the kit's heap (`--wrap`), and includes nothing, since the kit has no headers. */

struct place {
    unsigned long is_there, at;
};

struct place __real_rattle_alloc(unsigned long size, unsigned long align);
struct place __real_rattle_realloc(void *at, unsigned long kept, unsigned long size, unsigned long align);
char *getenv(const char *name);
unsigned long strtoul(const char *text, char **end, int base);

/* What the kit's heap answers where it has no memory. */
static const struct place NOWHERE = {0, 4096};

static int is_refused(void) {
    static unsigned long requests, refused;
    if (requests == 0) {
        const char *number = getenv("RATTLE_REFUSED");
        refused = number ? strtoul(number, 0, 10) : 0;
    }
    return ++requests == refused;
}

struct place __wrap_rattle_alloc(unsigned long size, unsigned long align) {
    return is_refused() ? NOWHERE : __real_rattle_alloc(size, align);
}

struct place __wrap_rattle_realloc(void *at, unsigned long kept, unsigned long size, unsigned long align) {
    return is_refused() ? NOWHERE : __real_rattle_realloc(at, kept, size, align);
}
