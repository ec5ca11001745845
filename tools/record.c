/* Writes the allocations of a program as a script for vmreplay, or as a trace for vmcompare. The program is run with this
   library preloaded, which the script record beside it does.

   Each call is passed on to the allocator behind this library, and then said in one line. A line is written with the lock
   held, and a block's end is written before the block goes, so the order of the lines is right across threads. The process
   that opened the script is the only one that writes to it: a child made by fork writes nothing.

   The script is written through a mapping of its file, which holds newlines where nothing is written yet, and a line becomes
   one by its first byte. So the script is whole at every moment, however the program ends; where it ends without its
   destructors, blank lines follow, which record cuts off. Behind each line there is room for a last one, which says that the
   recording stops where the file gets no more room.

   VMREPLAY_RECORD is the path of the script, VMREPLAY_RECORD_PID the process that writes it, VMREPLAY_RECORD_OPEN the words
   of its command open, in which the method is "trace" where there is no such command, VMREPLAY_RECORD_REGIONS the number of
   regions, VMREPLAY_RECORD_SITES is "no" where the sites of calls are left out, VMREPLAY_RECORD_VERSION is "2" where the script
   is of version 2, and VMREPLAY_RECORD_THROUGH has the functions that are looked through, each with a newline. A program that
   another process starts with this library writes a script of its own, whose path has a dot and the process's number behind
   it. */
#define _GNU_SOURCE
#include <dlfcn.h>
#include <elf.h>
#include <errno.h>
#include <fcntl.h>
#include <link.h>
#include <pthread.h>
#include <stdint.h>
#include <stdlib.h>
#include <string.h>
#include <sys/mman.h>
#include <sys/resource.h>
#include <sys/stat.h>
#include <ucontext.h>
#include <unistd.h>
#include <unwind.h>

/* What a script and a region can have. */
enum { MOST_LABELS = 1000000, LARGEST_SIZE = 16777216, LEAST_ALIGN = 32, LARGEST_ALIGN = 4096, LONGEST_NAME = 32 };

/* The room for the last line. */
enum { LAST = 128 };

/* The allocator behind this library. */

static void *(*next_malloc)(size_t);
static void *(*next_calloc)(size_t, size_t);
static void *(*next_realloc)(void *, size_t);
static void (*next_free)(void *);
static void *(*next_aligned_alloc)(size_t, size_t);
static int (*next_posix_memalign)(void **, size_t, size_t);
static void *(*next_memalign)(size_t, size_t);

/* Finding it allocates. What is asked for meanwhile comes from here, is never given back, and is in no script. */
static _Alignas(4096) char early[65536];
static size_t early_used;

static int is_early(const void *p)
{
    return (uintptr_t)p - (uintptr_t)early < sizeof early;
}

static void *early_alloc(size_t align, size_t size)
{
    size_t used = __atomic_load_n(&early_used, __ATOMIC_RELAXED), at;
    if (align < 16) align = 16;
    do {
        if (align > 4096 || size > sizeof early) goto none;
        at = (used + sizeof size + align - 1) / align * align;
        if (at + size > sizeof early) goto none;
    } while (!__atomic_compare_exchange_n(&early_used, &used, at + size, 0, __ATOMIC_RELAXED, __ATOMIC_RELAXED));
    memcpy(early + at - sizeof size, &size, sizeof size);
    return early + at;
none:
    errno = ENOMEM;
    return NULL;
}

static size_t early_size(const void *p)
{
    size_t size;
    memcpy(&size, (const char *)p - sizeof size, sizeof size);
    return size;
}

/* Whether the allocator is found; the first call finds it. */
static int is_found(void)
{
    static int state;
    int fresh = 0;
    if (__atomic_load_n(&state, __ATOMIC_ACQUIRE) == 2) return 1;
    if (!__atomic_compare_exchange_n(&state, &fresh, 1, 0, __ATOMIC_ACQUIRE, __ATOMIC_ACQUIRE)) return fresh == 2;
    *(void **)&next_malloc = dlsym(RTLD_NEXT, "malloc");
    *(void **)&next_calloc = dlsym(RTLD_NEXT, "calloc");
    *(void **)&next_realloc = dlsym(RTLD_NEXT, "realloc");
    *(void **)&next_free = dlsym(RTLD_NEXT, "free");
    *(void **)&next_aligned_alloc = dlsym(RTLD_NEXT, "aligned_alloc");
    *(void **)&next_posix_memalign = dlsym(RTLD_NEXT, "posix_memalign");
    *(void **)&next_memalign = dlsym(RTLD_NEXT, "memalign");
    __atomic_store_n(&state, 2, __ATOMIC_RELEASE);
    return 1;
}

/* The script. */

static pthread_mutex_t lock = PTHREAD_ADAPTIVE_MUTEX_INITIALIZER_NP;
static __thread int inside __attribute__((tls_model("initial-exec")));
static int stopped;
static pid_t owner;
static char path[4096];
static int file = -1;
static struct stat file_is;

/* Of the file: where the next line goes, where the bytes that it has end, and where those that are mapped begin and end. */
static size_t written, filled, mapped_from, mapped_to;
static char *mapped;
static int is_ending;

static void *pages(size_t size)
{
    void *p = mmap(NULL, size, PROT_READ | PROT_WRITE, MAP_PRIVATE | MAP_ANONYMOUS, -1, 0);
    return p == MAP_FAILED ? NULL : p;
}

/* A byte that is 1 in the process that writes, and 0 in a child that fork made of it; null where the system has no such pages. */
static volatile char *mine;

static int is_writer(void)
{
    return mine ? *mine : owner == getpid();
}

static void mark_writer(void)
{
#ifdef MADV_WIPEONFORK
    char *page = pages(4096);
    if (page && madvise(page, 4096, MADV_WIPEONFORK) == 0) {
        *page = 1;
        mine = page;
    }
#endif
    owner = getpid();
}

static void stop(void)
{
    __atomic_store_n(&stopped, 1, __ATOMIC_RELAXED);
}

/* Opens the script under a high number, where the program will hardly look for its own files. */
static int open_file(int flags)
{
    static const int high[] = { 900, 200, 50 };
    int low = open(path, flags | O_CLOEXEC | O_NOCTTY | O_NONBLOCK, 0666);
    size_t i;
    if (low < 0) return -1;
    for (i = 0; i < sizeof high / sizeof *high; i++) {
        int moved = fcntl(low, F_DUPFD_CLOEXEC, high[i]);
        if (moved >= 0) {
            close(low);
            return moved;
        }
    }
    return low;
}

/* Whether the script is open; where the program has closed it, it is opened again. */
static int is_open(void)
{
    struct stat now;
    int again;
    for (again = 0; again < 2; again++) {
        if (file >= 0 && fstat(file, &now) == 0 && now.st_dev == file_is.st_dev && now.st_ino == file_is.st_ino) return 1;
        if (again && file >= 0) close(file);
        file = again ? -1 : open_file(O_RDWR);
    }
    return 0;
}

/* The process's limit for files, past which a write would end the program. */
static size_t limit_of_files(void)
{
    struct rlimit most;
    if (getrlimit(RLIMIT_FSIZE, &most) != 0 || most.rlim_cur == RLIM_INFINITY || most.rlim_cur > SIZE_MAX / 2) return SIZE_MAX / 2;
    return most.rlim_cur;
}

static void unmap(void)
{
    if (mapped) munmap(mapped, mapped_to - mapped_from);
    mapped = NULL;
    mapped_to = 0;
}

/* Cuts off what nothing was written to. */
static void cut(void)
{
    unmap();
    if (is_open() && filled > written && ftruncate(file, written) == 0) filled = written;
}

/* Fills the file with newlines up to there, or as far as it goes. */
static void fill(size_t to)
{
    static char newlines[16384];
    if (!*newlines) memset(newlines, '\n', sizeof newlines);
    while (filled < to) {
        size_t most = to - filled < sizeof newlines ? to - filled : sizeof newlines;
        ssize_t n = pwrite(file, newlines, most, filled);
        if (n <= 0) return;
        filled += n;
    }
}

/* Maps the file from the next line on, and answers whether n more bytes have room there, and a last line behind them. What
   was mapped stays where they have none. */
static int map_on(size_t n)
{
    enum { ROOM = 1 << 18 };
    size_t page = sysconf(_SC_PAGESIZE), from = written / page * page, limit = limit_of_files();
    char *fresh;
    if (!is_open()) return 0;
    fill(from + ROOM < limit ? from + ROOM : limit);
    if (written + n + LAST > filled) return 0;
    fresh = mmap(NULL, filled - from, PROT_READ | PROT_WRITE, MAP_SHARED, file, from);
    if (fresh == MAP_FAILED) return 0;
    unmap();
    mapped = fresh;
    mapped_from = from;
    mapped_to = filled;
    return 1;
}

/* Writes a line to the end of the file, and answers whether it and a last one behind it have room. */
static int write_on(const char *line, size_t n)
{
    ssize_t put;
    if (!is_open() || written + n + LAST > limit_of_files()) return 0;
    if (fallocate(file, FALLOC_FL_KEEP_SIZE, written, n + LAST) != 0 && (errno == ENOSPC || errno == EDQUOT)) return 0;
    put = pwrite(file, line, n, written);
    if (put > 0) filled = written + put;
    if (put != (ssize_t)n) return 0;
    written = filled;
    return 1;
}

/* Eight bytes that are written at once, at any address. */
typedef uint64_t eight __attribute__((aligned(1), may_alias));

/* Writes a line to where the file is mapped, its bytes from the first to the last, so that what is there is a comment at each
   moment before the first byte is its own. */
static void store(const char *line, size_t n)
{
    volatile char *to = mapped + (written - mapped_from);
    size_t i = 1;
    to[0] = '#';
    for (; i + sizeof(eight) <= n; i += sizeof(eight)) *(volatile eight *)(to + i) = *(const eight *)(line + i);
    for (; i < n; i++) to[i] = line[i];
    to[0] = line[0];
    written += n;
}

/* Ends the script before the program's end with a line that says why. */
static void stop_early(const char *why)
{
    static const char front[] = "# the recording stops here: ";
    char line[LAST];
    size_t n = sizeof front - 1;
    ssize_t put;
    if (stopped) return;
    stop();
    memcpy(line, front, n);
    while (*why) line[n++] = *why++;
    line[n++] = '\n';
    if (mapped && written + n <= mapped_to) {
        store(line, n);
    } else if (is_open() && written + n <= limit_of_files()) {
        put = pwrite(file, line, n, written);
        if (put > 0) filled = written + put > filled ? written + put : filled;
        if (put == (ssize_t)n) written += n;
    }
    cut();
}

/* Writes one line, or none of it. */
static void put(const char *line, size_t n)
{
    int before, has_room;
    if (stopped) return;
    if (written + n + LAST > mapped_to || is_ending) {
        pthread_setcancelstate(PTHREAD_CANCEL_DISABLE, &before);
        has_room = is_ending ? write_on(line, n) : map_on(n);
        if (!has_room) stop_early("its file has no room for more");
        pthread_setcancelstate(before, NULL);
        if (!has_room || is_ending) return;
    }
    store(line, n);
}

struct line {
    char bytes[256];
    size_t used;
};

static void word(struct line *line, const char *text)
{
    while (*text && line->used < sizeof line->bytes - 1) line->bytes[line->used++] = *text++;
}

static void number(struct line *line, uintmax_t n)
{
    char digits[24];
    size_t at = sizeof digits;
    digits[--at] = 0;
    do digits[--at] = '0' + n % 10; while (n /= 10);
    word(line, digits + at);
}

static void end_line(struct line *line)
{
    line->bytes[line->used++] = '\n';
    put(line->bytes, line->used);
}

/* The regions that the blocks are spread over, and whether they are of a method with align. A block's label is its region's
   number in this list, counted from 0, times 2 to the 20th and its own number. Of each region, the labels that were freed,
   which are used again, the last freed first; how many were made; and what its blocks take of it, each at most the least
   segment. */
enum { MOST_REGIONS = 12, LABEL_BITS = 20 };

struct region {
    char name[LONGEST_NAME + 1];
    uint32_t *freed_labels, freed, made;
    size_t taken;
    int is_told;
};

static struct region regions[MOST_REGIONS];
static size_t region_count;
static int has_align;

/* Whether it is a trace, whose region is never opened. */
static int is_trace;

/* The least segment that the disciplines lend. */
static size_t least_segment;

static struct region *region_of(uint32_t label)
{
    return &regions[label >> LABEL_BITS];
}

/* 'COMMAND REGION bLABEL', to which more words may be added. */
static void begin_command(struct line *line, const char *command, uint32_t label)
{
    line->used = 0;
    word(line, command);
    word(line, " ");
    word(line, region_of(label)->name);
    word(line, " b");
    number(line, label & ((1 << LABEL_BITS) - 1));
}

static void comment(const char *call, size_t align, size_t size, const char *why)
{
    struct line line = { .used = 0 };
    word(&line, "# ");
    word(&line, call);
    word(&line, " of ");
    number(&line, size);
    word(&line, " bytes");
    if (align) {
        word(&line, " at a multiple of ");
        number(&line, align);
    }
    word(&line, why);
    end_line(&line);
}

/* What is said of a block that isn't in the script. */
static const char no_block[] = ": a script has no such block";

/* What a block takes of its region, but no more than the least segment. */
static size_t span_of(size_t size)
{
    size_t span = (size + 16 + 31) / 32 * 32;
    return span < least_segment ? span : least_segment;
}

/* A label for a new block, of the region whose blocks take least: 0 where each has as many as it can have. */
static uint32_t take_label(void)
{
    struct region *least = NULL;
    size_t i;
    for (i = 0; i < region_count; i++)
        if ((regions[i].freed || regions[i].made < MOST_LABELS) && (!least || regions[i].taken < least->taken)) least = &regions[i];
    if (!least) return 0;
    return (uint32_t)(least - regions) << LABEL_BITS | (least->freed ? least->freed_labels[--least->freed] : ++least->made);
}

static void give_label(uint32_t label)
{
    struct region *region = region_of(label);
    region->freed_labels[region->freed++] = label & ((1 << LABEL_BITS) - 1);
}

/* Tells that the region's blocks take as much as 256 of the least segments, of which a region has at most 1,023: from there on
   the blocks and the gaps between them may meet that limit. */
static void tell_much(struct region *region)
{
    struct line line = { .used = 0 };
    region->is_told = 1;
    word(&line, "# here the blocks of ");
    word(&line, region->name);
    word(&line, " take a quarter of the segments that a region can have");
    end_line(&line);
}

/* Counts a block of this size in place of one of the size before, each 0 where there is none. */
static void count_block(uint32_t label, size_t before, size_t size)
{
    struct region *region = region_of(label);
    if (before) region->taken -= span_of(before);
    if (size) region->taken += span_of(size);
    if (!is_trace && !region->is_told && region->taken >= 256 * least_segment) tell_much(region);
}

/* The live blocks: a table by address with open addressing, at most half full. Label 0 is a block that isn't in the script. */

struct block {
    uintptr_t at;
    uint32_t label;
    size_t size;
};

static struct block *blocks;
static size_t places, lives;

static size_t home(uintptr_t at)
{
    return (size_t)(at / 16 * UINT64_C(0x9e3779b97f4a7c15) >> 20) & (places - 1);
}

/* The block at this address, or the free place where it would stand. */
static struct block *look_up(uintptr_t at)
{
    size_t i = home(at);
    while (blocks[i].at && blocks[i].at != at) i = (i + 1) & (places - 1);
    return &blocks[i];
}

static int double_table(void)
{
    struct block *before = blocks;
    size_t count = places, i;
    struct block *after = pages((count ? 2 * count : 4096) * sizeof *after);
    if (!after) return 0;
    blocks = after;
    places = count ? 2 * count : 4096;
    for (i = 0; i < count; i++)
        if (before[i].at) *look_up(before[i].at) = before[i];
    if (before) munmap(before, count * sizeof *before);
    return 1;
}

static void remember(void *p, uint32_t label, size_t size)
{
    struct block *block;
    if (2 * (lives + 1) > places && !double_table()) {
        stop_early("there is no memory for more blocks");
        return;
    }
    block = look_up((uintptr_t)p);
    block->at = (uintptr_t)p;
    block->label = label;
    block->size = size;
    lives++;
}

/* Takes a block out, and moves up those behind it that would no longer be found. */
static void forget(struct block *block)
{
    size_t hole = block - blocks, i = hole;
    lives--;
    for (;;) {
        i = (i + 1) & (places - 1);
        if (!blocks[i].at) break;
        if (((i - home(blocks[i].at)) & (places - 1)) >= ((i - hole) & (places - 1))) {
            blocks[hole] = blocks[i];
            hole = i;
        }
    }
    blocks[hole].at = 0;
}

/* The sites: the names of the functions that call, by the addresses that their calls return to. */

static int has_sites;

/* A function of a file, with its place among the symbols there. */
struct function {
    uintptr_t from, size;
    const char *name;
    size_t order;
};

/* What of a file is mapped, and the file itself with its functions by their places, which are read when the first is looked for.
   The mapping is known by its line in the list of mappings. */
struct module {
    uintptr_t from, to;
    size_t offset;
    uint64_t line;
    char name[64];
    const char *bytes;
    size_t size, mapped;
    struct function *functions;
    size_t function_count;
    int is_read, is_seen;
};

static struct module modules[512];
static size_t module_count;

/* FNV-1a. */
static uint64_t hash_of(const char *text)
{
    uint64_t hash = UINT64_C(0xcbf29ce484222325);
    while (*text) hash = (hash ^ (unsigned char)*text++) * UINT64_C(0x100000001b3);
    return hash;
}

static int is_in(const struct module *module, size_t at, size_t n)
{
    return at <= module->size && n <= module->size - at;
}

/* Reads a file as one piece, where it has one. */
static void map_module(struct module *module, const char *file_path)
{
    struct stat is;
    int fd = open(file_path, O_RDONLY | O_CLOEXEC | O_NONBLOCK);
    void *p = MAP_FAILED;
    if (fd < 0) return;
    if (fstat(fd, &is) == 0 && S_ISREG(is.st_mode) && is.st_size > 0)
        p = mmap(NULL, is.st_size, PROT_READ, MAP_PRIVATE, fd, 0);
    close(fd);
    if (p == MAP_FAILED) return;
    module->bytes = p;
    module->size = module->mapped = is.st_size;
    if (!is_in(module, 0, sizeof(ElfW(Ehdr))) || memcmp(p, ELFMAG, SELFMAG) != 0) module->size = 0;
}

static uintptr_t hexadecimal(const char **at)
{
    uintptr_t n = 0;
    for (;; ++*at) {
        char c = **at;
        if (c >= '0' && c <= '9') n = 16 * n + (c - '0');
        else if (c >= 'a' && c <= 'f') n = 16 * n + (c - 'a' + 10);
        else return n;
    }
}

/* Takes one line of the list of mappings: FROM-TO FLAGS OFFSET DEVICE INODE PATH. Answers whether the address is there. */
static int read_mapping(struct module *module, const char *line, uintptr_t address)
{
    const char *at = line, *slash;
    size_t i;
    memset(module, 0, sizeof *module);
    module->from = hexadecimal(&at);
    at++;
    module->to = hexadecimal(&at);
    if (address < module->from || address >= module->to) return 0;
    at += 6;
    module->offset = hexadecimal(&at);
    module->line = hash_of(line);
    for (i = 0; i < 2; i++) {
        at += strspn(at, " ");
        at += strcspn(at, " ");
    }
    at += strspn(at, " ");
    slash = strrchr(at, '/');
    slash = slash ? slash + 1 : at;
    for (i = 0; slash[i] && i < sizeof module->name - 1; i++) module->name[i] = slash[i];
    if (*at == '/') map_module(module, at);
    return 1;
}

/* Hands each line of the list of mappings on, until one is taken. Answers whether one was, and -1 where there is no list. */
static int each_mapping(int (*take)(const char *line, uintptr_t address), uintptr_t address)
{
    static char text[8192];
    size_t n = 0;
    ssize_t got;
    int fd = open("/proc/self/maps", O_RDONLY | O_CLOEXEC), taken = 0;
    if (fd < 0) return -1;
    while (!taken && (got = read(fd, text + n, sizeof text - 1 - n)) > 0) {
        char *line = text, *end;
        n += got;
        text[n] = 0;
        while (!taken && (end = strchr(line, '\n'))) {
            *end = 0;
            taken = take(line, address);
            line = end + 1;
        }
        n -= line - text;
        memmove(text, line, n);
        if (n == sizeof text - 1) n = 0;
    }
    close(fd);
    return taken;
}

static int take_mapping(const char *line, uintptr_t address)
{
    return read_mapping(&modules[module_count], line, address);
}

/* The module in which the address lies. */
static struct module *module_of(uintptr_t address)
{
    size_t i;
    for (i = 0; i < module_count; i++)
        if (address >= modules[i].from && address < modules[i].to) return &modules[i];
    if (module_count == sizeof modules / sizeof *modules) return NULL;
    return each_mapping(take_mapping, address) == 1 ? &modules[module_count++] : NULL;
}

/* The address by which the file's symbols go, or 0. */
static uintptr_t place_in(const struct module *module, uintptr_t address)
{
    const ElfW(Ehdr) *head = (const void *)module->bytes;
    size_t at = address - module->from + module->offset, i;
    if (!is_in(module, 0, sizeof *head)) return 0;
    for (i = 0; i < head->e_phnum; i++) {
        const ElfW(Phdr) *part = (const void *)(module->bytes + head->e_phoff + i * sizeof *part);
        if (!is_in(module, head->e_phoff + i * sizeof *part, sizeof *part)) return 0;
        if (part->p_type == PT_LOAD && at >= part->p_offset && at - part->p_offset < part->p_filesz)
            return at - part->p_offset + part->p_vaddr;
    }
    return 0;
}

/* The functions that are looked through, by their names, and whether a call of each came yet. */
struct wrapper {
    const char *name;
    int came;
};

static struct wrapper wrappers[64];
static size_t wrapper_count;

/* What a function is to its callers: one that is their site, an operator new, or the wrapper of that number and 2. */
enum { IS_SITE, IS_OPERATOR, IS_WRAPPER };

/* Whether the name is that of the wrapper, or begins with it where a compiler has split the function, as in 'wrap.part.0', or
   made it of a template, as in 'wrap<int>'. */
static int is_named(const char *name, const char *wrapper)
{
    size_t n = strlen(wrapper);
    return strncmp(name, wrapper, n) == 0 && (!name[n] || name[n] == '.' || name[n] == '<');
}

static int role_of(const char *name)
{
    size_t i;
    if (strncmp(name, "_Znw", 4) == 0 || strncmp(name, "_Zna", 4) == 0) return IS_OPERATOR;
    for (i = 0; i < wrapper_count; i++)
        if (is_named(name, wrappers[i].name)) return IS_WRAPPER + i;
    return IS_SITE;
}

/* Hands the functions of a file on, from a table for linking, which holds more than the other, and then from that. Answers how
   many there are. */
static size_t each_function(const struct module *module, struct function *to)
{
    static const uint32_t kinds[] = { SHT_SYMTAB, SHT_DYNSYM };
    const ElfW(Ehdr) *head = (const void *)module->bytes;
    size_t count = 0, kind, i, k;
    if (!is_in(module, 0, sizeof *head) || head->e_shentsize != sizeof(ElfW(Shdr))) return 0;
    if (!is_in(module, head->e_shoff, head->e_shnum * sizeof(ElfW(Shdr)))) return 0;
    for (kind = 0; kind < 2; kind++) {
        const ElfW(Shdr) *parts = (const void *)(module->bytes + head->e_shoff);
        for (i = 0; i < head->e_shnum; i++) {
            const ElfW(Sym) *symbols = (const void *)(module->bytes + parts[i].sh_offset);
            const ElfW(Shdr) *names;
            if (parts[i].sh_type != kinds[kind] || parts[i].sh_link >= head->e_shnum) continue;
            names = &parts[parts[i].sh_link];
            if (!is_in(module, parts[i].sh_offset, parts[i].sh_size) || !is_in(module, names->sh_offset, names->sh_size)) continue;
            for (k = 0; k < parts[i].sh_size / sizeof *symbols; k++) {
                const ElfW(Sym) *symbol = &symbols[k];
                int type = ELF64_ST_TYPE(symbol->st_info);
                if ((type != STT_FUNC && type != STT_GNU_IFUNC) || symbol->st_shndx == SHN_UNDEF || !symbol->st_size) continue;
                if (symbol->st_name >= names->sh_size) continue;
                if (to) {
                    const char *name = module->bytes + names->sh_offset + symbol->st_name;
                    if (!memchr(name, 0, names->sh_size - symbol->st_name)) name = "";
                    to[count] = (struct function){ symbol->st_value, symbol->st_size, name, count };
                }
                count++;
            }
        }
    }
    return count;
}

static int compare_functions(const void *a, const void *b)
{
    const struct function *left = a, *right = b;
    if (left->from != right->from) return left->from < right->from ? -1 : 1;
    return left->order < right->order ? -1 : left->order > right->order;
}

static void read_functions(struct module *module)
{
    size_t count = each_function(module, NULL);
    module->is_read = 1;
    if (count) module->functions = pages(count * sizeof *module->functions);
    if (!module->functions) return;
    module->function_count = each_function(module, module->functions);
    qsort(module->functions, count, sizeof *module->functions, compare_functions);
}

/* The name of the function at this place, the first of those that it has, and its role, which any of them may tell. */
static const char *function_at(struct module *module, uintptr_t place, int *role)
{
    enum { NESTED = 100 };
    const struct function *all, *found;
    const char *name;
    size_t low = 0, high, i;
    if (!module->is_read) read_functions(module);
    all = module->functions;
    high = module->function_count;
    while (low < high) {
        size_t middle = low + (high - low) / 2;
        if (all[middle].from <= place) low = middle + 1;
        else high = middle;
    }
    /* The last that begins at the place or before it, where it goes so far; else one that it lies in. */
    for (i = 0; i < low && i < NESTED && place - all[low - 1 - i].from >= all[low - 1 - i].size; i++) continue;
    if (i == low || i == NESTED) return NULL;
    found = &all[low - 1 - i];
    while (found > all && found[-1].from == found->from && place - found->from < found[-1].size) found--;
    name = found->name;
    for (; found < all + module->function_count && found->from <= place && !*role; found++) {
        if (found->from != all[low - 1 - i].from) break;
        *role = role_of(found->name);
    }
    return *name ? name : NULL;
}

/* The role of a function of C++ by its readable name, which may have a type in front and has parameters behind it. */
static int readable_role(char *readable)
{
    char *name = readable, *at;
    size_t depth = 0;
    int role;
    for (at = readable; *at; at++) {
        if (strncmp(at, "(anonymous namespace)", 21) == 0) at += 20;
        else if (*at == '<') depth++;
        else if (*at == '>' && depth) depth--;
        else if (*at == ' ' && !depth) name = at + 1;
        else if (*at == '(' && !depth) break;
    }
    if (!*at) return role_of(name);
    *at = 0;
    role = role_of(name);
    *at = '(';
    return role;
}

static int is_letter(char c)
{
    return (c >= 'a' && c <= 'z') || (c >= 'A' && c <= 'Z');
}

/* Writes the text as a name of the script language of at most so many bytes, which are 10 at least, and answers how many:
   what stands before the first letter is left out, and what a name can't have is '_'. A longer one is its front, '_' and eight
   digits of its hash. */
static size_t as_name(char *name, const char *text, size_t most)
{
    const char *at = text;
    uint64_t hash = hash_of(text);
    size_t n = 0, i;
    while (*at && !is_letter(*at)) at++;
    for (; *at && n < most; at++)
        name[n++] = is_letter(*at) || (*at >= '0' && *at <= '9') || *at == '.' ? *at : '_';
    if (*at) {
        name[most - 9] = '_';
        for (i = 1; i <= 8; i++, hash >>= 4) name[most - i] = "0123456789abcdef"[hash & 15];
    }
    name[n] = 0;
    return n;
}

/* The sites that are known: a table by address with open addressing, at most half full. A name whose whole was told has an
   entry too, at its hash with the highest bit, where no address is. */
struct site {
    uintptr_t at;
    int role;
    char name[LONGEST_NAME + 1];
};

static struct site *sites;
static size_t site_places, site_count;

/* Of the site that was named last: what its name stands for, where that is another. */
static char whole[3800];
static int is_mangled;

/* Where C++'s names are made readable, a function that the program has for it. It takes much of the stack, so it gets one. */
static char *(*demangle)(const char *, char *, size_t *, int *);
static const char *mangled;
static char *demangled;
static ucontext_t around, within;

static void run_demangle(void)
{
    int status;
    demangled = demangle(mangled, NULL, NULL, &status);
}

static char *demangle_name(const char *name)
{
    enum { STACK = 1 << 20 };
    static char *stack;
    if (!stack) stack = pages(STACK);
    if (!stack || !demangle || strlen(name) > 3000 || getcontext(&within) != 0) return NULL;
    within.uc_stack.ss_sp = stack;
    within.uc_stack.ss_size = STACK;
    within.uc_link = &around;
    mangled = name;
    demangled = NULL;
    makecontext(&within, run_demangle, 0);
    return swapcontext(&around, &within) == 0 ? demangled : NULL;
}

/* The library of C++ that the program has loaded, else null. Not with the lock held: the loader allocates with its own held. */
static void *cxx_library(void)
{
    static const char *const names[] = { "libstdc++.so.6", "libc++abi.so.1" };
    void *library = NULL;
    size_t i;
    for (i = 0; !library && i < sizeof names / sizeof *names; i++) library = dlopen(names[i], RTLD_LAZY | RTLD_NOLOAD);
    if (!library) dlerror();
    return library;
}

/* Names a site 'FUNCTION', else 'MODULE_0xPLACE', else 'unknown'. */
static void name_site(struct site *site, uintptr_t address)
{
    struct module *module = module_of(address - 1);
    uintptr_t place = module ? place_in(module, address - 1) : 0;
    const char *function;
    char *readable = NULL;
    char digits[24];
    size_t at = sizeof digits, n, i;
    site->role = IS_SITE;
    is_mangled = 0;
    whole[0] = 0;
    function = place ? function_at(module, place, &site->role) : NULL;
    if (function && as_name(site->name, function, LONGEST_NAME)) {
        is_mangled = strncmp(function, "_Z", 2) == 0;
        if (is_mangled) readable = demangle_name(function);
        if (readable && !site->role) site->role = readable_role(readable);
        if (is_mangled || strcmp(site->name, function) != 0) strncpy(whole, readable ? readable : function, sizeof whole - 1);
        for (i = 0; whole[i]; i++)
            if (whole[i] > 0 && whole[i] < ' ') whole[i] = '?';
        free(readable);
        return;
    }
    if (!module) {
        strcpy(site->name, "unknown");
        return;
    }
    place = place ? place + 1 : address - module->from + module->offset;
    digits[--at] = 0;
    do digits[--at] = "0123456789abcdef"[place % 16]; while (place /= 16);
    digits[--at] = 'x';
    digits[--at] = '0';
    digits[--at] = '_';
    n = as_name(site->name, module->name, LONGEST_NAME - (sizeof digits - 1 - at));
    if (!n) n = as_name(site->name, "memory", LONGEST_NAME);
    strcpy(site->name + n, digits + at);
    if (strlen(module->name) > LONGEST_NAME - (sizeof digits - 1 - at)) {
        strcpy(whole, module->name);
        strcat(whole, digits + at);
    }
}

static struct site *look_up_site(uintptr_t at)
{
    size_t i = (size_t)(at * UINT64_C(0x9e3779b97f4a7c15) >> 20) & (site_places - 1);
    while (sites[i].at && sites[i].at != at) i = (i + 1) & (site_places - 1);
    return &sites[i];
}

/* Makes the table anew with so many places, and with the sites that are kept. */
static int move_sites(size_t to, int (*keeps)(uintptr_t at))
{
    struct site *before = sites;
    size_t count = site_places, i;
    struct site *after = pages(to * sizeof *after);
    if (!after) return 0;
    sites = after;
    site_places = to;
    site_count = 0;
    for (i = 0; i < count; i++)
        if (before[i].at && (!keeps || keeps(before[i].at))) {
            *look_up_site(before[i].at) = before[i];
            site_count++;
        }
    if (before) munmap(before, count * sizeof *before);
    return 1;
}

/* Whether two more sites have room. */
static int has_site_room(void)
{
    return 2 * (site_count + 2) <= site_places || move_sites(site_places ? 2 * site_places : 1024, NULL);
}

/* Tells what a site's name stands for, once. */
static void tell_whole(const char *name)
{
    static char line[sizeof whole + 64];
    uintptr_t at = hash_of(name) | ~(UINTPTR_MAX >> 1);
    struct site *told = look_up_site(at);
    if (told->at) return;
    told->at = at;
    site_count++;
    strcpy(line, "# site ");
    strcat(line, name);
    strcat(line, " is ");
    strcat(line, whole);
    strcat(line, "\n");
    put(line, strlen(line));
}

/* Names the site of a call that returns to this address, and answers null where there is no memory for one. The lock is held,
   and is given up for a while where a function is looked for that makes names readable. */
static struct site *new_site(uintptr_t address)
{
    static int tries = 50;
    struct site fresh = { .at = address }, *site;
    int before;
    pthread_setcancelstate(PTHREAD_CANCEL_DISABLE, &before);
    name_site(&fresh, address);
    if (is_mangled && !demangle && tries > 0) {
        void *found = NULL, *library;
        tries--;
        pthread_mutex_unlock(&lock);
        library = cxx_library();
        if (library) found = dlsym(library, "__cxa_demangle");
        pthread_mutex_lock(&lock);
        *(void **)&demangle = found;
        name_site(&fresh, address);
    }
    pthread_setcancelstate(before, NULL);
    if (!has_site_room()) return NULL;
    site = look_up_site(address);
    if (!site->at) site_count++;
    *site = fresh;
    if (fresh.role == IS_SITE && *whole) tell_whole(fresh.name);
    return site;
}

static struct site *site_at(uintptr_t address)
{
    struct site *site;
    if (!has_site_room()) return NULL;
    site = look_up_site(address);
    return site->at ? site : new_site(address);
}

/* Return addresses of the calls that led here, from one that is known on, and how many are wanted. */
enum { FEW_FRAMES = 3, MOST_FRAMES = 32 };

struct frames {
    uintptr_t from, at[MOST_FRAMES];
    size_t count, wanted, skipped;
};

static _Unwind_Reason_Code note_frame(struct _Unwind_Context *context, void *to)
{
    struct frames *frames = to;
    uintptr_t at = _Unwind_GetIP(context);
    if (frames->count || at == frames->from) frames->at[frames->count++] = at;
    else if (++frames->skipped > MOST_FRAMES) return _URC_END_OF_STACK;
    return frames->count < frames->wanted ? _URC_NO_REASON : _URC_END_OF_STACK;
}

/* Tells once that a wrapper is looked through. */
static void tell_through(int role)
{
    struct line line = { .used = 0 };
    if (role < IS_WRAPPER || wrappers[role - IS_WRAPPER].came) return;
    wrappers[role - IS_WRAPPER].came = 1;
    word(&line, "# looked through: ");
    word(&line, wrappers[role - IS_WRAPPER].name);
    end_line(&line);
}

/* The name of the first function that isn't looked through, among those that led to this call: among so many of them, and null
   where all of these are. The lock is held, and is given up while they are looked for, since the unwinder may wait for the
   loader. */
static const char *site_among(uintptr_t caller, size_t wanted)
{
    struct frames frames = { .from = caller, .wanted = wanted };
    struct site *site = NULL;
    size_t i;
    int before, role;
    pthread_setcancelstate(PTHREAD_CANCEL_DISABLE, &before);
    pthread_mutex_unlock(&lock);
    _Unwind_Backtrace(note_frame, &frames);
    pthread_mutex_lock(&lock);
    pthread_setcancelstate(before, NULL);
    for (i = 0; i + 1 < frames.count; i++) {
        site = site_at(frames.at[i]);
        role = site ? site->role : IS_SITE;
        site = site_at(frames.at[i + 1]);
        if (!site) break;
        tell_through(role);
        if (site->role == IS_SITE) break;
    }
    if (i + 1 == wanted && wanted < MOST_FRAMES) return NULL;
    if (frames.count < 2) site = site_at(caller);
    return site ? site->name : "unknown";
}

static const char *site_above(uintptr_t caller)
{
    const char *site = site_among(caller, FEW_FRAMES);
    return site ? site : site_among(caller, MOST_FRAMES);
}

/* The name of who called: of the function, or where that is looked through, of the first that isn't. */
static const char *site_of(uintptr_t caller)
{
    struct site *site = site_at(caller);
    if (!site) return "unknown";
    return site->role == IS_SITE ? site->name : site_above(caller);
}

/* Notes which of the modules are still mapped as they were. */
static int see_mapping(const char *line, uintptr_t unused)
{
    uint64_t hash = hash_of(line);
    size_t i;
    (void)unused;
    for (i = 0; i < module_count; i++)
        if (modules[i].line == hash) modules[i].is_seen = 1;
    return 0;
}

static int is_kept(uintptr_t at)
{
    size_t i;
    if (at > UINTPTR_MAX >> 1) return 1;
    for (i = 0; i < module_count; i++)
        if (at - 1 >= modules[i].from && at - 1 < modules[i].to) return 1;
    return 0;
}

/* Forgets the modules that are no longer there, and their sites. */
static void forget_unmapped(void)
{
    size_t i, kept = 0;
    int before;
    pthread_setcancelstate(PTHREAD_CANCEL_DISABLE, &before);
    for (i = 0; i < module_count; i++) modules[i].is_seen = 0;
    each_mapping(see_mapping, 0);
    for (i = 0; i < module_count; i++) {
        if (modules[i].is_seen) modules[kept++] = modules[i];
        else {
            if (modules[i].bytes) munmap((void *)modules[i].bytes, modules[i].mapped);
            if (modules[i].functions) munmap(modules[i].functions, modules[i].function_count * sizeof *modules[i].functions);
        }
    }
    if (kept < module_count) {
        module_count = kept;
        if (sites && !move_sites(site_places, is_kept)) {
            memset(sites, 0, site_places * sizeof *sites);
            site_count = 0;
        }
    }
    pthread_setcancelstate(before, NULL);
}

/* The method's word, and behind it the number of the first region's discipline. */
static char method[16];
static unsigned long place;

/* Takes the words of the command open, and the number of regions. Of the next ones the names are that name with a number, from
   2 on, and the disciplines those behind that one. Answers whether it can. */
static int read_open(const char *words, size_t count)
{
    size_t length = strcspn(words, " "), n, i;
    struct line line;
    if (count < 1 || count > MOST_REGIONS || length + (count > 1) + (count > 9) > LONGEST_NAME || !words[length]) return 0;
    n = strcspn(words + length + 1, " ");
    if (n >= sizeof method) return 0;
    memcpy(method, words + length + 1, n);
    place = strtoul(words + length + 1 + n, NULL, 10);
    has_align = strcmp(method, "best") == 0 || strcmp(method, "profile") == 0;
    is_trace = strcmp(method, "trace") == 0;
    least_segment = place >= 9 && place <= 12 ? 65536 : 4096;
    /* Over discipline 17 a region has one segment, so nothing is to be told of how many it takes. */
    regions[0].is_told = place == 17;
    for (i = 0; i < count; i++) {
        line.used = 0;
        if (i) number(&line, i + 1);
        memcpy(regions[i].name, words, length);
        memcpy(regions[i].name + length, line.bytes, line.used);
        regions[i].freed_labels = pages(MOST_LABELS * sizeof *regions[i].freed_labels);
        if (!regions[i].freed_labels) return 0;
    }
    region_count = count;
    return 1;
}

static void tell_open(size_t i)
{
    struct line line = { .used = 0 };
    if (is_trace) return;
    word(&line, "open ");
    word(&line, regions[i].name);
    word(&line, " ");
    word(&line, method);
    word(&line, " ");
    number(&line, place + i);
    end_line(&line);
}

/* Takes the names of the functions to look through, a line for each. */
static void read_wrappers(const char *names)
{
    static char kept[4096];
    char *at = kept;
    if (!names || strlen(names) >= sizeof kept) return;
    strcpy(kept, names);
    while (*at && wrapper_count < sizeof wrappers / sizeof *wrappers) {
        char *end = strchr(at, '\n');
        if (end) *end = 0;
        if (*at) wrappers[wrapper_count++].name = at;
        if (!end) break;
        at = end + 1;
    }
}

/* Begins the script, where the process has its environment by now. */
static void begin(void)
{
    extern char **environ;
    const char *name, *writer, *words, *sites, *count, *version;
    struct line line = { .used = 0 };
    pid_t self = getpid();
    size_t n;
    int before, is_ready;
    if (!environ) return;
    mark_writer();
    name = getenv("VMREPLAY_RECORD");
    writer = getenv("VMREPLAY_RECORD_PID");
    words = getenv("VMREPLAY_RECORD_OPEN");
    count = getenv("VMREPLAY_RECORD_REGIONS");
    sites = getenv("VMREPLAY_RECORD_SITES");
    version = getenv("VMREPLAY_RECORD_VERSION");
    n = name ? strlen(name) : 0;
    if (n == 0 || n > sizeof path - 32) {
        stop();
        return;
    }
    has_sites = !sites || strcmp(sites, "no") != 0;
    read_wrappers(getenv("VMREPLAY_RECORD_THROUGH"));
    memcpy(path, name, n + 1);
    if (!writer || strtol(writer, NULL, 10) != self) {
        word(&line, ".");
        number(&line, self);
        memcpy(path + n, line.bytes, line.used);
        path[n + line.used] = 0;
        line.used = 0;
    }
    pthread_setcancelstate(PTHREAD_CANCEL_DISABLE, &before);
    file = open_file(O_RDWR | O_CREAT);
    is_ready = file >= 0 && double_table() && fstat(file, &file_is) == 0 && S_ISREG(file_is.st_mode) && ftruncate(file, 0) == 0
        && read_open(words ? words : "r best 9", count ? strtoul(count, NULL, 10) : 1);
    if (!is_ready) {
        if (file >= 0) close(file);
        file = -1;
        stop();
    }
    pthread_setcancelstate(before, NULL);
    /* Nothing may stand in front of the version. */
    if (version && strcmp(version, "2") == 0) {
        word(&line, "vc 2");
        end_line(&line);
        line.used = 0;
    }
    tell_open(0);
    word(&line, "# ");
    for (name = program_invocation_short_name; *name && line.used < 200; name++) {
        char one[2] = { *name > ' ' && *name <= '~' ? *name : '?', 0 };
        word(&line, one);
    }
    word(&line, ", process ");
    number(&line, self);
    end_line(&line);
    for (n = 1; n < region_count; n++) tell_open(n);
}

/* Takes the lock, where something is to be written. It isn't in a child, nor in a signal's handler that comes between. */
static int enter(void)
{
    if (__atomic_load_n(&stopped, __ATOMIC_RELAXED) || inside || (owner && !is_writer())) return 0;
    inside = 1;
    pthread_mutex_lock(&lock);
    if (!owner) begin();
    if (owner && !stopped) return 1;
    pthread_mutex_unlock(&lock);
    inside = 0;
    return 0;
}

static void leave(void)
{
    pthread_mutex_unlock(&lock);
    inside = 0;
}

/* What the calls tell. */

/* A block's end. */
static void tell_gone(uint32_t label, size_t size)
{
    struct line line;
    if (!label) {
        comment("free", 0, size, no_block);
        return;
    }
    begin_command(&line, "free", label);
    end_line(&line);
    count_block(label, size, 0);
    give_label(label);
}

/* Whether a block with this size and alignment can be in a script. */
static int is_block(size_t align, size_t size)
{
    return size > 0 && size <= LARGEST_SIZE && align <= LARGEST_ALIGN;
}

/* The site of such a block, and null where its line has none. */
static const char *site_for(size_t align, size_t size, void *caller)
{
    if (!has_sites || !is_block(align, size) || (align && has_align)) return NULL;
    return site_of((uintptr_t)caller);
}

/* A new block, and its label: 0 where it can't be in the script. */
static uint32_t tell_new(const char *call, size_t align, size_t size, const char *site)
{
    struct line line;
    uint32_t label;
    if (!is_block(align, size)) {
        comment(call, align, size, no_block);
        return 0;
    }
    label = take_label();
    if (!label) {
        comment(call, align, size, region_count == 1 ? ": the region has no more than 1,000,000 blocks"
            : ": each of the regions has no more than 1,000,000 blocks");
        return 0;
    }
    if (align && !has_align) {
        comment(call, align, size, is_trace ? ": a trace has no align" : ": a region of this method has no align");
        align = 0;
    }
    begin_command(&line, align ? "align" : "alloc", label);
    word(&line, " ");
    number(&line, size);
    if (align) {
        word(&line, " ");
        number(&line, align);
    } else if (site) {
        word(&line, " @");
        word(&line, site);
    }
    end_line(&line);
    count_block(label, 0, size);
    return label;
}

/* Takes a block out of the table and tells its end. */
static void tell_taken(struct block *block)
{
    struct block taken = *block;
    forget(block);
    tell_gone(taken.label, taken.size);
}

/* Takes out a block whose end wasn't seen, where a new one stands at its address. */
static void drop_unseen(void *p)
{
    struct block *block = look_up((uintptr_t)p);
    if (block->at) tell_taken(block);
}

/* A block at p has come, if p isn't null. Alignments that each block of a region has are none. */
static void *came(const char *call, size_t align, size_t size, void *p, void *caller)
{
    int error = errno;
    size_t power = 1;
    while (power < align && power <= SIZE_MAX / 2) power *= 2;
    if (power < LEAST_ALIGN) power = 0;
    if (p && enter()) {
        const char *site = site_for(power, size, caller);
        drop_unseen(p);
        remember(p, tell_new(call, power, size, site), size);
        leave();
    }
    errno = error;
    return p;
}

/* The block at p goes, and is still there. */
static void goes(void *p)
{
    int error = errno;
    if (enter()) {
        drop_unseen(p);
        leave();
    }
    errno = error;
}

/* The block at old, which may be none that is known, now has this size and stands at p; with p null it is gone. */
static void tell_resized(void *old, size_t size, void *p, const char *site)
{
    struct block *block = look_up((uintptr_t)old), taken = *block;
    uint32_t label = taken.at ? taken.label : 0;
    struct line line;
    if (taken.at) forget(block);
    if (!p) {
        if (taken.at) tell_gone(label, taken.size);
        return;
    }
    drop_unseen(p);
    if (!label) {
        if (taken.at) tell_gone(0, taken.size);
        label = tell_new("realloc", 0, size, site);
    } else if (size == 0 || size > LARGEST_SIZE) {
        comment("realloc", 0, size, no_block);
        tell_gone(label, taken.size);
        label = 0;
    } else {
        begin_command(&line, "resize", label);
        word(&line, " ");
        number(&line, size);
        word(&line, " move");
        end_line(&line);
        count_block(label, taken.size, size);
    }
    remember(p, label, size);
}

/* Who called: the function that operator new was called from, where it is what allocates, else the caller of this one. */
static __thread void *new_from __attribute__((tls_model("initial-exec")));

#define CALLER() (new_from ? take_new_from() : __builtin_return_address(0))

static void *take_new_from(void)
{
    void *from = new_from;
    new_from = NULL;
    return from;
}

/* The calls. */

/* The process has made a child by fork, which writes nothing. */
static void forked(void)
{
    static const char line[] = "# fork: the child is in no script, but where it becomes another program\n";
    int error = errno;
    if (enter()) {
        put(line, sizeof line - 1);
        leave();
    }
    errno = error;
}

__attribute__((constructor)) static void start(void)
{
    int error = errno;
    if (is_found() && enter()) {
        pthread_atfork(NULL, forked, NULL);
        leave();
    }
    errno = error;
}

/* What is written after this, by destructors that run later, is written line by line. Where the file can't be written to any
   more, what is mapped stays. */
__attribute__((destructor)) static void finish(void)
{
    int error = errno;
    if (owner && !inside && is_writer()) {
        inside = 1;
        pthread_mutex_lock(&lock);
        if (!stopped && is_open() && limit_of_files() - written > 4096 && limit_of_files() > written) {
            cut();
            is_ending = 1;
        }
        leave();
    }
    errno = error;
}

static void *new_block(size_t size, void *caller)
{
    return came("malloc", 0, size, next_malloc(size), caller);
}

void *malloc(size_t size)
{
    if (!is_found()) return early_alloc(0, size);
    return new_block(size, CALLER());
}

void *calloc(size_t count, size_t size)
{
    size_t all;
    if (!is_found()) {
        if (!__builtin_mul_overflow(count, size, &all)) return early_alloc(0, all);
        errno = ENOMEM;
        return NULL;
    }
    return came("calloc", 0, count * size, next_calloc(count, size), CALLER());
}

void free(void *p)
{
    if (!p || is_early(p) || !is_found()) return;
    goes(p);
    next_free(p);
}

/* The lock is held over the allocator's own call, since that frees the old place before the line is written. */
static void *resized(void *old, size_t size, void *caller)
{
    const struct block *block;
    const char *site;
    void *p;
    int error;
    if (!old && !is_found()) return early_alloc(0, size);
    if (!old) return new_block(size, caller);
    if (is_early(old) || !is_found()) {
        size_t before = early_size(old);
        p = is_found() ? new_block(size, caller) : early_alloc(0, size);
        if (p) memcpy(p, old, before < size ? before : size);
        return p;
    }
    if (!enter()) return next_realloc(old, size);
    error = errno;
    block = look_up((uintptr_t)old);
    site = block->at && block->label ? NULL : site_for(0, size, caller);
    errno = error;
    p = next_realloc(old, size);
    error = errno;
    if (p || size == 0) tell_resized(old, size, p, site);
    leave();
    errno = error;
    return p;
}

void *realloc(void *old, size_t size)
{
    return resized(old, size, CALLER());
}

void *reallocarray(void *old, size_t count, size_t size)
{
    size_t all;
    if (__builtin_mul_overflow(count, size, &all)) {
        errno = ENOMEM;
        return NULL;
    }
    return resized(old, all, CALLER());
}

void *aligned_alloc(size_t align, size_t size)
{
    if (!is_found()) return early_alloc(align, size);
    return came("aligned_alloc", align, size, next_aligned_alloc(align, size), CALLER());
}

void *memalign(size_t align, size_t size)
{
    if (!is_found()) return early_alloc(align, size);
    return came("memalign", align, size, next_memalign(align, size), CALLER());
}

int posix_memalign(void **p, size_t align, size_t size)
{
    int fault;
    if (!is_found()) {
        void *place = early_alloc(align, size);
        if (place) *p = place;
        return place ? 0 : ENOMEM;
    }
    fault = next_posix_memalign(p, align, size);
    if (fault == 0) came("posix_memalign", align, size, *p, CALLER());
    return fault;
}

/* What a library took its place from may be forgotten when it is gone. */
int dlclose(void *handle)
{
    static int (*next)(void *);
    int (*found)(void *) = __atomic_load_n(&next, __ATOMIC_RELAXED);
    int status, error;
    if (!found) {
        *(void **)&found = dlsym(RTLD_NEXT, "dlclose");
        __atomic_store_n(&next, found, __ATOMIC_RELAXED);
    }
    status = found(handle);
    error = errno;
    if (enter()) {
        forget_unmapped();
        leave();
    }
    errno = error;
    return status;
}

/* C++'s operators new and new[], of 64-bit systems, so that who called them is the site. Each is passed on to the one behind
   this library; where the program has loaded C++'s library later, to that; and else to what they do by themselves. */
#ifdef __LP64__

static void *operator_behind(const char *name)
{
    void *found, *library;
    int before = inside;
    inside = 1;
    found = dlsym(RTLD_NEXT, name);
    if (!found) {
        dlerror();
        library = cxx_library();
        if (library) found = dlsym(library, name);
    }
    inside = before;
    return found;
}

static void *plain_new(size_t size, size_t align, int throws)
{
    void *p = align ? aligned_alloc(align, size) : malloc(size ? size : 1);
    if (!p && throws) abort();
    return p;
}

#define OPERATOR(name, parameters, arguments, plain) \
    void *name parameters \
    { \
        static void *(*next) parameters; \
        void *(*found) parameters = __atomic_load_n(&next, __ATOMIC_RELAXED); \
        void *p; \
        if (!found) { \
            *(void **)&found = operator_behind(#name); \
            __atomic_store_n(&next, found, __ATOMIC_RELAXED); \
        } \
        if (!new_from) new_from = __builtin_return_address(0); \
        p = found ? found arguments : plain; \
        new_from = NULL; \
        return p; \
    }

OPERATOR(_Znwm, (size_t size), (size), plain_new(size, 0, 1))
OPERATOR(_Znam, (size_t size), (size), plain_new(size, 0, 1))
OPERATOR(_ZnwmRKSt9nothrow_t, (size_t size, const void *none), (size, none), plain_new(size, 0, 0))
OPERATOR(_ZnamRKSt9nothrow_t, (size_t size, const void *none), (size, none), plain_new(size, 0, 0))
OPERATOR(_ZnwmSt11align_val_t, (size_t size, size_t align), (size, align), plain_new(size, align, 1))
OPERATOR(_ZnamSt11align_val_t, (size_t size, size_t align), (size, align), plain_new(size, align, 1))
OPERATOR(_ZnwmSt11align_val_tRKSt9nothrow_t, (size_t size, size_t align, const void *none), (size, align, none),
    plain_new(size, align, 0))
OPERATOR(_ZnamSt11align_val_tRKSt9nothrow_t, (size_t size, size_t align, const void *none), (size, align, none),
    plain_new(size, align, 0))
#endif
