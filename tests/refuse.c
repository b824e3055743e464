/* Counts the growths of a program into which it is preloaded, and refuses the requested one, a read or each renaming. It needs no
   header.

     REFUSE=N       refuses the Nth growth, counted from 1; N.. : it and all later ones; 0 or missing: none
     GROWTHS=PATH   maps a file of 16 bytes: the number of growths and of refused ones, however the program ends
     UNREAD=N       limits each read to 16 bytes and lets the Nth one fail, as on a bad disk
     UNRENAMED=1    lets each renaming fail, as onto a mount point

   A growth is a malloc, a calloc, or a realloc to more than the requested size, after the program's own code has started. */
typedef unsigned long word;
extern void *__libc_malloc(word), *__libc_realloc(void *, word), *mmap(void *, word, int, int, int, long), *memset(void *, int, word);
extern void __libc_free(void *);
extern char *getenv(const char *);
extern int open(const char *, int, ...), close(int), *__errno_location(void);
extern int renameat(int, const char *, int, const char *);
extern long __read(int, void *, word);

static word unmapped[2], *count = unmapped, refuse, unread, unrenamed, reads;
static int started, all;

/* Reads the number at the start of a text, and returns the rest. */
static const char *number(const char *at, word *it) {
    for (; at && *at >= '0' && *at <= '9'; at++) *it = 10 * *it + (*at - '0');
    return at;
}

__attribute__((constructor)) static void start(void) {
    const char *path = getenv("GROWTHS"), *at = getenv("REFUSE");
    int file = path ? open(path, 2) : -1;
    void *map = file < 0 ? (void *)-1 : mmap(0, 16, 3, 1, file, 0);
    if (map != (void *)-1) count = map;
    if (file >= 0) close(file);
    at = number(at, &refuse);
    all = at && *at == '.';
    number(getenv("UNREAD"), &unread);
    number(getenv("UNRENAMED"), &unrenamed);
    started = 1;
}

static int refused(void) {
    word n = started ? ++count[0] : 0;
    if (!n || !refuse || n < refuse || (n > refuse && !all)) return 0;
    ++count[1];
    *__errno_location() = 12;
    return 1;
}

/* Each block has its requested size in the 16 bytes before it. */
static void *block(word *head, word size) {
    if (!head) return 0;
    *head = size;
    return head + 2;
}

void *malloc(word size) {
    return size >> 63 || refused() ? 0 : block(__libc_malloc(size + 16), size);
}

void *calloc(word many, word each) {
    word size;
    void *it = __builtin_mul_overflow(many, each, &size) ? 0 : malloc(size);
    return it ? memset(it, 0, size) : 0;
}

void *realloc(void *old, word size) {
    word *head = (word *)old - 2;
    if (!old) return malloc(size);
    return size >> 63 || (size > *head && refused()) ? 0 : block(__libc_realloc(head, size + 16), size);
}

void free(void *old) {
    if (old) __libc_free((word *)old - 2);
}

long read(int file, void *into, word size) {
    if (!unread) return __read(file, into, size);
    if (++reads != unread) return __read(file, into, size > 16 ? 16 : size);
    *__errno_location() = 5;
    return -1;
}

int rename(const char *from, const char *to) {
    if (!unrenamed) return renameat(-100, from, -100, to);
    *__errno_location() = 16;
    return -1;
}
