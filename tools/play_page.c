// What compiled code calls by name where there is no C library: a heap, and the copying of bytes.
typedef unsigned long size_t;
typedef unsigned char u8;
extern u8 __heap_base;

#define PAGE 65536ul
static size_t top, end;

// Tells the page how large the memory is.
__attribute__((import_module("page"), import_name("grew"))) void page_grew(size_t size);

// A block has a header of 16 bytes with its class: it has room for 16 << class bytes.
struct head { size_t class; struct head *next; };
static struct head *spare[64];

static void *fresh(size_t size) {
    if (!top) {
        top = ((size_t)&__heap_base + 15) & ~15ul;
        end = __builtin_wasm_memory_size(0) * PAGE;
    }
    if (end - top < size) {
        size_t pages = (size - (end - top) + PAGE - 1) / PAGE;
        size_t more = __builtin_wasm_memory_size(0) / 4;
        if (pages < more) pages = more;
        if (__builtin_wasm_memory_grow(0, pages) == (size_t)-1) {
            pages = (size - (end - top) + PAGE - 1) / PAGE;
            if (__builtin_wasm_memory_grow(0, pages) == (size_t)-1) return 0;
        }
        end += pages * PAGE;
        page_grew(end);
    }
    void *p = (void *)top;
    top += size;
    return p;
}

static size_t class_of(size_t n) {
    return n <= 16 ? 0 : 60 - __builtin_clzl(n - 1);
}

static void *take(size_t n) {
    if (n > (1ul << 40)) return 0;
    size_t class = class_of(n);
    struct head *h = spare[class];
    if (h) spare[class] = h->next;
    else {
        h = fresh(16 + (16ul << class));
        if (!h) return 0;
        h->class = class;
    }
    return (u8 *)h + 16;
}

static void give(void *p) {
    struct head *h = (struct head *)((u8 *)p - 16);
    h->next = spare[h->class];
    spare[h->class] = h;
}

void *memcpy(void *to, const void *from, size_t n) { u8 *t = to; const u8 *f = from; while (n--) *t++ = *f++; return to; }
void *memmove(void *to, const void *from, size_t n) {
    u8 *t = to; const u8 *f = from;
    if (t <= f) while (n--) *t++ = *f++;
    else while (n--) t[n] = f[n];
    return to;
}
void *memset(void *to, int c, size_t n) { u8 *t = to; while (n--) *t++ = (u8)c; return to; }
int memcmp(const void *a, const void *b, size_t n) { const u8 *x = a, *y = b; for (; n--; x++, y++) if (*x != *y) return *x - *y; return 0; }

struct tried { size_t ok; void *p; };
static u8 none;
struct tried rattle_alloc(size_t n, size_t a) { void *p = take(n); return (struct tried){p != 0, p ? p : &none}; }
struct tried rattle_realloc(void *p, size_t kept, size_t n, size_t a) {
    struct head *h = (struct head *)((u8 *)p - 16);
    if (class_of(n) <= h->class) return (struct tried){1, p};
    void *q = take(n);
    if (!q) return (struct tried){0, &none};
    __builtin_memcpy(q, p, kept);
    give(p);
    return (struct tried){1, q};
}
void rattle_dealloc(void *p) { give(p); }

// For the page: room for a text and for what is written.
__attribute__((export_name("page_take"))) void *page_take(size_t n) { return take(n); }
__attribute__((export_name("page_give"))) void page_give(void *p) { give(p); }

// The product of two numbers of 128 bits, by products of 32.
__int128 __multi3(__int128 a, __int128 b) {
    unsigned long x = (unsigned long)a, y = (unsigned long)b;
    unsigned long x0 = x & 0xffffffff, x1 = x >> 32, y0 = y & 0xffffffff, y1 = y >> 32;
    unsigned long low = x0 * y0, m1 = x1 * y0, m2 = x0 * y1, high = x1 * y1;
    unsigned long mid = (low >> 32) + (m1 & 0xffffffff) + (m2 & 0xffffffff);
    high += (m1 >> 32) + (m2 >> 32) + (mid >> 32);
    low = (low & 0xffffffff) | (mid << 32);
    high += (unsigned long)((unsigned __int128)a >> 64) * y + x * (unsigned long)((unsigned __int128)b >> 64);
    return (__int128)(((unsigned __int128)high << 64) | low);
}

// Shifts of a number of 128 bits, by its halves.
union wide { unsigned __int128 all; struct { unsigned long low, high; } of; };
__int128 __ashlti3(__int128 a, int n) {
    union wide x = {.all = (unsigned __int128)a}, r;
    n &= 127;
    if (n == 0) return a;
    if (n >= 64) { r.of.low = 0; r.of.high = x.of.low << (n - 64); }
    else { r.of.low = x.of.low << n; r.of.high = (x.of.high << n) | (x.of.low >> (64 - n)); }
    return (__int128)r.all;
}
__int128 __lshrti3(__int128 a, int n) {
    union wide x = {.all = (unsigned __int128)a}, r;
    n &= 127;
    if (n == 0) return a;
    if (n >= 64) { r.of.high = 0; r.of.low = x.of.high >> (n - 64); }
    else { r.of.high = x.of.high >> n; r.of.low = (x.of.low >> n) | (x.of.high << (64 - n)); }
    return (__int128)r.all;
}
__int128 __ashrti3(__int128 a, int n) {
    union wide x = {.all = (unsigned __int128)a}, r;
    n &= 127;
    if (n == 0) return a;
    long high = (long)x.of.high;
    if (n >= 64) { r.of.high = (unsigned long)(high >> 63); r.of.low = (unsigned long)(high >> (n - 64)); }
    else { r.of.high = (unsigned long)(high >> n); r.of.low = (x.of.low >> n) | (x.of.high << (64 - n)); }
    return (__int128)r.all;
}
