/* What the module asks of C in WebAssembly: memory, and what LLVM calls by name. Blocks are of classes by size, powers of two and halves
   between them, each behind a header; a freed block goes to the list of its class. What is new comes from the end of memory, which grows. */
typedef __SIZE_TYPE__ usize;
typedef unsigned long long u64;
typedef unsigned char u8;

enum { PAGE = 65536, HEADER = 16, ALIGNMENT = 16, LEAST = 32, CLASSES = 128, GROWN_AT_MOST = 1024 };
static const u64 MOST = (u64)1 << 40; /* bytes that a block may have */

struct block {
    usize class;
    struct block *next;
};

extern u8 __heap_base;
static u8 *top, *end;
static struct block *lists[CLASSES];

/* class 2k has 2^k bytes, class 2k + 1 has 3 * 2^(k-1) */
static usize size_of_class(usize class) {
    usize k = class >> 1;
    return class & 1 ? (usize)3 << (k - 1) : (usize)1 << k;
}

static usize class_of(usize size) {
    if (size < LEAST) size = LEAST;
    usize k = 63 - __builtin_clzll((u64)size);
    if (size == (usize)1 << k) return 2 * k;
    return size <= (usize)3 << (k - 1) ? 2 * k + 1 : 2 * (k + 1);
}

static u8 *end_of_memory(void) {
    return (u8 *)(__builtin_wasm_memory_size(0) * (usize)PAGE);
}

/* so many pages more, or false; the size tells, since a memory of 32 bits answers a refusal as another number than one of 64 */
static int grows(usize pages) {
    usize before = __builtin_wasm_memory_size(0);
    (void)__builtin_wasm_memory_grow(0, pages);
    return __builtin_wasm_memory_size(0) - before >= pages;
}

/* so many bytes at least behind the top, or false: a quarter of the memory more where that can be had, for fewer calls */
static int has_room(usize size) {
    if (!top) {
        top = (u8 *)(((usize)&__heap_base + ALIGNMENT - 1) & ~(usize)(ALIGNMENT - 1));
        end = end_of_memory();
    }
    if ((usize)(end - top) >= size) return 1;
    usize pages = (size - (usize)(end - top) + PAGE - 1) / PAGE;
    usize more = __builtin_wasm_memory_size(0) / 4;
    if (more > GROWN_AT_MOST) more = GROWN_AT_MOST;
    if (!grows(pages > more ? pages : more) && !grows(pages)) return 0;
    end = end_of_memory();
    return 1;
}

__attribute__((export_name("mainctx_alloc"))) void *take(usize size) {
    if ((u64)size > MOST) return 0;
    usize class = class_of(size);
    struct block *block = lists[class];
    if (block) {
        lists[class] = block->next;
    } else {
        usize whole = HEADER + size_of_class(class);
        if (!has_room(whole)) return 0;
        block = (struct block *)top;
        top += whole;
    }
    block->class = class;
    return (u8 *)block + HEADER;
}

static struct block *block_of(void *p) {
    return (struct block *)((u8 *)p - HEADER);
}

__attribute__((export_name("mainctx_free"))) void give(void *p) {
    if (!p) return;
    struct block *block = block_of(p);
    block->next = lists[block->class];
    lists[block->class] = block;
}

/* an answer to a request: a block that is never null, also where none was granted */
struct request {
    u64 granted;
    u64 block;
};

static struct request request(void *p) {
    return (struct request){p != 0, p != 0 ? (u64)(usize)p : ALIGNMENT};
}

struct request rattle_alloc(u64 size, u64 align) {
    return request(take((usize)(size ? size : align)));
}

struct request rattle_realloc(void *p, u64 kept, u64 size, u64 align) {
    usize class = block_of(p)->class, wanted = (usize)(size ? size : align);
    if (wanted <= size_of_class(class) && class_of(wanted) + 2 >= class) return request(p);
    void *q = take(wanted);
    if (q) {
        __builtin_memcpy(q, p, kept < wanted ? kept : wanted);
        give(p);
    }
    return request(q);
}

void rattle_dealloc(void *p) {
    give(p);
}

void *memcpy(void *to, const void *from, usize size) {
    return __builtin_memcpy(to, from, size);
}

void *memmove(void *to, const void *from, usize size) {
    return __builtin_memmove(to, from, size);
}

void *memset(void *to, int byte, usize size) {
    return __builtin_memset(to, byte, size);
}

int memcmp(const void *a, const void *b, usize size) {
    const u8 *x = a, *y = b;
    for (usize i = 0; i < size; i++)
        if (x[i] != y[i]) return x[i] < y[i] ? -1 : 1;
    return 0;
}

int bcmp(const void *a, const void *b, usize size) {
    return memcmp(a, b, size);
}

/* arithmetic of 128 bits, in halves of 64 */
enum { HALF = 64, QUARTER = 32 };
typedef __int128 i128;
union wide {
    i128 all;
    struct {
        u64 low, high;
    } half;
};

i128 __multi3(i128 a, i128 b) {
    union wide x = {.all = a}, y = {.all = b}, r;
    u64 mask = 0xffffffffu;
    u64 x0 = x.half.low & mask, x1 = x.half.low >> QUARTER, y0 = y.half.low & mask, y1 = y.half.low >> QUARTER;
    u64 p00 = x0 * y0, p01 = x0 * y1, p10 = x1 * y0, p11 = x1 * y1;
    u64 middle = (p00 >> QUARTER) + (p01 & mask) + (p10 & mask);
    r.half.low = (p00 & mask) | (middle << QUARTER);
    r.half.high = p11 + (p01 >> QUARTER) + (p10 >> QUARTER) + (middle >> QUARTER) + x.half.low * y.half.high + x.half.high * y.half.low;
    return r.all;
}

i128 __ashlti3(i128 a, int n) {
    union wide x = {.all = a};
    if (n & HALF) {
        x.half.high = x.half.low << (n & (HALF - 1));
        x.half.low = 0;
    } else if (n) {
        x.half.high = (x.half.high << n) | (x.half.low >> (HALF - n));
        x.half.low <<= n;
    }
    return x.all;
}

/* to the right, with what comes in from the left */
static i128 right(i128 a, int n, u64 in) {
    union wide x = {.all = a};
    u64 high = x.half.high;
    int m = n & (HALF - 1);
    u64 moved = m ? (high >> m) | (in << (HALF - m)) : high;
    if (n & HALF) {
        x.half.low = moved;
        x.half.high = in;
    } else if (n) {
        x.half.low = (x.half.low >> n) | (high << (HALF - n));
        x.half.high = moved;
    }
    return x.all;
}

i128 __lshrti3(i128 a, int n) {
    return right(a, n, 0);
}

i128 __ashrti3(i128 a, int n) {
    return right(a, n, a < 0 ? ~(u64)0 : 0);
}
