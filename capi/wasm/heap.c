/* What the module needs of C in a page: a heap over the end of the memory, and the helpers that clang calls by name.
 * Nothing here is proved. Blocks have sizes of powers of two, and a list of free ones for each size. */
typedef unsigned long long u64;
typedef unsigned char u8;
typedef unsigned __int128 u128;

extern u8 __heap_base;
static u64 top;
static u64 freed[64];

/* The class of a size is kept in the 16 bytes before a block. */
static u64 take(u64 size) {
    int class = 5;
    while (class < 63 && (1ull << class) < size + 16) class++;
    if (class == 63 || size > 1ull << 62) return 0;
    if (freed[class]) {
        u64 block = freed[class];
        freed[class] = *(u64 *)block;
        return block;
    }
    if (!top) top = ((u64)&__heap_base + 31) & ~31ull;
    u64 end = top + (1ull << class), there = __builtin_wasm_memory_size(0) << 16;
    if (end > there && __builtin_wasm_memory_grow(0, (end - there + 65535) >> 16) == (u64)-1) return 0;
    u64 block = top + 16;
    top = end;
    *(u64 *)(block - 16) = (u64)class;
    return block;
}

static void give(u64 block) {
    int class = (int)*(u64 *)(block - 16);
    *(u64 *)block = freed[class];
    freed[class] = block;
}

void *memcpy(void *to, const void *from, u64 length) {
    u8 *t = to;
    const u8 *f = from;
    while (length--) *t++ = *f++;
    return to;
}

void *memmove(void *to, const void *from, u64 length) {
    u8 *t = to;
    const u8 *f = from;
    if (t < f)
        while (length--) *t++ = *f++;
    else
        while (length--) t[length] = f[length];
    return to;
}

void *memset(void *to, int value, u64 length) {
    u8 *t = to;
    while (length--) *t++ = (u8)value;
    return to;
}

/* For the page. */
u64 jev_alloc(u64 size) {
    return take(size);
}

void jev_free(u64 block) {
    if (block) give(block);
}

/* The three functions that the crate calls, as the kit's heap has them: whether it went well, and the block. */
typedef struct {
    u64 is_there, block;
} taken;

taken rattle_alloc(u64 size, u64 align) {
    u64 block = align <= 16 ? take(size) : 0;
    return (taken){block != 0, block};
}

void rattle_dealloc(u64 block) {
    jev_free(block);
}

taken rattle_realloc(u64 block, u64 kept, u64 size, u64 align) {
    taken found = rattle_alloc(size, align);
    if (!found.is_there) return found;
    memcpy((void *)found.block, (const void *)block, kept < size ? kept : size);
    give(block);
    return found;
}

/* Products and shifts of 128 bits, of halves. */
typedef union {
    u128 whole;
    struct {
        u64 low, high;
    } half;
} halves;

u128 __multi3(u128 a, u128 b) {
    halves x = {a}, y = {b}, r;
    u64 a0 = x.half.low & 0xffffffff, a1 = x.half.low >> 32, b0 = y.half.low & 0xffffffff, b1 = y.half.low >> 32;
    u64 low = a0 * b0, cross = a0 * b1, other = a1 * b0;
    u64 middle = (low >> 32) + (cross & 0xffffffff) + (other & 0xffffffff);
    r.half.low = (low & 0xffffffff) | (middle << 32);
    r.half.high = a1 * b1 + (cross >> 32) + (other >> 32) + (middle >> 32);
    r.half.high += x.half.low * y.half.high + x.half.high * y.half.low;
    return r.whole;
}

u128 __ashlti3(u128 value, int count) {
    halves a = {value}, r = {value};
    if (count >= 64) {
        r.half.low = 0;
        r.half.high = a.half.low << (count - 64);
    } else if (count) {
        r.half.low = a.half.low << count;
        r.half.high = (a.half.high << count) | (a.half.low >> (64 - count));
    }
    return r.whole;
}

u128 __lshrti3(u128 value, int count) {
    halves a = {value}, r = {value};
    if (count >= 64) {
        r.half.high = 0;
        r.half.low = a.half.high >> (count - 64);
    } else if (count) {
        r.half.high = a.half.high >> count;
        r.half.low = (a.half.low >> count) | (a.half.high << (64 - count));
    }
    return r.whole;
}

__int128 __ashrti3(__int128 value, int count) {
    halves a = {(u128)value}, r = {(u128)value};
    long long high = (long long)a.half.high;
    if (count >= 64) {
        r.half.high = (u64)(high >> 63);
        r.half.low = (u64)(high >> (count - 64));
    } else if (count) {
        r.half.high = (u64)(high >> count);
        r.half.low = (a.half.low >> count) | (a.half.high << (64 - count));
    }
    return (__int128)r.whole;
}
