// The copies and fills of the WebAssembly module. A browser calls a function of its own for each memory.copy and
// memory.fill, so short ones are made by loads and stores here. Nothing proves them; tools/check module tries them.
typedef unsigned char u8;
typedef unsigned long long u64;
// Eight bytes at any address.
typedef u64 __attribute__((aligned(1), may_alias)) Word;

#define SHORT 512

void *memmove(void *to, const void *from, u64 n) {
    u8 *a = to;
    const u8 *b = from;
    if (n > SHORT) {
        __builtin_memmove(a, b, n); // memory.copy
    } else if (a <= b || a >= b + n) {
        // No byte is overwritten before it is read. This holds of words too, because each is read before it is written.
        for (; n >= 8; n -= 8, a += 8, b += 8) {
            *(Word *)a = *(const Word *)b;
        }
        for (; n; n--) {
            *a++ = *b++;
        }
    } else {
        while (n--) {
            a[n] = b[n];
        }
    }
    return to;
}

void *memcpy(void *to, const void *from, u64 n) { return memmove(to, from, n); }

void *memset(void *to, int value, u64 n) {
    u8 *a = to;
    if (n > SHORT) {
        __builtin_memset(a, value, n); // memory.fill
        return to;
    }
    for (; n >= 8; n -= 8, a += 8) {
        *(Word *)a = (u8)value * 0x0101010101010101ULL;
    }
    for (; n; n--) {
        *a++ = (u8)value;
    }
    return to;
}
