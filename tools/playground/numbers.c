/* What there is no instruction for in WebAssembly: products and shifts of numbers of 128 bits, by halves of 64 bits. */
#ifdef __wasm__
typedef __INT32_TYPE__ int32_t;
typedef __UINT32_TYPE__ uint32_t;
typedef __INT64_TYPE__ int64_t;
typedef __UINT64_TYPE__ uint64_t;
#else
#include <stdint.h>
#endif

union halves {
    __int128 whole;
    struct {
        uint64_t low, high;
    } of;
};

/* The low 128 bits of a product. */
__int128 __multi3(__int128 left, __int128 right) {
    union halves a = {left}, b = {right}, product;
    uint64_t a_low = (uint32_t)a.of.low, a_high = a.of.low >> 32;
    uint64_t b_low = (uint32_t)b.of.low, b_high = b.of.low >> 32;
    uint64_t lowest = a_low * b_low, first = a_high * b_low + (lowest >> 32), second = a_low * b_high + (uint32_t)first;
    product.of.low = second << 32 | (uint32_t)lowest;
    product.of.high = a_high * b_high + (first >> 32) + (second >> 32) + a.of.high * b.of.low + a.of.low * b.of.high;
    return product.whole;
}

/* A shift to the left, by 0 to 127 bits. */
__int128 __ashlti3(__int128 number, int32_t by) {
    union halves a = {number}, shifted;
    if (by == 0) return number;
    shifted.of.low = by < 64 ? a.of.low << by : 0;
    shifted.of.high = by < 64 ? a.of.high << by | a.of.low >> (64 - by) : a.of.low << (by - 64);
    return shifted.whole;
}

/* Shifts to the right, by 0 to 127 bits: with zeros from the left, and with the sign. */
__int128 __lshrti3(__int128 number, int32_t by) {
    union halves a = {number}, shifted;
    if (by == 0) return number;
    shifted.of.high = by < 64 ? a.of.high >> by : 0;
    shifted.of.low = by < 64 ? a.of.low >> by | a.of.high << (64 - by) : a.of.high >> (by - 64);
    return shifted.whole;
}

__int128 __ashrti3(__int128 number, int32_t by) {
    union halves a = {number}, shifted;
    uint64_t sign = (uint64_t)((int64_t)a.of.high >> 63);
    if (by == 0) return number;
    shifted.of.high = by < 64 ? (uint64_t)((int64_t)a.of.high >> by) : sign;
    shifted.of.low = by < 64 ? a.of.low >> by | a.of.high << (64 - by) : (uint64_t)((int64_t)a.of.high >> (by - 64));
    return shifted.whole;
}
