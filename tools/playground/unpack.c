/* Unpacks what tools/playground/pack has packed: characters that a page keeps as they are, which stand for the bits of a raw
 * LZMA stream (whose bits of place are 0). It is a module of its own, without imports, and calls nothing. A text that is
 * broken is refused: nothing is read or written beyond its places, and the sum of what comes out is compared. */
#ifdef __wasm__
/* (the kit has no headers) */
typedef _Bool bool;
typedef __SIZE_TYPE__ size_t;
typedef __UINT8_TYPE__ uint8_t;
typedef __UINT16_TYPE__ uint16_t;
typedef __UINT32_TYPE__ uint32_t;
#define true 1
#define false 0
#else
#include <stdbool.h>
#include <stddef.h>
#include <stdint.h>
#endif

enum {
    LITERAL_BITS = 4, /* so many high bits of the byte before choose how a byte is coded */
    EVEN = 1024,      /* of 2048: a bit of which nothing is known */
    LEAST = 2,        /* the shortest piece that is copied */
    LAST_LITERAL = 6, /* in states up to this one a byte came last */
    SUM = 65521
};

typedef uint16_t chance; /* that a bit is 0, of 2048 */

struct lengths {
    chance is_longer, is_longest, low[8], middle[8], high[256];
};

/* All that is learnt of the bits that came. */
static struct {
    chance is_copy[12], is_again[12], is_other[12], is_long[12], is_third[12], is_fourth[12];
    chance literals[1 << LITERAL_BITS][3 * 256];
    chance slots[4][64], places[14][32], aligned[16];
    struct lengths first, again;
} chances;

static const uint8_t *text, *text_end;
static uint32_t held, held_bits, range, code;
static bool ended;

/* The next byte that the characters stand for. Behind the last one zeros are read, and `ended` says so. */
static uint32_t next_byte(void) {
    static const uint8_t unsafe[] = {0, 10, 13, 60};
    while (held_bits < 8) {
        uint32_t character = text < text_end ? *text++ : (ended = true, 0);
        if (character >= 128) {
            /* (two bytes of UTF-8: seven bits of a kind that can't stand in a page, and seven more) */
            uint32_t wide = (character & 31) << 6 | (text < text_end ? *text++ & 63u : 0);
            held = held << 7 | unsafe[(wide / 128 - 1) & 3];
            held_bits += 7;
            character = wide & 127;
        }
        held = held << 7 | character;
        held_bits += 7;
    }
    held_bits -= 8;
    return held >> held_bits & 255;
}

static void refill(void) {
    if (range >> 24 != 0) return;
    range <<= 8;
    code = code << 8 | next_byte();
}

static uint32_t bit(chance *zero) {
    uint32_t bound = (range >> 11) * *zero, is_one = code >= bound;
    if (is_one) {
        range -= bound;
        code -= bound;
        *zero -= *zero >> 5;
    } else {
        range = bound;
        *zero += (2048 - *zero) >> 5;
    }
    refill();
    return is_one;
}

/* Bits of which nothing is learnt. */
static uint32_t even_bits(uint32_t many) {
    uint32_t number = 0;
    for (; many > 0; many--) {
        uint32_t is_one;
        range >>= 1;
        is_one = code >= range;
        if (is_one) code -= range;
        number = number << 1 | is_one;
        refill();
    }
    return number;
}

/* A number of so many bits, the highest first, or the lowest first. */
static uint32_t number(chance *tree, uint32_t bits) {
    uint32_t node = 1, left = bits;
    for (; left > 0; left--) node = node << 1 | bit(&tree[node]);
    return node - (1u << bits);
}

static uint32_t reversed_number(chance *tree, uint32_t bits) {
    uint32_t node = 1, found = 0, place;
    for (place = 0; place < bits; place++) {
        uint32_t one = bit(&tree[node]);
        node = node << 1 | one;
        found |= one << place;
    }
    return found;
}

static uint32_t length_by(struct lengths *by) {
    if (!bit(&by->is_longer)) return LEAST + number(by->low, 3);
    if (!bit(&by->is_longest)) return LEAST + 8 + number(by->middle, 3);
    return LEAST + 16 + number(by->high, 8);
}

/* How far back a piece begins, from 0. */
static uint32_t distance(uint32_t length) {
    uint32_t slot = number(chances.slots[length < LEAST + 3 ? length - LEAST : 3], 6);
    uint32_t bits = slot / 2 - 1, first = (2 | (slot & 1)) << (bits & 31);
    if (slot < 4) return slot;
    if (slot < 14) return first + reversed_number(chances.places[slot], bits);
    first += even_bits(bits - 4) << 4;
    return first + reversed_number(chances.aligned, 4);
}

/* A byte behind the one before. Behind a copied piece it is coded by the byte that would go on with it. */
static uint8_t literal(uint32_t before, uint32_t likely, bool is_behind_copy) {
    chance *by = chances.literals[before >> (8 - LITERAL_BITS)];
    uint32_t node = 1;
    while (node < 256) {
        uint32_t one, other;
        likely <<= 1;
        other = is_behind_copy ? 256 + (likely & 256) : 0;
        one = bit(&by[other + node]);
        node = node << 1 | one;
        if ((likely >> 8 & 1) != one) is_behind_copy = false;
    }
    return (uint8_t)node;
}

static void begin(const uint8_t *at, size_t length) {
    chance *each = (chance *)&chances;
    size_t place;
    for (place = 0; place < sizeof chances / sizeof *each; place++) each[place] = EVEN;
    text = at;
    text_end = at + length;
    held = held_bits = code = 0;
    range = 0xffffffffu;
    ended = false;
    /* (the first byte of a stream is 0) */
    for (place = 0; place < 5; place++) code = code << 8 | next_byte();
}

/* The sum of Adler-32. */
static uint32_t sum_of(const uint8_t *bytes, size_t length) {
    uint32_t first = 1, second = 0;
    size_t place;
    for (place = 0; place < length; place++) {
        first = (first + bytes[place]) % SUM;
        second = (second + first) % SUM;
    }
    return second << 16 | first;
}

/* How far back each of the last four pieces began, from 0, the last one first. */
static uint32_t back[4];

/* Another one of the last four becomes the last. */
static void take_again(uint32_t state) {
    uint32_t which = !bit(&chances.is_third[state]) ? 1 : 2 + bit(&chances.is_fourth[state]);
    uint32_t taken = back[which];
    for (; which > 0; which--) back[which] = back[which - 1];
    back[0] = taken;
}

/* Where a piece begins that is copied, into `back`, and how long it is. */
static uint32_t piece(uint32_t *state) {
    uint32_t length, before = *state;
    bool is_behind_byte = before <= LAST_LITERAL;
    if (!bit(&chances.is_again[before])) {
        length = length_by(&chances.first);
        back[3] = back[2], back[2] = back[1], back[1] = back[0];
        back[0] = distance(length);
        *state = is_behind_byte ? 7 : 10;
        return length;
    }
    if (bit(&chances.is_other[before])) {
        take_again(before);
    } else if (!bit(&chances.is_long[before])) {
        *state = is_behind_byte ? 9 : 11;
        return 1;
    }
    *state = is_behind_byte ? 8 : 11;
    return length_by(&chances.again);
}

/* Unpacks a text to so many bytes, which have this sum. */
bool unpack(const uint8_t *packed, size_t packed_length, uint8_t *bytes, size_t length, uint32_t sum) {
    uint32_t state = 0;
    size_t made = 0;
    begin(packed, packed_length);
    back[0] = back[1] = back[2] = back[3] = 0;
    while (made < length) {
        if (!bit(&chances.is_copy[state])) {
            uint8_t likely = back[0] < made ? bytes[made - back[0] - 1] : 0;
            bytes[made] = literal(made > 0 ? bytes[made - 1] : 0, likely, state > LAST_LITERAL);
            made++;
            state = state < 4 ? 0 : state < 10 ? state - 3 : state - 6;
        } else {
            uint32_t many = piece(&state);
            if (back[0] >= made || many > length - made) return false;
            for (; many > 0; many--, made++) bytes[made] = bytes[made - back[0] - 1];
        }
    }
    return !ended && sum_of(bytes, length) == sum;
}
