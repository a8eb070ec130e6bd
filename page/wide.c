// Sums of 128 bits, which WebAssembly lacks: the functions that clang calls for them. Nothing proves this file.
#include "host.h"

typedef unsigned __int128 wide;

union halves {
    wide whole;
    struct {
        uint64_t low, high;
    };
};

static wide whole(uint64_t low, uint64_t high) { return (union halves){.low = low, .high = high}.whole; }

wide __ashlti3(wide value, int by) {
    union halves it = {value};
    if (by == 0) return value;
    if (by >= 64) return whole(0, it.low << (by - 64));
    return whole(it.low << by, it.high << by | it.low >> (64 - by));
}

wide __lshrti3(wide value, int by) {
    union halves it = {value};
    if (by == 0) return value;
    if (by >= 64) return whole(it.high >> (by - 64), 0);
    return whole(it.low >> by | it.high << (64 - by), it.high >> by);
}

// By halves of 32 bits, whose products fit in 64.
wide __multi3(wide one, wide other) {
    union halves a = {one}, b = {other};
    uint64_t half = 0xffffffff;
    uint64_t low = (a.low & half) * (b.low & half);
    uint64_t middle = (a.low >> 32) * (b.low & half) + (low >> 32);
    uint64_t second = (a.low & half) * (b.low >> 32) + (middle & half);
    uint64_t high = (a.low >> 32) * (b.low >> 32) + (middle >> 32) + (second >> 32);
    return whole((low & half) | second << 32, high + a.high * b.low + a.low * b.high);
}

// Divides bit by bit, from the highest, and leaves what remains in `rest`.
static wide divide(wide value, wide by, wide *rest) {
    union halves it = {value}, divisor = {by}, quotient = {0}, left = {0};
    if (it.high == 0 && divisor.high == 0) {
        *rest = it.low % divisor.low;
        return it.low / divisor.low;
    }
    for (int bit = 127; bit >= 0; bit--) {
        uint64_t next = (bit >= 64 ? it.high >> (bit - 64) : it.low >> bit) & 1;
        uint64_t beyond = left.high >> 63;
        left.whole = whole(left.low << 1 | next, left.high << 1 | left.low >> 63);
        if (beyond == 0 && left.whole < by) continue;
        left.whole -= by;
        if (bit >= 64) quotient.high |= (uint64_t)1 << (bit - 64);
        else quotient.low |= (uint64_t)1 << bit;
    }
    *rest = left.whole;
    return quotient.whole;
}

wide __udivti3(wide value, wide by) {
    wide rest;
    return divide(value, by, &rest);
}

wide __umodti3(wide value, wide by) {
    wide rest;
    divide(value, by, &rest);
    return rest;
}
