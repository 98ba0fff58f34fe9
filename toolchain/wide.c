/* The calls that LLVM makes for numbers of 128 bits; compilers for other targets bring them along. */

typedef unsigned long long word;
typedef unsigned __int128 wide;

typedef union halves {
    wide whole;
    struct {
        word low, high;
    };
} halves;

wide __multi3(wide x, wide y);
wide __ashlti3(wide x, int count);
wide __lshrti3(wide x, int count);

/* By four products of halves of words. */
wide __multi3(wide x, wide y) {
    halves a = {x}, b = {y}, product;
    word a_low = a.low & 0xffffffff, a_high = a.low >> 32;
    word b_low = b.low & 0xffffffff, b_high = b.low >> 32;
    word first = a_low * b_low;
    word second = a_high * b_low + (first >> 32);
    word third = a_low * b_high + (second & 0xffffffff);
    product.low = third << 32 | (first & 0xffffffff);
    product.high = a_high * b_high + (second >> 32) + (third >> 32) + a.low * b.high + a.high * b.low;
    return product.whole;
}

wide __ashlti3(wide x, int count) {
    halves a = {x}, shifted;
    int bits = count & 63;
    if (count & 64) {
        shifted.low = 0;
        shifted.high = a.low << bits;
    } else {
        shifted.low = a.low << bits;
        shifted.high = a.high << bits | a.low >> 1 >> (63 - bits);
    }
    return shifted.whole;
}

wide __lshrti3(wide x, int count) {
    halves a = {x}, shifted;
    int bits = count & 63;
    if (count & 64) {
        shifted.low = a.high >> bits;
        shifted.high = 0;
    } else {
        shifted.low = a.low >> bits | a.high << 1 << (63 - bits);
        shifted.high = a.high >> bits;
    }
    return shifted.whole;
}
