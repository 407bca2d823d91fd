// The two functions of peers.rs once more, for g++ to build.
#include <stdint.h>

namespace {

// Multiplier and increment of twice as many steps.
void twice(uint64_t &multiplier, uint64_t &increment) {
    increment = (multiplier + 1) * increment;
    multiplier *= multiplier;
}

} // namespace

extern "C" uint64_t peer_advance(uint64_t multiplier, uint64_t increment, uint64_t seed, uint64_t delta) {
    uint64_t factor = 1, summand = 0;
    while (delta > 0) {
        if (delta & 1) {
            factor *= multiplier;
            summand = summand * multiplier + increment;
        }
        twice(multiplier, increment);
        delta >>= 1;
    }
    return factor * seed + summand;
}

extern "C" uint64_t peer_distance(uint64_t multiplier, uint64_t increment, uint64_t state, uint64_t number) {
    uint64_t bit = 1, index = 0;
    while (state != number) {
        if ((state & bit) != (number & bit)) {
            state = state * multiplier + increment;
            index |= bit;
        }
        twice(multiplier, increment);
        bit <<= 1;
    }
    return index;
}
