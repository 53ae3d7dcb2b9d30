// Shows that the header and the archive serve a C++ host.
#include <cstddef>
#include <cstdio>

#include "hifrostum.h"

static_assert(sizeof(hifrostum_fragment) == 2 * sizeof(std::size_t) && offsetof(hifrostum_fragment, offset) == 0 &&
                  offsetof(hifrostum_fragment, length) == sizeof(std::size_t),
              "a record is an offset and a length, each a size_t");

// The rules' UDP packet as two fragments, of 8 bytes and 2.
static const uint8_t two[50] = {
    0x45, 0, 0, 0x1C, 0, 0, 0x20, 0, 0x40, 0x11, 0xD8, 0xB8, 0xC0, 0xA8, 0, 1, 0xC0, 0xA8, 0, 0xC7,
    0x13, 0x88, 0x13, 0x89, 0, 0x0A, 0x0E, 0x47,
    0x45, 0, 0, 0x16, 0, 0, 0, 1, 0x40, 0x11, 0xF8, 0xBD, 0xC0, 0xA8, 0, 1, 0xC0, 0xA8, 0, 0xC7, 0x48, 0x69,
};

// Builds an empty datagram from a station to itself, first with no buffer. Answers whether it is as long as it must be,
// and good.
template <std::size_t N>
static bool builds(const uint8_t (&station)[N])
{
    uint8_t buffer[HIFROSTUM_PACKET_MOST];
    std::size_t length = 77;
    return hifrostum_build_udp(station, N, station, N, 5000, 5001, 64, nullptr, 0, nullptr, 0, &length) ==
               HIFROSTUM_ROOM &&
           length == 0 &&
           hifrostum_build_udp(station, N, station, N, 5000, 5001, 64, nullptr, 0, buffer, sizeof buffer, &length) ==
               HIFROSTUM_GOOD &&
           length == (N == 4 ? 28 : 48) && hifrostum_judge(buffer, length) == HIFROSTUM_GOOD;
}

int main()
{
    const hifrostum_fragment list[] = {{28, 22}, {0, 28}, {29, 22}};
    const uint8_t four[4] = {192, 168, 0, 1}, six[16] = {0xFD, 1, 2, 3};
    bool right = hifrostum_field(nullptr, 0) == 0xFFFF && hifrostum_judge(nullptr, 0) == HIFROSTUM_CUT &&
                 hifrostum_judge_fragments(two, 50, list, 2) == HIFROSTUM_GOOD &&
                 hifrostum_judge_fragments(two, 50, list, 1) == HIFROSTUM_FRAGMENT &&
                 hifrostum_judge_fragments(two, 50, list, 3) == HIFROSTUM_PLACE &&
                 hifrostum_judge_fragments(nullptr, 0, nullptr, 0) == HIFROSTUM_CUT && builds(four) && builds(six);
    std::puts(right ? "host: linked from C++" : "host: failed: called from C++");
    return right ? 0 : 1;
}
