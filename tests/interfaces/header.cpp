// The header as C++ takes it: a sample is opened, fed with null pieces of no length, asked for its record's length and
// for its index, and refused; a record that is none is verified.
#include <cstdint>

#include "carolsedge.h"

int main()
{
    static carolsedge_sample sample;
    std::uint64_t value = 7;
    struct carolsedge_index index = {7, 8, 9};
    if (carolsedge_sample_open(&sample, 640, 29, 40000, 256, 1) != CAROLSEDGE_REFUSED_SIZE) return 1;
    if (carolsedge_sample_feed_capture(&sample, nullptr, 0, &value) != CAROLSEDGE_REFUSED_SIZE || value != 0) return 2;
    if (carolsedge_sample_open(&sample, 640, 480, 40000, 256, CAROLSEDGE_NEWEST_EDITION) != CAROLSEDGE_DONE) return 3;
    if (carolsedge_sample_feed_capture(&sample, nullptr, 0, &value) != CAROLSEDGE_DONE || value != 0) return 4;
    if (carolsedge_sample_feed_luma(&sample, nullptr, 0, &value) != CAROLSEDGE_DONE || value != 0) return 5;
    if (carolsedge_sample_seal(&sample, nullptr, 0, &value) != CAROLSEDGE_REFUSED_CAPTURE_INSIDE || value != 0)
        return 6;
    carolsedge_sample_index(&sample, &index, &value);
    if (index.ic != 7 || index.ip != 8 || index.value != 9 || value != 0) return 7;
    if (carolsedge_sample_index(&sample, &index, &value) != CAROLSEDGE_REFUSED_NO_PACKET) return 8;
    const std::uint8_t nothing = 0;
    struct carolsedge_verdict verdict = {1, 2, 3, 4, 5, 6, 7, 8, {7, 8, 9}};
    if (carolsedge_verify(&nothing, 1, &verdict) != CAROLSEDGE_REFUSED_SHORT || verdict.mark != 1) return 9;
    return 0;
}
