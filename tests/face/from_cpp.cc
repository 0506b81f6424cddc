// The header as C++ takes it: a slot is protected, damaged, unprotected, its frame kept in a record and read there, and the
// record moved to form 1 and back. A frame is written and read. Two slots are unprotected at once.
#include <algorithm>
#include <array>
#include <cstdio>

#include "silberlaus.h"

static bool written_and_read()
{
    std::array<uint8_t, SILBERLAUS_FRAME_MIN> small{};
    std::array<int32_t, SILBERLAUS_LINES_MAX> lines{};
    std::array<uint8_t, SILBERLAUS_LINES_MAX> bits{};
    silberlaus_frame f{};
    f.last_line = 2;
    f.gain = 200;
    f.residual_bits = 1;
    lines[1] = -3;
    silberlaus_written w = silberlaus_write_frame(48, 40, f, lines.data(), lines.size(), bits.data(), bits.size(),
                                                  small.data(), small.size());
    lines.fill(0);
    f = silberlaus_read_frame(48, 40, small.data(), small.size(), lines.data(), lines.size(), bits.data(), bits.size());
    return w.number == SILBERLAUS_ACCEPTED && w.residual_bits == 1 && f.number == SILBERLAUS_ACCEPTED && f.last_line == 2
           && f.gain == 200 && f.residual_bits == 1 && lines[0] == 0 && lines[1] == -3;
}

// The damaged slot, and zeros, which are no slot.
static bool two_at_once(const std::array<uint8_t, SILBERLAUS_SLOT_MAX> &slot,
                        const std::array<uint8_t, SILBERLAUS_SLOT_FRAME_MAX> &frame)
{
    std::array<uint8_t, 2 * SILBERLAUS_SLOT_MAX> slots{};
    std::array<uint8_t, 2> numbers{}, requests{};
    std::array<uint16_t, 2> semi_octets{}, bits{};
    std::array<uint8_t, 2 * SILBERLAUS_SLOT_FRAME_MAX> frames{};
    std::copy(slot.begin(), slot.end(), slots.begin());
    uint8_t number = silberlaus_unprotect_each(slot.size(), 2, slots.data(), slots.size(), numbers.data(), numbers.size(),
                                               requests.data(), requests.size(), semi_octets.data(), semi_octets.size(),
                                               bits.data(), bits.size(), frames.data(), frames.size());
    return number == SILBERLAUS_ACCEPTED && numbers[0] == SILBERLAUS_ACCEPTED && numbers[1] != SILBERLAUS_ACCEPTED
           && requests[0] == 1 && semi_octets[0] == 1 && bits[0] == 1 && std::equal(frame.begin(), frame.end(), frames.begin());
}

int main()
{
    std::array<uint8_t, SILBERLAUS_SLOT_MAX> slot{};
    std::array<uint8_t, SILBERLAUS_SLOT_FRAME_MAX> frame{}, back{};
    std::array<uint8_t, 512> record{}, in_form_1{}, in_form_2{};
    uint8_t number = silberlaus_protect(slot.size(), 2, 1, frame.data(), frame.size(), slot.data(), slot.size());
    slot[0] ^= 1;
    silberlaus_unprotected u = silberlaus_unprotect(slot.size(), 2, slot.data(), slot.size(), back.data(), back.size());
    uint8_t made = silberlaus_record_new(2, record.data(), record.size());
    silberlaus_added a = silberlaus_record_add(record.data(), record.size(), SILBERLAUS_RECORD_MIN_2, back.data(), back.size(),
                                               u.request, u.semi_octets, u.bits, SILBERLAUS_SLOT_FRAME_MAX);
    silberlaus_entry e = silberlaus_record_entry(2, record.data(), a.used, 0);
    silberlaus_added to_1 = silberlaus_record_to_form_1(record.data(), a.used, in_form_1.data(), in_form_1.size());
    silberlaus_added to_2 = silberlaus_record_to_form_2(in_form_1.data(), to_1.used, in_form_2.data(), in_form_2.size());
    silberlaus_entry o = silberlaus_record_entry(1, in_form_1.data(), to_1.used, 0);
    std::array<int32_t, SILBERLAUS_LINES_MAX> spectrum{};
    std::array<uint8_t, SILBERLAUS_LINES_MAX> residual{};
    size_t lines = silberlaus_line_count(48, 40);
    silberlaus_frame f = silberlaus_read_frame(48, 40, back.data(), back.size(), spectrum.data(), lines, residual.data(), lines);
    silberlaus_frame g = silberlaus_read_entry(2, record.data(), a.used, 0, 48, 40, spectrum.data(), lines, residual.data(), lines);
    bool right = number == SILBERLAUS_ACCEPTED && u.number == SILBERLAUS_ACCEPTED && u.request == 1 && u.semi_octets == 1
                 && u.bits == 1 && back == frame && made == SILBERLAUS_ACCEPTED
                 && a.number == SILBERLAUS_ACCEPTED && a.used == 354
                 && silberlaus_record_entries(2, record.data(), a.used).entries == 1 && e.length == 343 && e.count == 1
                 && e.bits == 1 && silberlaus_record_entry(2, record.data(), a.used, 1).number == SILBERLAUS_BAD_SETTING
                 && to_1.used == 351 && o.length == 343 && o.bits == SILBERLAUS_BITS_UNKNOWN && to_2.used == a.used
                 && lines == spectrum.size() && f.number == g.number && f.cause == g.cause
                 && written_and_read() && two_at_once(slot, frame);
    std::puts(right ? "from C++: as it should be" : "from C++: WRONG");
    return right ? 0 : 1;
}
