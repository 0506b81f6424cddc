/* Frames to read: five of 10 ms that are accepted, in which every field is something else than 0 at least once, one of each
   other duration, and one for each cause. They are lines of the lists in tests/frame, whose README says where they come from. */
#include <stdio.h>

#include "check.h"

const sample samples[SAMPLES] = {
    {48, 40, "e6c71e10d52e1f58af46029a2e25b072347ff024",
     {.bandwidth = 4, .lsb_mode = 0, .gain = 255, .tns_flag_0 = 1, .tns_flag_1 = 1, .pitch_present = 1, .shape_low = 8,
      .shape_high = 3, .shape_mode = 1, .shape_gain = 0, .shape_sign = 1, .filter_flag = 1, .noise_level = 5,
      .tns_order_0 = 8, .tns_order_1 = 8, .tns_coefficients_0 = {8, 8, 8, 8, 8, 8, 8, 9},
      .tns_coefficients_1 = {8, 8, 8, 8, 8, 8, 8, 9}, .last_line = 10, .pitch_index = 104, .residual_bits = 8,
      .symbols = 27, .shape_joint = 7417219}},
    {48, 40, "dc6f60c97d42d2e435ab283bec57b1ec0fc1c432e60b0ad1c7e7b0594f5dc6bbfa50442aaf3d81dc",
     {.bandwidth = 4, .lsb_mode = 0, .gain = 216, .tns_flag_0 = 1, .tns_flag_1 = 1, .pitch_present = 0, .shape_low = 30,
      .shape_high = 10, .shape_mode = 1, .shape_gain = 2, .shape_sign = 0, .filter_flag = 0, .noise_level = 7,
      .tns_order_0 = 8, .tns_order_1 = 5, .tns_coefficients_0 = {6, 9, 6, 5, 7, 9, 7, 11},
      .tns_coefficients_1 = {14, 11, 4, 9, 7}, .last_line = 120, .pitch_index = 0, .residual_bits = 25, .symbols = 78,
      .shape_joint = 13795873}},
    {48, 40, "99da7c86aac6dbf9e135316605f7608ccdf03a2282af857dd0f2",
     {.bandwidth = 2, .lsb_mode = 0, .gain = 221, .tns_flag_0 = 1, .tns_flag_1 = 0, .pitch_present = 1, .shape_low = 21,
      .shape_high = 16, .shape_mode = 1, .shape_gain = 3, .shape_sign = 1, .filter_flag = 1, .noise_level = 7,
      .tns_order_0 = 6, .tns_order_1 = 0, .tns_coefficients_0 = {9, 11, 10, 7, 8, 7}, .last_line = 62,
      .pitch_index = 385, .residual_bits = 12, .symbols = 39, .shape_joint = 10627114}},
    {32, 40, "4dffa14280c85683fabb51385e56d0404eb28c51",
     {.bandwidth = 1, .lsb_mode = 1, .gain = 81, .tns_flag_0 = 0, .tns_flag_1 = 0, .pitch_present = 1, .shape_low = 21,
      .shape_high = 19, .shape_mode = 0, .shape_gain = 0, .shape_sign = 0, .filter_flag = 1, .noise_level = 1,
      .last_line = 42, .pitch_index = 389, .residual_bits = 0, .symbols = 23, .shape_joint = 26588176}},
    {32, 40, "349a8978436cd49b21c3e35123f555692bee8d6eaac487438d3924e180baa067ad7902838524e5db7a5bad7264e6a5a03c32204caf99e8d884223b",
     {.bandwidth = 3, .lsb_mode = 0, .gain = 132, .tns_flag_0 = 0, .tns_flag_1 = 0, .pitch_present = 0, .shape_low = 2,
      .shape_high = 27, .shape_mode = 0, .shape_gain = 0, .shape_sign = 0, .filter_flag = 0, .noise_level = 4,
      .last_line = 286, .pitch_index = 0, .residual_bits = 44, .symbols = 148, .shape_joint = 26604349}},
    {48, 10, "0c150c50c89c800000024b5ffab8594977ffa44c",
     {.bandwidth = 4, .lsb_mode = 0, .gain = 233, .tns_flag_0 = 1, .tns_flag_1 = 0, .pitch_present = 1, .shape_low = 31,
      .shape_high = 27, .shape_mode = 1, .shape_gain = 2, .shape_sign = 0, .filter_flag = 0, .noise_level = 5,
      .tns_order_0 = 4, .tns_order_1 = 0, .tns_coefficients_0 = {6, 10, 7, 6}, .last_line = 20, .pitch_index = 511,
      .residual_bits = 6, .symbols = 15, .shape_joint = 11408978}},
    {48, 20, "0ee12b910088000000000000000000000000000001001b2a16e452bea83c",
     {.bandwidth = 4, .lsb_mode = 0, .gain = 213, .tns_flag_0 = 1, .tns_flag_1 = 1, .pitch_present = 1, .shape_low = 10,
      .shape_high = 10, .shape_mode = 0, .shape_gain = 0, .shape_sign = 1, .filter_flag = 1, .noise_level = 4,
      .tns_order_0 = 4, .tns_order_1 = 3, .tns_coefficients_0 = {8, 8, 8, 8}, .tns_coefficients_1 = {15, 7, 7},
      .last_line = 16, .pitch_index = 0, .residual_bits = 0, .symbols = 17, .shape_joint = 23413468}},
    {48, 30, "8de6002f9265bd9573c600998ce350eb7b3af054",
     {.bandwidth = 4, .lsb_mode = 0, .gain = 175, .tns_flag_0 = 1, .tns_flag_1 = 1, .pitch_present = 0, .shape_low = 22,
      .shape_high = 23, .shape_mode = 1, .shape_gain = 2, .shape_sign = 0, .filter_flag = 0, .noise_level = 4,
      .tns_order_0 = 6, .tns_order_1 = 5, .tns_coefficients_0 = {8, 6, 8, 7, 7, 6}, .tns_coefficients_1 = {4, 5, 5, 2, 8},
      .last_line = 22, .pitch_index = 0, .residual_bits = 4, .symbols = 24, .shape_joint = 6756999}},
    {48, 40, "9e4fd32daaf8503b82c40d61d5d2051686cdb3b5", {.number = SILBERLAUS_BIT_ERROR, .cause = SILBERLAUS_CAUSE_BANDWIDTH}},
    {48, 40, "632d7079e65d38225ab5553e1e14a9d1878d7640", {.number = SILBERLAUS_BIT_ERROR, .cause = SILBERLAUS_CAUSE_LAST_LINE}},
    {8, 40, "184cf29a1677cffcd988d7c37affa3d630c55a26", {.number = SILBERLAUS_BIT_ERROR, .cause = SILBERLAUS_CAUSE_JOINT_INDEX}},
    {8, 40, "fffbff06343b34c482a93cd61a9216fda0444b81", {.number = SILBERLAUS_BIT_ERROR, .cause = SILBERLAUS_CAUSE_ARITHMETIC}},
    {8, 40, "ffed2fc1905bdd719c671a0e97fd604d4812ca9e", {.number = SILBERLAUS_BIT_ERROR, .cause = SILBERLAUS_CAUSE_ESCAPES}},
    {24, 40, "eeda81cbaed466db9e5553617fa88ed184ca4e50", {.number = SILBERLAUS_BIT_ERROR, .cause = SILBERLAUS_CAUSE_CROSSED}},
    {48, 40, "3104164624f610c7081854204e4380cb18280862", {.number = SILBERLAUS_BIT_ERROR, .cause = SILBERLAUS_CAUSE_NO_BITS}},
    {48, 10, "f74d71a4f35924354a034a1bf542efe1a56ceeea", {.number = SILBERLAUS_BIT_ERROR, .cause = SILBERLAUS_CAUSE_TNS_ORDER}},
};

size_t sample_bytes(const sample *s, uint8_t *bytes)
{
    size_t length = 0;
    unsigned byte;
    while (sscanf(s->hex + 2 * length, "%2x", &byte) == 1)
        bytes[length++] = (uint8_t)byte;
    return length;
}

#define FIELD(name) {offsetof(silberlaus_frame, name), sizeof ((silberlaus_frame *)0)->name}

const struct frame_field frame_fields[FRAME_FIELDS] = {
    FIELD(number), FIELD(cause), FIELD(bandwidth), FIELD(lsb_mode), FIELD(gain), FIELD(tns_flag_0), FIELD(tns_flag_1),
    FIELD(pitch_present), FIELD(shape_low), FIELD(shape_high), FIELD(shape_mode), FIELD(shape_gain), FIELD(shape_sign),
    FIELD(filter_flag), FIELD(noise_level), FIELD(tns_order_0), FIELD(tns_order_1), FIELD(tns_coefficients_0),
    FIELD(tns_coefficients_1), FIELD(last_line), FIELD(pitch_index), FIELD(residual_bits), FIELD(symbols),
    FIELD(shape_joint),
};
