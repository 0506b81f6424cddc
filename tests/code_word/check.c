/* Runs the compiled crate code_word (word_calls.h) against what search.c says is right: answers, counts of semi-octets and
   of bits, the words left, and the bytes around every buffer that is lent.

     check [SEED [SYNDROMES]]    SYNDROMES: how many of mode 4's 16,777,216 are tried at each length (100,000)

   A line for each group says how many cases it had. It ends with status 1 at the end of the first group with a wrong
   answer. */
#include <inttypes.h>
#include <stdio.h>
#include <stdlib.h>
#include <string.h>

#include "../common/cases.h"
#include "../common/said.h"
#include "search.h"
#include "word_calls.h"

enum { ROOM = LENT };

static const uint32_t modes[] = {2, 3, 4};
static const uint32_t no_modes[] = {0, 1, 5, 6, 16, 255, 256, 258, 259, 260, 65538, 0x80000002u, 4294967295u};

static void show(const char *what, const uint8_t *bytes, size_t length)
{
    said(printf("    %s", what));
    for (size_t k = 0; k < length && k < 64; k++)
        said(printf(" %u", bytes[k]));
    said(printf("\n"));
}

/* Counts a case, and shows the first wrong ones of a group; whether it was shown. */
static int judge(int right, const char *call, uint32_t mode, const uint8_t *lent, const uint8_t *left,
                 const uint8_t *wanted, size_t length)
{
    if (!case_shown(right))
        return 0;
    said(printf("  WRONG: %s, mode %" PRIu32 ", length %zu\n", call, mode, length));
    show("lent  ", lent, length);
    show("left  ", left, length);
    show("wanted", wanted, length);
    return 1;
}

/* ---- what is right */
static int fits(size_t length, uint32_t mode)
{
    return 2 <= mode && mode <= 4 && 2 * mode - 2 <= length && length <= LONGEST;
}

static int semi_octets(const uint8_t *bytes, size_t length)
{
    for (size_t k = 0; k < length; k++)
        if (bytes[k] > 15)
            return 0;
    return 1;
}

static uint8_t make_wanted(uint8_t *word, size_t length, uint32_t mode)
{
    size_t checks = 2 * (size_t)mode - 2;
    if (!fits(length, mode) || !semi_octets(word + checks, length - checks))
        return 1;
    uint8_t rest[6];
    memset(word, 0, checks);
    search_rest(word, length, mode, rest);
    memcpy(word, rest, checks);
    return 0;
}

/* In how many bits two words differ. */
static uint8_t differing_bits(const uint8_t *a, const uint8_t *b, size_t length)
{
    uint8_t bits = 0;
    for (size_t k = 0; k < length; k++)
        for (unsigned j = 0; j < 4; j++)
            bits += (a[k] >> j & 1) != (b[k] >> j & 1);
    return bits;
}

static word_answer correct_wanted(uint8_t *word, size_t length, uint32_t mode)
{
    if (!fits(length, mode) || !semi_octets(word, length))
        return (word_answer){1, 0, 0};
    uint8_t received[LONGEST];
    pattern found;
    if (!search_changes(search_syndrome(word, length, mode), length, mode, &found))
        return (word_answer){3, 0, 0};
    memcpy(received, word, length);
    for (unsigned i = 0; i < found.count; i++)
        word[found.place[i]] ^= found.value[i];
    return (word_answer){0, (uint8_t)found.count, differing_bits(received, word, length)};
}

/* The length of word i, where words_len semi-octets are dealt out in turn to counts_len words. */
static size_t dealt(size_t words_len, size_t counts_len, size_t i)
{
    size_t length = 0;
    for (size_t k = i; k < words_len; k += counts_len)
        length++;
    return length;
}

static uint8_t each_wanted(uint8_t *words, size_t words_len, uint32_t mode, uint8_t *counts, size_t counts_len,
                           uint8_t *bits, size_t bits_len)
{
    if (counts_len == 0 || bits_len != counts_len || !semi_octets(words, words_len))
        return 1;
    for (size_t i = 0; i < counts_len; i++)
        if (!fits(dealt(words_len, counts_len, i), mode))
            return 1;
    for (size_t i = 0, at = 0; i < counts_len; at += dealt(words_len, counts_len, i), i++) {
        word_answer a = correct_wanted(words + at, dealt(words_len, counts_len, i), mode);
        counts[i] = a.number == 0 ? a.count : (uint8_t)mode;
        bits[i] = a.bits;
    }
    return 0;
}

static int valid(const uint8_t *word, size_t length, uint32_t mode)
{
    static const uint8_t zeros[6];
    uint8_t rest[6];
    search_rest(word, length, mode, rest);
    return search_syndrome(word, length, mode) == 0 && memcmp(rest, zeros, 2 * mode - 2) == 0;
}

/* ---- one call with guarded buffers, beside what is right */
static buffer lent_words, wanted_words, lent_counts, wanted_counts, lent_bits, wanted_bits;

static void try_make(const uint8_t *from, size_t length, uint32_t mode)
{
    uint8_t *word = guarded(&lent_words, from, length), *wanted = guarded(&wanted_words, from, length);
    uint8_t want = make_wanted(wanted, length, mode), got = word_make(word, length, mode);
    int right = got == want && same(&lent_words, &wanted_words, length);
    if (want == 0)
        right = right && valid(word, length, mode);
    judge(right, "word_make", mode, from, word, wanted, length);
}

static void try_correct(const uint8_t *from, size_t length, uint32_t mode)
{
    uint8_t *word = guarded(&lent_words, from, length), *wanted = guarded(&wanted_words, from, length);
    word_answer want = correct_wanted(wanted, length, mode), got = word_correct(word, length, mode);
    int right = got.number == want.number && got.count == want.count && got.bits == want.bits
                && same(&lent_words, &wanted_words, length);
    if (want.number == 0)
        right = right && valid(word, length, mode);
    if (judge(right, "word_correct", mode, from, word, wanted, length))
        said(printf("    number %u, count %u, bits %u; wanted %u, %u, %u\n", got.number, got.count, got.bits, want.number,
                    want.count, want.bits));
}

static void try_each(const uint8_t *from, size_t words_len, uint32_t mode, size_t counts_len, size_t bits_len)
{
    static uint8_t before[ROOM], before_bits[ROOM];
    random_bytes(before, counts_len);
    random_bytes(before_bits, bits_len);
    uint8_t *words = guarded(&lent_words, from, words_len), *wanted = guarded(&wanted_words, from, words_len);
    uint8_t *counts = guarded(&lent_counts, before, counts_len), *want_counts = guarded(&wanted_counts, before, counts_len);
    uint8_t *bits = guarded(&lent_bits, before_bits, bits_len), *want_bits = guarded(&wanted_bits, before_bits, bits_len);
    uint8_t want = each_wanted(wanted, words_len, mode, want_counts, counts_len, want_bits, bits_len);
    uint8_t got = word_correct_each(words, words_len, mode, counts, counts_len, bits, bits_len);
    int right = got == want && same(&lent_words, &wanted_words, words_len) && same(&lent_counts, &wanted_counts, counts_len)
                && same(&lent_bits, &wanted_bits, bits_len);
    if (!judge(right, "word_correct_each", mode, from, words, wanted, words_len))
        return;
    said(printf("    number %u; wanted %u\n", got, want));
    show("counts", counts, counts_len);
    show("wanted", want_counts, counts_len);
    show("bits  ", bits, bits_len);
    show("wanted", want_bits, bits_len);
}

/* ---- words to try */
static void random_elements(uint8_t *word, size_t length)
{
    for (size_t k = 0; k < length; k++)
        word[k] = (uint8_t)below(16);
}

/* A valid word of random data, made by search.c and not by the archive. */
static void valid_word(uint8_t *word, size_t length, uint32_t mode)
{
    random_elements(word, length);
    make_wanted(word, length, mode);
}

/* Changes that many different places. */
static void change(uint8_t *word, size_t length, unsigned places)
{
    uint8_t changed[LONGEST] = {0};
    while (places > 0) {
        size_t k = below((uint32_t)length);
        if (changed[k])
            continue;
        changed[k] = 1;
        word[k] ^= (uint8_t)(1 + below(15));
        places--;
    }
}

/* ---- the groups */

/* The first 2 m - 2 semi-octets of a valid word, changed in every way, give each syndrome once: i says in which. */
static void try_syndrome(size_t length, uint32_t mode, uint32_t i, uint8_t *seen)
{
    uint8_t word[LONGEST];
    valid_word(word, length, mode);
    for (unsigned k = 0; k < 2 * mode - 2; k++)
        word[k] ^= i >> 4 * k & 15;
    uint32_t s = search_syndrome(word, length, mode);
    wrong += seen[s];
    seen[s] = 1;
    try_correct(word, length, mode);
}

static void syndromes(uint32_t mode, uint32_t wanted)
{
    char name[100];
    uint32_t all = 1u << 4 * (2 * mode - 2), tried = wanted < all ? wanted : all;
    for (size_t length = 13; length <= LONGEST; length++) {
        uint8_t *seen = calloc(all, 1);
        if (seen == NULL)
            exit(2);
        /* an odd step visits different numbers, and all of them in `all` steps */
        uint32_t step = next() | 1, i = next();
        for (uint32_t k = 0; k < tried; k++, i += step)
            try_syndrome(length, mode, i % all, seen);
        free(seen);
        snprintf(name, sizeof name, "correct: %s, mode %" PRIu32 ", length %zu",
                 tried == all ? "every syndrome" : "different syndromes", mode, length);
        group_ends(name);
    }
}

static void patterns_from(uint8_t *word, size_t length, uint32_t mode, size_t first, unsigned left)
{
    try_correct(word, length, mode);
    if (left == 0)
        return;
    for (size_t k = first; k < length; k++)
        for (uint8_t v = 1; v < 16; v++) {
            word[k] ^= v;
            patterns_from(word, length, mode, k + 1, left - 1);
            word[k] ^= v;
        }
}

static void every_pattern(uint32_t mode)
{
    char name[100];
    for (size_t length = 13; length <= LONGEST; length++) {
        uint8_t word[LONGEST];
        valid_word(word, length, mode);
        patterns_from(word, length, mode, 0, mode - 1);
        snprintf(name, sizeof name, "correct: every pattern of at most %" PRIu32 " changes, mode %" PRIu32 ", length %zu",
                 mode - 1, mode, length);
        group_ends(name);
    }
}

static void random_words(void)
{
    uint8_t word[LONGEST];
    for (size_t m = 0; m < COUNT(modes); m++)
        for (size_t length = 2 * modes[m] - 2; length <= LONGEST; length++)
            for (unsigned i = 0; i < 5000; i++) {
                random_elements(word, length);
                try_correct(word, length, modes[m]);
            }
    group_ends("correct: random words, every length of every mode");
    for (size_t m = 0; m < COUNT(modes); m++)
        for (size_t length = 2 * modes[m] - 2; length <= LONGEST; length++)
            for (unsigned i = 0; i < 5000; i++) {
                unsigned places = i % (modes[m] + 2);
                valid_word(word, length, modes[m]);
                change(word, length, places < length ? places : (unsigned)length);
                try_correct(word, length, modes[m]);
            }
    group_ends("correct: valid words with 0 to m + 1 changes, every length");
}

static void making(void)
{
    uint8_t word[LONGEST];
    for (size_t m = 0; m < COUNT(modes); m++)
        for (size_t length = 2 * modes[m] - 2; length <= LONGEST; length++)
            for (size_t k = 0; k < length; k++)
                for (unsigned v = 0; v < 16; v++) {
                    memset(word, 0, length);
                    word[k] = (uint8_t)v;
                    try_make(word, length, modes[m]);
                }
    group_ends("make: every semi-octet at every place, every length");
    for (size_t m = 0; m < COUNT(modes); m++)
        for (size_t length = 2 * modes[m] - 2; length <= LONGEST; length++)
            for (unsigned i = 0; i < 5000; i++) {
                random_elements(word, length);
                /* what stands in the check places is not looked at */
                for (unsigned k = 0; i % 2 && k < 2 * modes[m] - 2; k++)
                    word[k] = (uint8_t)next();
                try_make(word, length, modes[m]);
            }
    group_ends("make: random data, any byte in the check places, every length");
}

static void with_mode(const uint8_t *word, size_t length, uint32_t mode)
{
    try_make(word, length, mode);
    try_correct(word, length, mode);
    try_each(word, length, mode, 1, 1);
}

static void settings(void)
{
    static uint8_t word[ROOM];
    /* the longer ones are 15 once they are narrowed to 8 or 16 bits */
    static const size_t long_ones[] = {255, 256 + 13, 256 + 15, 65536 + 13, 65536 + 15};
    for (unsigned turn = 0; turn < 20; turn++) {
        random_elements(word, ROOM);
        for (size_t length = 0; length <= 20; length++) {
            for (size_t m = 0; m < COUNT(modes); m++)
                with_mode(word, length, modes[m]);
            for (size_t m = 0; m < COUNT(no_modes); m++)
                with_mode(word, length, no_modes[m]);
        }
    }
    for (size_t i = 0; i < COUNT(long_ones); i++)
        for (size_t m = 0; m < COUNT(modes); m++)
            with_mode(word, long_ones[i], modes[m]);
    group_ends("all: lengths 0 to 20 and longer ones, modes 2 to 4 and others");
    /* a buffer of no bytes may be nowhere */
    for (size_t m = 0; m < COUNT(modes); m++) {
        word_answer a = word_correct(NULL, 0, modes[m]);
        judge(word_make(NULL, 0, modes[m]) == 1, "word_make", modes[m], word, word, word, 0);
        judge(a.number == 1 && a.count == 0 && a.bits == 0, "word_correct", modes[m], word, word, word, 0);
        judge(word_correct_each(NULL, 0, modes[m], NULL, 0, NULL, 0) == 1, "word_correct_each", modes[m], word, word, word, 0);
    }
    group_ends("all: no word at all");
}

static void elements(void)
{
    uint8_t word[LONGEST];
    for (size_t m = 0; m < COUNT(modes); m++)
        for (size_t length = 2 * modes[m] - 2; length <= LONGEST; length++)
            for (size_t k = 0; k < length; k++)
                for (unsigned v = 16; v < 256; v++) {
                    valid_word(word, length, modes[m]);
                    change(word, length, below(3));
                    word[k] = (uint8_t)v;
                    with_mode(word, length, modes[m]);
                }
    group_ends("all: an element of 16 to 255 at every place");
}

/* Words of one length, the first `longer` of them one longer: clean, changed in 1 to m - 1 places, beyond repair and
   random, mixed. */
static size_t mixed_words(uint8_t *words, size_t shorter, size_t longer, uint32_t mode, size_t count)
{
    uint8_t *word = words;
    for (size_t i = 0; i < count; i++) {
        size_t length = shorter + (i < longer);
        unsigned kind = below(mode + 3);
        valid_word(word, length, mode);
        if (kind < length)
            change(word, length, kind);
        else
            random_elements(word, length);
        word += length;
    }
    return (size_t)(word - words);
}

static void whole_slots(void)
{
    static uint8_t words[ROOM];
    for (size_t m = 0; m < COUNT(modes); m++)
        for (size_t length = 2 * modes[m] - 2; length <= LONGEST; length++)
            for (size_t count = 1; count <= 60; count++)
                for (unsigned turn = 0; turn < 10; turn++) {
                    size_t longer = length < LONGEST && turn > 0 ? below((unsigned)count) : 0;
                    try_each(words, mixed_words(words, length, longer, modes[m], count), modes[m], count, count);
                }
    group_ends("each: 1 to 60 words of one or two lengths, clean, changed and beyond repair, mixed");
    for (size_t m = 0; m < COUNT(modes); m++)
        for (size_t length = 2 * modes[m] - 2; length <= LONGEST; length++)
            for (size_t count = 0; count <= 8; count++)
                for (size_t other = 0; other <= 10; other++)
                    for (size_t cut = 0; cut <= 2; cut++) {
                        size_t len = mixed_words(words, length, 0, modes[m], count);
                        try_each(words, cut < len ? len - cut : len, modes[m], other, other);
                    }
    group_ends("each: any number of counts, so that words are too short or too long");
    for (size_t m = 0; m < COUNT(modes); m++)
        for (size_t length = 13; length <= LONGEST; length++)
            for (size_t at = 0; at < 6 * length; at++)
                for (unsigned v = 16; v < 256; v += v == 16 ? 15 : 32) {
                    size_t len = mixed_words(words, length, 0, modes[m], 6);
                    words[at] = (uint8_t)v;
                    try_each(words, len, modes[m], 6, 6);
                }
    group_ends("each: an element above 15 at every place of six words");
}

/* Words that are all right, with any number of places for their bits; the longer ones are right in 8 or 16 bits. */
static void places_for_bits(void)
{
    static uint8_t words[ROOM];
    for (size_t m = 0; m < COUNT(modes); m++)
        for (size_t count = 0; count <= 8; count++) {
            size_t len = mixed_words(words, 13 + below(3), 0, modes[m], count);
            for (size_t bits_len = 0; bits_len <= 10; bits_len++)
                try_each(words, len, modes[m], count, bits_len);
            try_each(words, len, modes[m], count, 256 + count);
            try_each(words, len, modes[m], count, 65536 + count);
        }
    group_ends("each: as many places for bits as for counts, and other numbers of them");
}

int main(int argc, char **argv)
{
    cases_start(argc > 1 ? argv[1] : NULL);
    uint32_t in_mode_4 = argc > 2 ? (uint32_t)strtoul(argv[2], NULL, 0) : 100000;
    if (!search_prepare()) {
        said(printf("WRONG: two patterns of at most m - 1 changes have one syndrome, or memory ended\n"));
        return 2;
    }
    settings();
    making();
    random_words();
    whole_slots();
    places_for_bits();
    elements();
    syndromes(2, UINT32_MAX);
    syndromes(3, UINT32_MAX);
    syndromes(4, in_mode_4);
    for (size_t m = 0; m < COUNT(modes); m++)
        every_pattern(modes[m]);
    cases_end();
    return 0;
}
