/* The filter image. */
#include "c_test.h"

#include <string.h>

/* Whether the image is exactly the subjects from first to last, or all but these. */
static bool is_range(const uint8_t *image, unsigned first, unsigned last, bool but)
{
    for (unsigned s = 0; s <= 8191; s++) {
        bool in = image[s / 8] >> s % 8 & 1;
        if (in != ((first <= s && s <= last) != but))
            return false;
    }
    return true;
}

static bool is_empty(const uint8_t *image)
{
    return is_range(image, 1, 0, false);
}

static void test_open(void)
{
    uint8_t image[GOMXELI_IMG_LENGTH];
    CHECK(sizeof image == 1024);
    memset(image, 0xa5, sizeof image);
    CHECK_DONE(gomxeli_img_open(image, sizeof image));
    CHECK(is_empty(image));
}

/* Each subject is bit s mod 8 of byte s div 8, and no other bit moves. */
static void test_subject(uint8_t *image, unsigned s)
{
    const size_t len = GOMXELI_IMG_LENGTH;
    CHECK_FLAG(gomxeli_img_has_subject(image, len, s), 0);
    CHECK_DONE(gomxeli_img_add_subject(image, len, s));
    CHECK_FLAG(gomxeli_img_has_subject(image, len, s), 1);
    CHECK_DONE(gomxeli_img_add_subject(image, len, s));
    CHECK(image[s / 8] == 1u << s % 8);
    CHECK(s % 37 != 0 || is_range(image, s, s, false));
    if (s > 0)
        CHECK_FLAG(gomxeli_img_has_subject(image, len, s - 1), 0);
    if (s < 8191)
        CHECK_FLAG(gomxeli_img_has_subject(image, len, s + 1), 0);
    CHECK_DONE(gomxeli_img_remove_subject_range(image, len, s, s));
    CHECK_FLAG(gomxeli_img_has_subject(image, len, s), 0);
    CHECK(image[s / 8] == 0);
}

static void test_subjects(void)
{
    uint8_t image[GOMXELI_IMG_LENGTH];
    CHECK_DONE(gomxeli_img_open(image, sizeof image));
    for (unsigned s = 0; s <= 8191; s++)
        test_subject(image, s);
    CHECK(is_empty(image));
    for (unsigned s = 0; s <= 8191; s++)
        CHECK_DONE(gomxeli_img_add_subject(image, sizeof image, s));
    CHECK(is_range(image, 0, 8191, false));
}

/* Ranges from and to every bit of some bytes, out of a full image. */
static void test_ranges(void)
{
    static const unsigned ends[] = {0,    1,    6,    7,    8,    9,    14,   15,   16,
                                    17,   23,   24,   63,   64,   255,  256,  4095, 4096,
                                    8167, 8168, 8175, 8176, 8183, 8184, 8185, 8190, 8191};
    enum { ENDS = sizeof ends / sizeof ends[0] };
    uint8_t image[GOMXELI_IMG_LENGTH];
    const size_t len = sizeof image;
    for (unsigned i = 0; i < ENDS; i++) {
        for (unsigned j = i; j < ENDS; j++) {
            memset(image, 255, len);
            CHECK_DONE(gomxeli_img_remove_subject_range(image, len, ends[i], ends[j]));
            CHECK(is_range(image, ends[i], ends[j], true));
            CHECK_DONE(gomxeli_img_remove_subject_range(image, len, ends[i], ends[j]));
            CHECK(is_range(image, ends[i], ends[j], true));
        }
    }
}

static void test_lengths(void)
{
    static const struct tried calls[] = {
        {img_open, {0}},
        {img_add_subject, {0}},
        {img_remove_subject_range, {0, 8191}},
        {img_has_subject, {0}},
        {NULL, {0}},
    };
    static struct state image;
    image.len = GOMXELI_IMG_LENGTH;
    check_lengths(&image, calls, GOMXELI_BAD_IMAGE);
}

/* 3 with 4: 3. Any bytes of the length are an image, so the length is all that can be wrong. */
static const struct pair pairs[] = {
    {"add: subject 8192", img_add_subject, {8191}, {8192}, GOMXELI_RANGE},
    {"add: subject past 16 bits", img_add_subject, {0}, {65536}, GOMXELI_RANGE},
    {"add: the largest number", img_add_subject, {0}, {UINT32_MAX}, GOMXELI_RANGE},
    {"remove: both 8192", img_remove_subject_range, {8191, 8191}, {8192, 8192}, GOMXELI_RANGE},
    {"remove: last 8192", img_remove_subject_range, {0, 8191}, {0, 8192}, GOMXELI_RANGE},
    {"remove: last past 16 bits", img_remove_subject_range, {0, 5}, {0, 65541}, GOMXELI_RANGE},
    {"remove: first past 16 bits", img_remove_subject_range, {3, 5}, {65539, 5}, GOMXELI_RANGE},
    {"remove: first 8192", img_remove_subject_range, {8191, 8191}, {8192, 8191}, GOMXELI_RANGE},
    {"remove: first above last", img_remove_subject_range, {5, 5}, {6, 5}, GOMXELI_RANGE},
    {"remove: the largest numbers",
     img_remove_subject_range,
     {0, 0},
     {UINT32_MAX, UINT32_MAX},
     GOMXELI_RANGE},
    {"has: subject 8192", img_has_subject, {8191}, {8192}, GOMXELI_RANGE},
    {"has: subject past 16 bits", img_has_subject, {0}, {65536}, GOMXELI_RANGE},
    {NULL, NULL, {0}, {0}, 0},
};

static void test_pairs(void)
{
    static const size_t lengths[] = {0, 1, 1023, 1025, 1036, 2048};
    static struct state right, wrong;
    right.len = GOMXELI_IMG_LENGTH;
    memset(right.byte, 0xa5, right.len);
    for (const struct pair *pair = pairs; pair->what != NULL; pair++) {
        for (unsigned i = 0; i < sizeof lengths / sizeof lengths[0]; i++) {
            wrong.len = lengths[i];
            check_pair(pair, "wrong length", &right, &wrong, GOMXELI_BAD_IMAGE, GOMXELI_RANGE);
        }
    }
}

void test_img(void)
{
    test_open();
    test_subjects();
    test_ranges();
    test_lengths();
    test_pairs();
}
