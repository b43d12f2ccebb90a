/* Damaged input for the filter image. */
#include "fuzz.h"

#include <string.h>

#include "random.h"
#include "whole.h"

enum { SUBJECTS = GOMXELI_SUBJECT_ID_MAX + 1 };

/* ------------------------------------------------------------------------ */
/* The calls on a plain set of subjects                                     */
/* ------------------------------------------------------------------------ */

/* Subject s is bit s mod 8 of byte s div 8. */
struct subjects {
    uint8_t byte[GOMXELI_IMG_LENGTH];
};

static bool has(const struct subjects *subjects, unsigned s)
{
    return subjects->byte[s / 8] >> s % 8 & 1;
}

static void put(struct subjects *subjects, unsigned s, bool in)
{
    if (has(subjects, s) != in)
        subjects->byte[s / 8] ^= (uint8_t)(1u << s % 8);
}

static gomxeli_answer model_add_subject(void *meaning, const uint32_t *n)
{
    struct subjects *subjects = meaning;
    if (n[0] >= SUBJECTS)
        return refusal(GOMXELI_RANGE);
    put(subjects, n[0], true);
    return done();
}

static gomxeli_answer model_remove_subject_range(void *meaning, const uint32_t *n)
{
    struct subjects *subjects = meaning;
    if (n[0] >= SUBJECTS || n[1] >= SUBJECTS || n[0] > n[1])
        return refusal(GOMXELI_RANGE);
    for (uint32_t s = n[0]; s <= n[1]; s++)
        put(subjects, s, false);
    return done();
}

static gomxeli_answer model_has_subject(void *meaning, const uint32_t *n)
{
    const struct subjects *subjects = meaning;
    return n[0] >= SUBJECTS ? refusal(GOMXELI_RANGE) : yes_or_no(has(subjects, n[0]));
}

/* A number out of range comes before a length that is no image's. */
static gomxeli_answer refuse(const struct call *call, const uint32_t *n)
{
    static struct subjects any;
    bool in_range = gomxeli_number(call->model(&any, n)) == GOMXELI_ACCEPTED;
    return refusal(in_range ? GOMXELI_BAD_IMAGE : GOMXELI_RANGE);
}

/* ------------------------------------------------------------------------ */
/* Images and numbers                                                       */
/* ------------------------------------------------------------------------ */

static struct subjects plain_subjects;

static size_t length(const uint32_t *n)
{
    (void)n;
    return GOMXELI_IMG_LENGTH;
}

static gomxeli_answer open_plain(struct bytes *image, const uint32_t *n)
{
    (void)n;
    if (image->len != 1024)
        return refusal(GOMXELI_BAD_IMAGE);
    memset(image->byte, 0, image->len);
    return done();
}

static void read_subjects(const uint8_t *image, void *meaning)
{
    memcpy(meaning, image, GOMXELI_IMG_LENGTH);
}

static void lay_subjects(const void *meaning, uint8_t *image)
{
    memcpy(image, meaning, GOMXELI_IMG_LENGTH);
}

/* No subject, all of them, or some by chance. */
static void draw_meaning(const uint32_t *n, void *meaning)
{
    struct subjects *subjects = meaning;
    unsigned share = below(5);
    (void)n;
    if (share < 2)
        memset(subjects->byte, share == 0 ? 0 : 255, sizeof subjects->byte);
    else
        random_bytes(subjects->byte, sizeof subjects->byte);
}

/* A length near an image's. */
static void draw_bytes(struct bytes *image)
{
    image->len = 0;
    resize(image, GOMXELI_IMG_LENGTH + below(5) - 2);
}

static void draw_subject(const struct bytes *image, uint32_t *n)
{
    (void)image;
    n[0] = number_near(SUBJECTS);
}

/* A short range, one from or to a byte's edge, or any two numbers. */
static void draw_range(const struct bytes *image, uint32_t *n)
{
    (void)image;
    n[0] = number_near(SUBJECTS);
    n[1] = one_in(2) ? n[0] + below(20) : number_near(SUBJECTS);
    if (one_in(4))
        n[0] = n[0] / 8 * 8;
    if (one_in(4))
        n[1] = n[1] / 8 * 8 + 7;
}

/* ------------------------------------------------------------------------ */
/* Sweeps                                                                   */
/* ------------------------------------------------------------------------ */

enum { OPEN, ADD, REMOVE, HAS };

static void sweep_call(unsigned call, struct bytes *image, uint32_t first, uint32_t last)
{
    const uint32_t n[MOST_NUMBERS] = {first, last};
    if (due())
        try_call(&kind_img, &kind_img.calls[call], SWEPT, image, n);
}

/* Each subject is added and removed, and looked for before and after. */
static void sweep_subjects(void)
{
    static struct bytes image;
    draw_whole(&kind_img, NULL, &image);
    for (uint32_t s = 0; s <= SUBJECTS; s++) {
        sweep_call(HAS, &image, s, 0);
        sweep_call(one_in(2) ? ADD : REMOVE, &image, s, s);
        sweep_call(HAS, &image, s, 0);
    }
}

/* All ranges among the subjects at both ends, and past them. */
static void sweep_ranges(void)
{
    enum { ENDS = 40 };
    static struct bytes image;
    for (uint32_t i = 0; i < ENDS * ENDS; i++) {
        uint32_t first = i / ENDS, last = i % ENDS;
        draw_whole(&kind_img, NULL, &image);
        sweep_call(REMOVE, &image, first, last);
        sweep_call(REMOVE, &image, first, SUBJECTS + 2 - last);
        sweep_call(REMOVE, &image, SUBJECTS + 2 - first, SUBJECTS + 2 - last);
    }
}

static void sweep(void)
{
    sweep_subjects();
    sweep_ranges();
}

/* ------------------------------------------------------------------------ */
/* The kind                                                                 */
/* ------------------------------------------------------------------------ */

#define CALL(name, outcomes, model, draw) \
    {{"img_" #name, (outcomes) | REFUSED(GOMXELI_BAD_IMAGE), {0}}, img_##name, model, draw}

static struct call calls[] = {
    [OPEN] = CALL(open, PLAIN, NULL, draw_no_numbers),
    [ADD] = CALL(add_subject, PLAIN | REFUSED(GOMXELI_RANGE), model_add_subject, draw_subject),
    [REMOVE] = CALL(remove_subject_range, PLAIN | REFUSED(GOMXELI_RANGE),
                    model_remove_subject_range, draw_range),
    [HAS] =
        CALL(has_subject, PLAIN | SOME | REFUSED(GOMXELI_RANGE), model_has_subject, draw_subject),
};

static const struct model model = {whole_img, &plain_subjects, read_subjects, lay_subjects};

struct kind kind_img = {
    .name = "img",
    .calls = calls,
    .call_count = sizeof calls / sizeof calls[0],
    .draw_sizes = draw_no_sizes,
    .length = length,
    .open = open_plain,
    .refuse = refuse,
    .model = &model,
    .draw_meaning = draw_meaning,
    .draw_bytes = draw_bytes,
    .sweep = sweep,
};
