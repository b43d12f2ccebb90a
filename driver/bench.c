/*
 * bench FILE [quick]: what each exported call costs, as a table for people and, in the
 * file, as lines of fields that tabs part.
 */
#include <stdio.h>
#include <string.h>

#include "bench.h"

static FILE *fields;

/* ------------------------------------------------------------------------ */
/* Lines                                                                    */
/* ------------------------------------------------------------------------ */

/* What a line's figures are of. */
struct measured {
    const char *kind;
    const char *call;
    const char *in; /* "usual" or "worst" */
    unsigned entries;
    const char *shape; /* NULL: no state */
    const char *place; /* what the call aims at */
    struct figures figures;
};

static double passes_of(struct figures f)
{
    return f.call / f.pass;
}

/* A number, or a dash where there is none. */
static void print_number(int width, int digits, double number, bool is_there)
{
    if (is_there)
        printf("%*.*f", width, digits, number);
    else
        printf("%*s", width, "-");
}

static void print_figures(const struct figures *f, int digits)
{
    print_number(9, digits, f->call, true);
    print_number(8, 2, f->call / f->pass, f->pass > 0);
    print_number(8, 1, f->call / f->rust, f->rust > 0);
}

static void print_state(FILE *to, const struct measured *m)
{
    if (m->shape == NULL)
        fprintf(to, "-");
    else
        fprintf(to, "%s%s%s", m->shape, m->place[0] != '\0' ? ", " : "", m->place);
}

static void write_number(double number, bool is_there)
{
    if (is_there)
        fprintf(fields, "\t%.4g", number);
    else
        fprintf(fields, "\t-");
}

static void write_fields(const struct measured *m)
{
    const struct figures *f = &m->figures;
    fprintf(fields, "%s\t%s\t%s\t%u\t", m->kind, m->call, m->in, m->entries);
    print_state(fields, m);
    write_number(f->call, true);
    write_number(f->pass, f->pass > 0);
    write_number(f->call / f->pass, f->pass > 0);
    write_number(f->rust, f->rust > 0);
    write_number(f->call / f->rust, f->rust > 0);
    fprintf(fields, "\n");
}

static void write_heads(void)
{
    fprintf(fields, "kind\tcall\tin\tentries\tstate");
    fprintf(fields, "\tns\tpass_ns\tpasses\trust_ns\trust_ratio\n");
}

/* ------------------------------------------------------------------------ */
/* What no call comes near to, however slow the machine                     */
/* ------------------------------------------------------------------------ */

enum { ABSURD_PASSES = 40, ABSURD_NS = 1000 };

static bool was_absurd;

static void look_for_absurd(const struct measured *m)
{
    const struct figures *f = &m->figures;
    if (f->call <= (m->shape != NULL ? ABSURD_PASSES * f->pass : ABSURD_NS))
        return;
    fprintf(stderr, "bench: %s takes absurdly long: %.0f ns\n", m->call, f->call);
    was_absurd = true;
}

/* ------------------------------------------------------------------------ */
/* Calls with state                                                         */
/* ------------------------------------------------------------------------ */

static const char *place_name(const struct call *call, enum place place)
{
    static const char *const no_choice[PLACES] = {[MIDDLE] = ""};
    return (call->places != NULL ? call->places : no_choice)[place];
}

/* The one that is measured. */
static struct row row;

/* A state and what a call aims at there. */
struct aim {
    const struct shape *shape;
    enum place place;
};

static struct measured measure(const char *in, unsigned entries)
{
    struct measured m = {
        row.kind->name,  row.call->name, in,
        entries,         row.shape->name, place_name(row.call, row.place),
        time_row(&row),
    };
    return m;
}

static struct measured measure_usual(const struct kind *kind, const struct call *call,
                                     unsigned count)
{
    row_make(&row, kind, call, &kind->shapes[0], MIDDLE, count);
    return measure("usual", count);
}

/* Of all shapes and places; of nearly equal ones the first. */
static struct measured measure_worst(const struct kind *kind, const struct call *call,
                                     unsigned count)
{
    struct aim worst = {NULL, MIDDLE};
    double most = 0;
    for (const struct shape *shape = kind->shapes; shape->name != NULL; shape++) {
        for (enum place place = FIRST; place < PLACES; place++) {
            if (place_name(call, place) == NULL)
                continue;
            row_make(&row, kind, call, shape, place, count);
            double passes = passes_of(try_row(&row));
            if (passes > 1.05 * most) {
                most = passes;
                worst = (struct aim){shape, place};
            }
        }
    }
    row_make(&row, kind, call, worst.shape, worst.place, count);
    return measure("worst", count);
}

/* The usual state is the worst where no other takes longer. */
static void bench_call(const struct kind *kind, const struct call *call, unsigned count)
{
    struct measured usual = measure_usual(kind, call, count);
    struct measured worst = measure_worst(kind, call, count);
    if (passes_of(worst.figures) < passes_of(usual.figures))
        worst = usual;
    worst.in = "worst";
    printf("%-32s%4u", call->name, count);
    print_figures(&usual.figures, 0);
    print_figures(&worst.figures, 0);
    printf("   ");
    print_state(stdout, &worst);
    printf("\n");
    write_fields(&usual);
    write_fields(&worst);
    look_for_absurd(&worst);
}

static void bench_counts(const struct kind *kind, const struct call *call)
{
    const unsigned *count = kind->counts;
    bench_call(kind, call, *count);
    while (*count != kind->entries)
        bench_call(kind, call, *++count);
}

static void bench_kind(const struct kind *kind)
{
    printf("\n%s\n%-36s%9s%8s%8s%9s%8s%8s   worst state\n", kind->title, "call, entries",
           "usual ns", "passes", "/ Rust", "worst ns", "passes", "/ Rust");
    for (const struct call *call = kind->calls; call->name != NULL; call++)
        bench_counts(kind, call);
}

/* ------------------------------------------------------------------------ */
/* Calls without state                                                      */
/* ------------------------------------------------------------------------ */

static void bench_leaf(const struct leaf *leaf)
{
    struct measured m = {"leaves", leaf->name, "usual", 0, NULL, NULL, time_leaf(leaf)};
    printf("%-36s", leaf->name);
    print_figures(&m.figures, 1);
    printf("\n");
    write_fields(&m);
    look_for_absurd(&m);
}

static void bench_leaves(void)
{
    printf("\nwithout state\n%-36s%9s%8s%8s\n", "call", "ns", "passes", "/ Rust");
    for (const struct leaf *leaf = leaves; leaf->name != NULL; leaf++)
        bench_leaf(leaf);
}

/* ------------------------------------------------------------------------ */
/* All                                                                      */
/* ------------------------------------------------------------------------ */

static const struct kind *const kinds[] = {
    &reg_kind,         &lb_kind, &req_kind,        &txm_kind, &txr_kind, &mcq_kind,
    &mcq_largest_kind, &iq_kind, &iq_largest_kind, &img_kind,
};

static void bench_all(void)
{
    write_heads();
    for (unsigned i = 0; i < sizeof kinds / sizeof kinds[0]; i++)
        bench_kind(kinds[i]);
    bench_leaves();
}

int main(int argc, char **argv)
{
    is_quick = argc == 3 && strcmp(argv[2], "quick") == 0;
    if (argc != (is_quick ? 3 : 2)) {
        fprintf(stderr, "usage: bench FILE [quick]\n");
        return 2;
    }
    fields = fopen(argv[1], "w");
    if (fields == NULL) {
        perror(argv[1]);
        return 1;
    }
    bench_all();
    if (fclose(fields) != 0) {
        perror(argv[1]);
        return 1;
    }
    return was_absurd;
}
