/* Random plans (see plans.h). */
#include "plans.h"

#include "../common/cases.h"

/* ---- fields in their ranges */

static void plan_shape(silberlaus_frame *f)
{
    f->shape_low = (uint8_t)below(32);
    f->shape_high = (uint8_t)below(32);
    f->shape_mode = (uint8_t)below(2);
    f->shape_gain = (uint8_t)below(f->shape_mode ? 4 : 2);
    f->shape_sign = (uint8_t)below(2);
    uint32_t limit = f->shape_mode ? JOINT_LIMIT_1 : JOINT_LIMIT_0;
    f->shape_joint = below(8) == 0 ? limit - 1 : below(limit);
}

/* Coefficients about the middle are cheap, the others dear. */
static uint8_t plan_filter(unsigned order, uint8_t *coefficients)
{
    for (unsigned k = 0; k < order; k++)
        coefficients[k] = (uint8_t)(below(8) == 0 ? below(17) : 6 + below(5));
    return (uint8_t)order;
}

static void plan_fields(const settings *set, silberlaus_frame *f)
{
    uint32_t pairs = set->lines / 2u, few = pairs < 12 ? pairs : 12;
    f->bandwidth = (uint8_t)below(set->index + 1u);
    f->last_line = (uint16_t)(2 + 2 * (below(8) == 0 ? pairs - 1 : below(below(2) ? pairs : few)));
    f->lsb_mode = below(3) == 0;
    f->gain = (uint8_t)below(256);
    f->tns_flag_0 = (uint8_t)below(2);
    f->tns_flag_1 = f->bandwidth >= set->two_filters_from ? (uint8_t)below(2) : 0;
    f->pitch_present = (uint8_t)below(2);
    plan_shape(f);
    f->filter_flag = f->pitch_present ? (uint8_t)below(2) : 0;
    f->pitch_index = f->pitch_present ? (uint16_t)below(512) : 0;
    f->noise_level = (uint8_t)below(8);
    f->tns_order_0 = plan_filter(f->tns_flag_0 ? 1 + below(set->most_order) : 0, f->tns_coefficients_0);
    f->tns_order_1 = plan_filter(f->tns_flag_1 ? 1 + below(set->most_order) : 0, f->tns_coefficients_1);
}

/* Lines of up to 15 bits, in most frames of few; in LSB mode 0 a residual bit for each that is not 0. */
static void plan_lines(answer *sent)
{
    uint32_t widest = 1 + below(below(4) == 0 ? 15 : 3), bits = 0;
    for (unsigned k = 0; k < sent->fields.last_line; k++) {
        uint32_t most = 1u << below(widest + 1);
        int32_t magnitude = (int32_t)(below(16) == 0 ? most - 1 : below(most));
        sent->spectrum[k] = below(2) ? magnitude : -magnitude;
        if (magnitude != 0 && !sent->fields.lsb_mode)
            sent->residual[bits++] = (uint8_t)below(2);
    }
}

/* In some frames a pair has more escapes than it needs. */
static void plan_escapes(plan *p)
{
    uint32_t seldom = below(4) == 0 ? 8 : 0;
    for (unsigned k = 0; k < p->sent.fields.last_line / 2u && seldom > 0; k++)
        p->escapes[k] = below(seldom) == 0 ? (uint8_t)below(TOO_MANY_ESCAPES) : 0;
}

void plan_frame(const settings *set, plan *p)
{
    *p = (plan){.bad_from = EVERY_SYMBOL_GOOD};
    plan_fields(set, &p->sent.fields);
    plan_lines(&p->sent);
    plan_escapes(p);
}

/* ---- causes */

/* An order above the highest, for the first filter or, where there are two, for the second. */
static void plan_order(const settings *set, silberlaus_frame *f)
{
    unsigned above = 8u - set->most_order;
    if (above == 0)
        return;
    if (f->bandwidth >= set->two_filters_from && below(2)) {
        f->tns_flag_1 = 1;
        f->tns_order_1 = plan_filter(set->most_order + 1 + below(above), f->tns_coefficients_1);
    } else {
        f->tns_flag_0 = 1;
        f->tns_order_0 = plan_filter(set->most_order + 1 + below(above), f->tns_coefficients_0);
    }
}

void plan_cause(const settings *set, unsigned cause, plan *p)
{
    silberlaus_frame *f = &p->sent.fields;
    uint32_t bandwidths = 1u << set->bandwidth_bits, pairs = set->lines / 2u;
    uint32_t limit = f->shape_mode ? JOINT_LIMIT_1 : JOINT_LIMIT_0, joints = f->shape_mode ? 1u << 24 : 1u << 25;
    if (cause == 1 && bandwidths > set->index + 1u)
        f->bandwidth = (uint8_t)(set->index + 1 + below(bandwidths - set->index - 1));
    else if (cause == 2)
        f->last_line = (uint16_t)(2 + 2 * (pairs + below((1u << set->last_pair_bits) - pairs)));
    else if (cause == 3)
        f->shape_joint = below(2) ? limit : limit + below(joints - limit);
    else if (cause == 4)
        p->bad_from = (uint16_t)below(below(2) ? 12 : 1 + pairs);
    else if (cause == 5)
        p->escapes[below(f->last_line / 2u < pairs ? f->last_line / 2u : pairs)] = TOO_MANY_ESCAPES;
    else if (cause == 8)
        plan_order(set, f);
}
