#include "tell.h"

#include "text.h"

bool tell(const view *shown, const line *told)
{
    bool is_refusal = told->kind == LINE_REFUSED || told->kind == LINE_DROPPED;
    if (shown->flow_count == 0 || is_refusal)
        print_line(told, shown->as_json);
    return !is_refusal;
}

/* ---- a run of NLRIs */

/* An NLRI that a walk steps over: of unknown route type, or a Source Active route for an SSM group. It must be whole. */
static bool is_skipped(uint32_t number, octets nlri)
{
    bool is_whole = nlri.size >= MVPN_NLRI_HEADER && nlri.size == MVPN_NLRI_HEADER + (size_t)nlri.at[1];
    return is_whole && (number == MVPN_TYPE || number == MVPN_GROUP);
}

/* At the run's end a step gives DONE and no route type. */
bool tell_run(const view *shown, const line *whole, octets run)
{
    mvpn_stepped step;
    size_t at = 0;
    while ((step = mvpn_step(whole->afi, run.at, run.size, at)).number != MVPN_DONE || step.layout.route_type != 0) {
        octets nlri = front_nlri(octets_behind(run, at));
        line told = *whole;
        bool is_read = step.number == MVPN_DONE, goes_on = is_read || is_skipped(step.number, nlri);
        told.octet += at;
        if (is_read)
            told.nlri = nlri;
        else
            told = (line){ .kind = goes_on ? LINE_SKIPPED : LINE_REFUSED, .message = whole->message, .has_octet = true,
                           .octet = told.octet, .number = step.number, .unread = nlri };
        if (!tell(shown, &told))
            return false;
        at += nlri.size;
    }
    return true;
}

/* ---- an attribute */

/* The attribute's octet is where it begins: which of its fields is meant, the number says. */
bool tell_attribute(const view *shown, const line *read, octets attribute)
{
    mvpn_attribute_reading reading = mvpn_attribute_read(attribute.at, attribute.size);
    line told = *read;
    if (reading.number == MVPN_DONE)
        told.attribute = attribute;
    else {
        told.kind = LINE_REFUSED;
        told.subject = "PMSI Tunnel attribute";
        told.number = reading.number;
        told.has_octet = true;
        told.unread = attribute;
    }
    return tell(shown, &told);
}

/* ---- explanations */

static const group_prefixes *prefixes_of(const view *shown, const mvpn_address *group)
{
    return &shown->prefixes[afi_of(group) - MVPN_AFI_IPV4];
}

static bool tell_explanation(const view *shown, const customer_flow *flow, explainer *explain, const void *routes)
{
    uint8_t output[MVPN_MATCH_OUTPUT], list[PREFIXES_SPACE];
    const group_prefixes *prefixes = prefixes_of(shown, &flow->group);
    mvpn_explained found = explain(routes, list_prefixes(prefixes, list), flow, output);
    explanation told = { *flow, class_of(&flow->group, prefixes), found, output };
    print_explanation(&told, shown->as_json);
    return found.matched.number == MVPN_DONE;
}

bool tell_explanations(const view *shown, explainer *explain, const void *routes)
{
    bool are_done = true;
    for (size_t i = 0; i < shown->flow_count; i++)
        are_done = tell_explanation(shown, &shown->flows[i], explain, routes) && are_done;
    return are_done;
}
