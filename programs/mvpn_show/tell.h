/* What the inputs have in common: NLRIs of a run, attributes, and flows that are explained, each told in lines. */
#ifndef TELL_H
#define TELL_H

#include "lines.h"
#include "show.h"

/* Prints a line; where flows are explained, only a refusal. Whether it is no refusal. */
bool tell(const view *shown, const line *told);

/* Tells the NLRIs of a run, up to the first that is refused: what stands behind it cannot be told apart. `whole` is the line of an NLRI
 * that is read, without the NLRI, and its octet is that of the run's first one. Whether none was refused. */
bool tell_run(const view *shown, const line *whole, octets run);

/* Tells an attribute; `read` is its line where the library reads it, without the attribute. Whether it was read. */
bool tell_attribute(const view *shown, const line *read, octets attribute);

/* Explains a flow among routes, whichever way they are kept. */
typedef mvpn_explained explainer(const void *routes, octets prefixes, const customer_flow *flow, uint8_t output[MVPN_MATCH_OUTPUT]);

/* Explains each flow that is asked. Whether none was refused. */
bool tell_explanations(const view *shown, explainer *explain, const void *routes);

#endif
