/* The stores of a run that landed short: fewer bytes came into a memory than the store had to give. The run refuses nothing
 * for it, and what was to be kept is lost; so a person is told. */
#ifndef HOST_LANDED_H
#define HOST_LANDED_H

#include "runs.h"

/* How many stores landed short, in a line on standard error; nothing if none did. With `by_name` a line each follows, with the
 * step and the reason. The lengths are those of the memories that were run on. */
void tell_short(const struct account *account, const size_t lengths[MEMORIES], bool by_name);

#endif
