/* What a run or a preview gave, as text: bench's lines, the table for a person, and refusals. */
#ifndef HOST_SHOW_H
#define HOST_SHOW_H

#include "runs.h"

/* A line for each record, which ends in its grounds, and the total, exactly as `bench` writes them; where the run was billed,
 * then the charge. What a preview leaves out is 0. */
void print_lines(const struct account *account);

/* A table that a person reads, with the steps, the grounds, the running sum, the shares where the run was billed, and the lines
 * of docs/DIFFERENCES.md that touch each step; the total, and the charge; and what these lines say. What a preview leaves out is
 * -, and behind the total is said what that is. */
void print_table(const struct account *account);

/* What the lines of a preview leave out, on standard error. */
void tell_left_out(const struct account *account);

/* A refusal's number, name, record and meaning, on standard error; of a faulty record also its bytes. */
void tell_refusal(const uint8_t *records, uint32_t number, uint32_t index);

#endif
