/* The planner and the checker in C, without the checks. */
#pragma once
#include "filt.h"
/* The roster that the driver has drawn, and the most changes. */
extern uint8_t drawn_roster[];
extern uint32_t most_changes;
/* answers 0 or 11; drawn and roster have n places; work has 8*(n+1)*64 places, left zero */
int mend(const rules_t *r, uint32_t n, const uint16_t *masks, const uint32_t *limits, const uint8_t *drawn, uint32_t most, uint8_t *roster, uint32_t *changes, uint32_t *work);
/* 1 for yes, 0 for no */
int check(const rules_t *r, uint32_t n, const uint16_t *masks, const uint32_t *limits, const uint8_t *drawn, const uint8_t *roster, uint32_t claimed);
