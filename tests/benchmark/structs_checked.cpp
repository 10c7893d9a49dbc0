// The group as structs, refusal 4 asked in every step.
#define GROUP Structured
#include "structs.inc"
