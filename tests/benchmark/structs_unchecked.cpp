// The group as structs without refusal 4. Its names are its own, since the header's functions are compiled twice.
#define NO_CHECK
#define reference unchecked_reference
#define GROUP Unchecked
#include "structs.inc"
