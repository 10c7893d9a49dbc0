// The library's own calls, as the linker names them where another is called in the place of each (-Wl,--wrap).
#pragma once

#include "../../include/dvs.h"

// What a call takes, as parameters.
#define READ_PARAMETER(range) const uint8_t *range, size_t range##_size
#define WRITTEN_PARAMETER(range) uint8_t *range, size_t range##_size
#define NUMBER_PARAMETER(type, name) type name
#define PARAMETERS(name) name##_takes(READ_PARAMETER, WRITTEN_PARAMETER, NUMBER_PARAMETER)

extern "C" {
#define CALL(name, ...) uint32_t __real_##name(PARAMETERS(name));
#define GIVES(type, name) type __real_##name(PARAMETERS(name));
#include "../outside/calls.inc"
}
