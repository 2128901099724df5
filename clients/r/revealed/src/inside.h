/* The call of the library, as rp.h declares it, and where the package has it inside. */
#ifndef REVEALED_INSIDE_H
#define REVEALED_INSIDE_H

#include <stddef.h>
#include <stdint.h>

typedef int32_t rp_call(
    const uint8_t *words, size_t words_length,
    const uint8_t *names, size_t names_length,
    const uint64_t *sizes, size_t files,
    const uint8_t *bytes, size_t bytes_length,
    uint8_t *output, size_t output_room,
    uint8_t *told, size_t told_room,
    uint64_t *output_length, uint64_t *told_length);

/* The version of the library, as rp.h declares it. */
typedef const char *rp_version_call(void);

/* `rp_answer`, or by 1 `rp_answer_wide`, by 2 `rp_panel`; NULL where the library is not inside. */
rp_call *revealed_inside(int which);

/* `rp_version`; NULL where the library is not inside. */
rp_version_call *revealed_inside_version(void);

#endif
