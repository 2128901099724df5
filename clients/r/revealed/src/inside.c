/* The library inside the package: none here. The package of a release has this file otherwise, with the library as C beside it. */
#include "inside.h"

rp_call *revealed_inside(int which) {
    (void)which;
    return NULL;
}

rp_version_call *revealed_inside_version(void) { return NULL; }
