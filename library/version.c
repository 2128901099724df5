/* The version of the library, which its build gives as RP_VERSION. No proof covers this call: it returns a constant. */
#include "rp.h"

const char *rp_version(void) { return RP_VERSION; }
