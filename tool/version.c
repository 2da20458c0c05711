/* The one function of the library that is not Rattle: its version. */
#include "sailmortar.h"

const char *sailmortar_version(void) {
    return SAILMORTAR_VERSION;
}
