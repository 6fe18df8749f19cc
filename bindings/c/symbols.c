/* The calls that the header defines, as symbols of the shared library: for Python, Go, Swift and others that cannot read the header. */
#define AGC2_CALL
#include "agc2.h"
