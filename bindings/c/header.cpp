// The header is C++ as well.
#include "agc2.h"

int main() {
    agc2_controller controller;
    return agc2_new(&controller, 1, agc2_default_config()) != AGC2_ACCEPTED || agc2_version() != AGC2_VERSION;
}
