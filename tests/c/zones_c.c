/* Zones of a C file, in the session that zones.cc opens. */
#include "puffin_zones.h"

int zones_of_c(int number);

/* So many zones, one within the other, by a recursion. */
int zones_of_c(int number) {
    PUFFIN_ZONE_TEXT("nested in C", "deep");
    if (number > 1) {
        return zones_of_c(number - 1);
    }
    for (int i = 0; i < 2; i++) {
        PUFFIN_FUNCTION();
        if (i == 1) {
            return number;
        }
    }
    return 0;
}
