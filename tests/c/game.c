/* listing: game */
#include "puffin_zones.h"

static void update(void) {
    PUFFIN_FUNCTION();
}

int main(void) {
    uint32_t fault = puffin_session_open();
    for (int turn = 0; turn < 100; turn++) {
        {
            PUFFIN_ZONE_TEXT("turn", turn % 2 ? "odd" : "even");
            update();
        }
        puffin_session_frame(NULL);
    }
    return fault == PUFFIN_OK && puffin_session_save("game.puffin") == PUFFIN_OK ? 0 : 1;
}
/* end of listing */
