/* listing: game */
#include "puffin.hpp"

static void update() {
    PUFFIN_FUNCTION(); /* a zone with the function's name, to the end of the block */
}

int main() {
    puffin::Session session;
    for (int turn = 0; turn < 100; turn++) {
        {
            PUFFIN_ZONE_TEXT("turn", std::to_string(turn)); /* one with a name of its own, and a text */
            update();
        }
        session.frame();
    }
    return session.save("game.puffin") == PUFFIN_OK ? 0 : 1;
}
/* end of listing */
