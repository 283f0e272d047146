/* A world that isn't destroyed: c/run --valgrind checks that valgrind reports it. */
#include "derrimas.h"

int main(void)
{
    derrimas_world *world = &(derrimas_world){0};

    return derrimas_open(world, 1, 1) != DERRIMAS_OK;
}
