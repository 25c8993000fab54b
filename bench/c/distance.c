/* In a file of its own, so that it is a call as the library's is. */
#include "distance.h"

int32_t distance(uint32_t from, uint32_t to)
{
    return (int32_t)(to - from);
}
