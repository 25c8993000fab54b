/* Checked reads of octets. */
#include "octets.h"

struct octets octets_first(struct octets all, size_t count)
{
    if (count < all.length) {
        all.length = count;
    }
    return all;
}

struct octets octets_after(struct octets all, size_t count)
{
    if (count >= all.length) {
        return (struct octets){ NULL, 0 };
    }
    return (struct octets){ all.at + count, all.length - count };
}

uint8_t octets_u8(struct octets all, size_t place)
{
    return place < all.length ? all.at[place] : 0;
}

uint16_t octets_u16(struct octets all, size_t place)
{
    return (uint16_t)((unsigned)octets_u8(all, place) << 8 | octets_u8(all, place + 1));
}

uint32_t octets_u32(struct octets all, size_t place)
{
    return (uint32_t)octets_u16(all, place) << 16 | octets_u16(all, place + 2);
}

uint32_t octets_little_endian_u32(struct octets all, size_t place)
{
    return (uint32_t)octets_u8(all, place) | (uint32_t)octets_u8(all, place + 1) << 8
        | (uint32_t)octets_u8(all, place + 2) << 16 | (uint32_t)octets_u8(all, place + 3) << 24;
}

void octets_copy(uint8_t *to, struct octets all, size_t place, size_t count)
{
    for (size_t i = 0; i < count; i++) {
        to[i] = octets_u8(all, place + i);
    }
}
