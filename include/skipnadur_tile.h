/*
 * The simulated part, for examples and tests without hardware: an ST25DV64KC as far as the calls of skipnadur.h use it, proved equal
 * to the definition that the theorems are about (crates/part). It is in an archive of its own, libskipnadur_tile.a.
 *
 * The part's numbers stand in a struct that the caller lends, its 8,192 bytes of user memory and twelve of identification (MEM_SIZE,
 * BLK_SIZE, IC_REF, UID) in buffers beside it. Lent another length of them, it refuses every transfer and does nothing. Any numbers are
 * taken: bytes modulo 256, a flag is on where its number is not 0, a cycle of another kind than 1 and 2 is none; so they are written back.
 */
#ifndef SKIPNADUR_TILE_H
#define SKIPNADUR_TILE_H

#include "skipnadur.h"

#ifdef __cplusplus
extern "C" {
#endif

#define SKP_TILE_IDENTITY_LEN 12

typedef struct skp_tile {
    skp_size gpo1;     /* GPO1 */
    skp_size mngt;     /* RF_MNGT */
    skp_size cfg;      /* I2C_CFG: 0x1A as it leaves the factory, 0x3A when set up */
    skp_size rf;       /* RF_MNGT_Dyn: RF is on where this is 0 */
    skp_size session;  /* not 0 while the security session is open */
    skp_size reported; /* not 0 after a phone's write that the status has not told yet */
    skp_size busy;     /* milliseconds that are left of a write cycle */
    skp_size cycle;    /* what is being written: 0 nothing, 1 a row, 2 a system byte */
    skp_size at;       /* where: the row's place, or the system byte's address */
    skp_size n;        /* the row's bytes, or the system byte's old value */
} skp_tile;

/* A write of `sent` to the address `dev`. A cycle that it begins takes `ms` milliseconds, 99 at most. 1 acknowledged, 0 refused. */
uint32_t skp_tile_write(skp_tile *tile, uint8_t *memory, skp_size memory_len, uint8_t dev, const uint8_t *sent, skp_size sent_len,
                        uint8_t ms);

/* A read from `dev` after the bytes `head`, of as many bytes as `out` has. 1, or 0 with `out` not changed. */
uint32_t skp_tile_read(skp_tile *tile, const uint8_t *identity, skp_size identity_len, const uint8_t *memory, skp_size memory_len,
                       uint8_t dev, const uint8_t *head, skp_size head_len, uint8_t *out, skp_size out_len);

/* So many milliseconds pass. */
void skp_tile_wait(skp_tile *tile, skp_size ms);

/* A phone writes `bytes` from `at` on. Nothing changes with RF off, or where they do not fit into the memory. */
void skp_tile_phone(skp_tile *tile, uint8_t *memory, skp_size memory_len, skp_size at, const uint8_t *bytes, skp_size bytes_len);

/*
 * The power is cut, and comes back. Inside a row's cycle `bytes` stand in the place of those that were being written, as many as there
 * are; inside a system byte's cycle it is the old one where `old` is not 0, else the new one.
 */
void skp_tile_cut(skp_tile *tile, uint8_t *memory, skp_size memory_len, const uint8_t *bytes, skp_size bytes_len, uint8_t old);

#ifdef __cplusplus
}
#endif

#endif
