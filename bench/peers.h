/* Every implementation that is measured, behind one shape. Each call expands the key, as the library's calls do. */
#ifndef PEERS_H
#define PEERS_H

#include <stddef.h>
#include <stdint.h>

struct peer {
    const char *name;
    void (*block)(const uint8_t key[16], uint8_t block[16]);
    void (*cmac)(const uint8_t key[16], const uint8_t *message, size_t len, uint8_t tag[16]);
    void (*ctr)(const uint8_t key[16], const uint8_t iv[8], uint8_t *data, size_t len);
    /* 0: a CMAC of what the derivation feeds to it */
    void (*derive)(const uint8_t key[16], const uint8_t *prefix, size_t prefix_len, const uint8_t *name, size_t name_len, uint8_t out[16]);
};

/* The first is what the others are divided by; the next two have a store as well. */
enum { PEER_FIRST, PEER_OURS, PEER_PLAIN };
extern const struct peer PEERS[];
extern const size_t PEER_COUNT;

void peers_start(void);

#endif
