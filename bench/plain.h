/* The same work in plain C: the yardstick for what the proved code costs. */
#ifndef PLAIN_H
#define PLAIN_H

#include <stddef.h>
#include <stdint.h>

void plain_start(void);
void plain_block(const uint8_t key[16], uint8_t block[16]);
void plain_cmac(const uint8_t key[16], const uint8_t *message, size_t len, uint8_t tag[16]);
void plain_ctr(const uint8_t key[16], const uint8_t iv[8], uint8_t *data, size_t len);
void plain_derive(const uint8_t key[16], const uint8_t *prefix, size_t prefix_len, const uint8_t *name, size_t name_len, uint8_t out[16]);

uint32_t plain_set(uint8_t *kv, size_t kv_len, uint8_t *rbp, size_t rbp_len, const uint8_t *device_key, size_t device_key_len, const uint8_t *name,
                   size_t name_len, uint32_t flags, const uint8_t *iv, size_t iv_len, const uint8_t *data, size_t data_len);
uint32_t plain_get(const uint8_t *kv, size_t kv_len, const uint8_t *rbp, size_t rbp_len, const uint8_t *device_key, size_t device_key_len,
                   const uint8_t *name, size_t name_len, size_t offset, uint8_t *output, size_t output_len, size_t *count);
uint32_t plain_remove(uint8_t *kv, size_t kv_len, uint8_t *rbp, size_t rbp_len, const uint8_t *name, size_t name_len);

#endif
