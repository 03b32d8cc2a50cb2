/* A store of typed values: an entry is the canonical bytes of a value and their SHA-256. A map with a key twice isn't stored, since readers
 * of YAML disagree on it. */
#include <inttypes.h>
#include <stdio.h>
#include <string.h>

#include "yaml_c.h"

/* ---- SHA-256 (FIPS 180-4) */

static uint32_t rotated(uint32_t word, int count) { return word >> count | word << (32 - count); }

/* The first 32 bits of the fractional parts of the cube roots of the first 64 primes. */
static const uint32_t constants[64] = {
    0x428a2f98, 0x71374491, 0xb5c0fbcf, 0xe9b5dba5, 0x3956c25b, 0x59f111f1, 0x923f82a4, 0xab1c5ed5, 0xd807aa98, 0x12835b01, 0x243185be,
    0x550c7dc3, 0x72be5d74, 0x80deb1fe, 0x9bdc06a7, 0xc19bf174, 0xe49b69c1, 0xefbe4786, 0x0fc19dc6, 0x240ca1cc, 0x2de92c6f, 0x4a7484aa,
    0x5cb0a9dc, 0x76f988da, 0x983e5152, 0xa831c66d, 0xb00327c8, 0xbf597fc7, 0xc6e00bf3, 0xd5a79147, 0x06ca6351, 0x14292967, 0x27b70a85,
    0x2e1b2138, 0x4d2c6dfc, 0x53380d13, 0x650a7354, 0x766a0abb, 0x81c2c92e, 0x92722c85, 0xa2bfe8a1, 0xa81a664b, 0xc24b8b70, 0xc76c51a3,
    0xd192e819, 0xd6990624, 0xf40e3585, 0x106aa070, 0x19a4c116, 0x1e376c08, 0x2748774c, 0x34b0bcb5, 0x391c0cb3, 0x4ed8aa4a, 0x5b9cca4f,
    0x682e6ff3, 0x748f82ee, 0x78a5636f, 0x84c87814, 0x8cc70208, 0x90befffa, 0xa4506ceb, 0xbef9a3f7, 0xc67178f2};

static void add_block(uint32_t hash[8], const uint8_t block[64]) {
    uint32_t words[64], state[8];
    int i;
    for (i = 0; i < 16; i++)
        words[i] = (uint32_t)block[4 * i] << 24 | (uint32_t)block[4 * i + 1] << 16 | (uint32_t)block[4 * i + 2] << 8 | block[4 * i + 3];
    for (; i < 64; i++) {
        uint32_t near = words[i - 2], far = words[i - 15];
        words[i] = words[i - 16] + words[i - 7] + (rotated(far, 7) ^ rotated(far, 18) ^ far >> 3)
            + (rotated(near, 17) ^ rotated(near, 19) ^ near >> 10);
    }
    memcpy(state, hash, sizeof state);
    for (i = 0; i < 64; i++) {
        uint32_t a = state[0], e = state[4];
        uint32_t first = state[7] + (rotated(e, 6) ^ rotated(e, 11) ^ rotated(e, 25)) + ((e & state[5]) ^ (~e & state[6])) + constants[i]
            + words[i];
        uint32_t second = (rotated(a, 2) ^ rotated(a, 13) ^ rotated(a, 22)) + ((a & state[1]) ^ (a & state[2]) ^ (state[1] & state[2]));
        memmove(state + 1, state, 7 * sizeof *state);
        state[4] += first;
        state[0] = first + second;
    }
    for (i = 0; i < 8; i++) hash[i] += state[i];
}

static void sha256(const uint8_t *bytes, size_t length, uint8_t digest[32]) {
    uint32_t hash[8] = {0x6a09e667, 0xbb67ae85, 0x3c6ef372, 0xa54ff53a, 0x510e527f, 0x9b05688c, 0x1f83d9ab, 0x5be0cd19};
    uint8_t last[128] = {0};
    size_t left = length % 64, size = left < 56 ? 64 : 128, i;
    for (i = 0; i + 64 <= length; i += 64) add_block(hash, bytes + i);
    memcpy(last, bytes + length - left, left);
    last[left] = 0x80;
    for (i = 0; i < 8; i++) last[size - 1 - i] = (uint8_t)((uint64_t)length * 8 >> 8 * i);
    for (i = 0; i < size; i += 64) add_block(hash, last + i);
    for (i = 0; i < 32; i++) digest[i] = (uint8_t)(hash[i / 4] >> (24 - 8 * (i % 4)));
}

/* ---- the store */

struct entry {
    const uint8_t *bytes;
    size_t length;
    uint8_t digest[32];
};

/* The entry of canonical bytes, which stay the caller's. */
static int32_t seal(const uint8_t *bytes, size_t length, struct entry *entry, struct yaml_c_result *result) {
    int32_t status = yaml_c_is_canonical(bytes, length, NULL, result);
    entry->bytes = bytes;
    entry->length = length;
    if (status == YAML_C_DONE) sha256(bytes, length, entry->digest);
    return status;
}

/* Whether an entry is as it was sealed; says why, if not. */
static int opens(const struct entry *entry) {
    struct yaml_c_result result;
    uint8_t digest[32];
    sha256(entry->bytes, entry->length, digest);
    if (memcmp(digest, entry->digest, sizeof digest) != 0) {
        puts("the digest differs");
        return 0;
    }
    int32_t status = yaml_c_is_canonical(entry->bytes, entry->length, NULL, &result);
    if (status == YAML_C_DONE) return 1;
    printf("line %" PRIu64 ", column %" PRIu64 ": %s\n", result.line, result.column, yaml_c_status_text(status));
    return 0;
}

int main(void) {
    static uint8_t bytes[] = "---\n!!map {\n  ? !!str \"user\"\n  : !!str \"no\",\n  ? !!str \"port\"\n  : !!int \"80\",\n}\n";
    static uint8_t padded[] = "---\n!!int \"07\"\n";
    static const uint8_t twice[] = "---\n!!map {\n  ? !!str \"port\"\n  : !!int \"80\",\n  ? !!str \"port\"\n  : !!int \"8080\",\n}\n";
    struct yaml_c_result result;
    struct entry entry, other = {padded, sizeof padded - 1, {0}};
    if (seal(bytes, sizeof bytes - 1, &entry, &result) != YAML_C_DONE) return 1;
    for (int i = 0; i < 32; i++) printf("%02x", entry.digest[i]);
    if (opens(&entry)) puts("\nas it was sealed");
    /* A byte that was changed, and a digest. */
    bytes[22] ^= 1;
    opens(&entry);
    bytes[22] ^= 1;
    entry.digest[31] ^= 1;
    opens(&entry);
    /* Bytes that aren't canonical, and those of a map with a key twice, aren't sealed, nor opened under their own digest. */
    if (seal(padded, sizeof padded - 1, &other, &result) == YAML_C_DONE) return 1;
    sha256(padded, sizeof padded - 1, other.digest);
    opens(&other);
    if (seal(twice, sizeof twice - 1, &other, &result) == YAML_C_DONE) return 1;
    sha256(twice, sizeof twice - 1, other.digest);
    opens(&other);
    return 0;
}
