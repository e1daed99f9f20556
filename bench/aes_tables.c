/* AES-128 in CBC mode with padding by four tables of 256 words a round, as programs without AES instructions do it.
 *
 * aes_tables seal|open ROUNDS BYTES: seals BYTES zero bytes ROUNDS times over, each time what the time before made, and
 * with the word open opens them as often again. Prints the length and the sum of the bytes.
 */

#include <stdint.h>
#include <stdio.h>
#include <stdlib.h>
#include <string.h>

static uint8_t sbox[256], inverse_sbox[256];
static uint32_t mixed[4][256], unmixed[4][256];

static uint8_t times(uint8_t a, uint8_t b)
{
    uint8_t product = 0;
    for (; a; a >>= 1) {
        if (a & 1)
            product ^= b;
        b = (uint8_t)(b << 1 ^ (b & 0x80 ? 0x1b : 0));
    }
    return product;
}

static uint8_t turned(uint8_t byte, int count)
{
    return (uint8_t)(byte << count | byte >> (8 - count));
}

static uint32_t word(uint8_t a, uint8_t b, uint8_t c, uint8_t d)
{
    return (uint32_t)a << 24 | (uint32_t)b << 16 | (uint32_t)c << 8 | d;
}

static void make_tables(void)
{
    uint8_t power = 1, inverse = 1;
    sbox[0] = 0x63;
    do {
        power = times(power, 0x03);
        inverse = times(inverse, 0xf6);
        sbox[power] = inverse ^ turned(inverse, 1) ^ turned(inverse, 2) ^ turned(inverse, 3) ^ turned(inverse, 4) ^ 0x63;
    } while (power != 1);
    for (int byte = 0; byte < 256; byte++)
        inverse_sbox[sbox[byte]] = (uint8_t)byte;
    for (int byte = 0; byte < 256; byte++) {
        uint8_t s = sbox[byte], i = inverse_sbox[byte];
        mixed[0][byte] = word(times(2, s), s, s, times(3, s));
        unmixed[0][byte] = word(times(14, i), times(9, i), times(13, i), times(11, i));
        for (int row = 1; row < 4; row++) {
            mixed[row][byte] = mixed[row - 1][byte] >> 8 | mixed[row - 1][byte] << 24;
            unmixed[row][byte] = unmixed[row - 1][byte] >> 8 | unmixed[row - 1][byte] << 24;
        }
    }
}

struct key {
    uint32_t words[44], unmixed_words[44];
};

static uint32_t substituted(uint32_t w)
{
    return word(sbox[w >> 24], sbox[w >> 16 & 255], sbox[w >> 8 & 255], sbox[w & 255]);
}

static uint32_t read_word(const uint8_t *bytes)
{
    return word(bytes[0], bytes[1], bytes[2], bytes[3]);
}

static void write_word(uint8_t *bytes, uint32_t w)
{
    bytes[0] = (uint8_t)(w >> 24);
    bytes[1] = (uint8_t)(w >> 16);
    bytes[2] = (uint8_t)(w >> 8);
    bytes[3] = (uint8_t)w;
}

static void make_key(struct key *key, const uint8_t *bytes)
{
    uint8_t constant = 1;
    for (int i = 0; i < 4; i++)
        key->words[i] = read_word(bytes + 4 * i);
    for (int i = 4; i < 44; i++) {
        uint32_t w = key->words[i - 1];
        if (i % 4 == 0) {
            w = substituted(w << 8 | w >> 24) ^ (uint32_t)constant << 24;
            constant = times(2, constant);
        }
        key->words[i] = key->words[i - 4] ^ w;
    }
    for (int i = 0; i < 44; i++) {
        uint32_t w = substituted(key->words[i]);
        key->unmixed_words[i] = unmixed[0][w >> 24] ^ unmixed[1][w >> 16 & 255] ^ unmixed[2][w >> 8 & 255] ^ unmixed[3][w & 255];
    }
}

#define ROUND(table, a, b, c, d) (table[0][a >> 24] ^ table[1][b >> 16 & 255] ^ table[2][c >> 8 & 255] ^ table[3][d & 255])
#define LAST(box, a, b, c, d) word(box[a >> 24], box[b >> 16 & 255], box[c >> 8 & 255], box[d & 255])

static void encrypt(const struct key *key, uint32_t state[4])
{
    const uint32_t *k = key->words;
    uint32_t a = state[0] ^ k[0], b = state[1] ^ k[1], c = state[2] ^ k[2], d = state[3] ^ k[3];
    for (int round = 1; round < 10; round++) {
        k += 4;
        uint32_t e = ROUND(mixed, a, b, c, d) ^ k[0], f = ROUND(mixed, b, c, d, a) ^ k[1];
        uint32_t g = ROUND(mixed, c, d, a, b) ^ k[2], h = ROUND(mixed, d, a, b, c) ^ k[3];
        a = e, b = f, c = g, d = h;
    }
    k += 4;
    state[0] = LAST(sbox, a, b, c, d) ^ k[0];
    state[1] = LAST(sbox, b, c, d, a) ^ k[1];
    state[2] = LAST(sbox, c, d, a, b) ^ k[2];
    state[3] = LAST(sbox, d, a, b, c) ^ k[3];
}

static void decrypt(const struct key *key, uint32_t state[4])
{
    const uint32_t *k = key->words + 40;
    uint32_t a = state[0] ^ k[0], b = state[1] ^ k[1], c = state[2] ^ k[2], d = state[3] ^ k[3];
    k = key->unmixed_words + 40;
    for (int round = 1; round < 10; round++) {
        k -= 4;
        uint32_t e = ROUND(unmixed, a, d, c, b) ^ k[0], f = ROUND(unmixed, b, a, d, c) ^ k[1];
        uint32_t g = ROUND(unmixed, c, b, a, d) ^ k[2], h = ROUND(unmixed, d, c, b, a) ^ k[3];
        a = e, b = f, c = g, d = h;
    }
    k = key->words;
    state[0] = LAST(inverse_sbox, a, d, c, b) ^ k[0];
    state[1] = LAST(inverse_sbox, b, a, d, c) ^ k[1];
    state[2] = LAST(inverse_sbox, c, b, a, d) ^ k[2];
    state[3] = LAST(inverse_sbox, d, c, b, a) ^ k[3];
}

static size_t seal(const struct key *key, const uint8_t *vector, uint8_t *text, size_t len)
{
    uint32_t last[4];
    uint8_t count = (uint8_t)(16 - len % 16);
    memset(text + len, count, count);
    len += count;
    for (int i = 0; i < 4; i++)
        last[i] = read_word(vector + 4 * i);
    for (uint8_t *block = text; block < text + len; block += 16) {
        for (int i = 0; i < 4; i++)
            last[i] ^= read_word(block + 4 * i);
        encrypt(key, last);
        for (int i = 0; i < 4; i++)
            write_word(block + 4 * i, last[i]);
    }
    return len;
}

static size_t open_sealed(const struct key *key, const uint8_t *vector, uint8_t *text, size_t len)
{
    uint32_t before[4];
    for (int i = 0; i < 4; i++)
        before[i] = read_word(vector + 4 * i);
    for (uint8_t *block = text; block < text + len; block += 16) {
        uint32_t cipher[4], state[4];
        for (int i = 0; i < 4; i++)
            state[i] = cipher[i] = read_word(block + 4 * i);
        decrypt(key, state);
        for (int i = 0; i < 4; i++) {
            write_word(block + 4 * i, state[i] ^ before[i]);
            before[i] = cipher[i];
        }
    }
    return len - text[len - 1];
}

int main(int count, char **words)
{
    static const uint8_t key_bytes[16] = {0, 1, 2, 3, 4, 5, 6, 7, 8, 9, 10, 11, 12, 13, 14, 15}, vector[16];
    struct key key;
    if (count != 4)
        return 2;
    size_t rounds = strtoul(words[2], NULL, 10), len = strtoul(words[3], NULL, 10), sum = 0;
    uint8_t *text = calloc(len + 16 * rounds + 16, 1);
    if (!text)
        return 1;
    make_tables();
    make_key(&key, key_bytes);
    for (size_t i = 0; i < rounds; i++)
        len = seal(&key, vector, text, len);
    if (strcmp(words[1], "open") == 0)
        for (size_t i = 0; i < rounds; i++)
            len = open_sealed(&key, vector, text, len);
    for (size_t i = 0; i < len; i++)
        sum += text[i];
    printf("%zu %zu\n", len, sum);
    return 0;
}
