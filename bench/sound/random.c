/* Compares the proved soundness test with a second one, written here from document 01, on random states: sound ones, and ones with a few changes. */
#include <stdbool.h>
#include <stddef.h>
#include <stdint.h>
#include <stdio.h>
#include <stdlib.h>
#include <string.h>

bool sound_words(const uint32_t *control, size_t control_len, const uint32_t *table, size_t table_len, const uint8_t *names, size_t names_len,
                 const uint8_t *committed, size_t committed_len, const uint8_t *staged, size_t staged_len, const uint8_t *image, size_t image_len,
                 const uint8_t *hash, size_t hash_len);

enum { ROWS = 16, SLOTS = 16, SLOT = 4096, IDLE = 0, UPLOADING = 1, VERIFIED = 2 };

static uint32_t control[40], table[64];
static uint8_t names[512], committed[65536], staged[65536], image[16384], hash[64];
static size_t lent[6];

#define rows control[0]
#define slots control[1]
#define marks control[2]
#define committed_len (control + 3)
#define staged_len (control + 19)
#define phase control[35]
#define image_len control[36]
#define hash_len control[37]
#define next_id control[38]

static uint64_t seed = 88172645463325252u;
static uint32_t any(uint32_t below) {
    seed ^= seed << 13, seed ^= seed >> 7, seed ^= seed << 17;
    return (uint32_t)(seed >> 11) % below;
}

/* the first byte is zero, and each other is as the one before it (a loop over the bytes took three quarters of the program's time) */
static bool zero(const uint8_t *p, size_t n) { return n == 0 || (*p == 0 && memcmp(p, p + 1, n - 1) == 0); }

static bool store_name_padded(const uint8_t *f) {
    if (memcmp(f, "/scan/", 6)) return false;
    int n = 6;
    while (n < 32 && ((f[n] >= '0' && f[n] <= '9') || (f[n] >= 'A' && f[n] <= 'Z') || (f[n] >= 'a' && f[n] <= 'z'))) n++;
    return n >= 7 && n <= 31 && zero(f + n, 32 - n);
}

/* rules 6.1-6.13 of docs/PROTOCOL.md, read from document 01 */
static bool second(void) {
    static const size_t exact[6] = {64, 512, 65536, 65536, 16384, 64};
    if (memcmp(lent, exact, sizeof exact)) return false;
    if (rows > 65535 || slots > 65535 || marks > 65535 || next_id > 65535) return false;
    if (image_len > 16384 || hash_len > 64) return false;
    int flash = 0;
    bool writer[SLOTS] = {false};
    for (int r = 0; r < ROWS; r++) {
        const uint32_t *w = table + 4 * r;
        if (!(rows >> r & 1)) {
            if (w[0] | w[1] | w[2] | w[3]) return false;
            continue;
        }
        uint32_t flags = w[2] & 0xFFFF, status = w[2] >> 16 & 3, clean = w[2] >> 18 & 1, blob = w[1];
        if (w[0] > 65535 || blob > 20 || w[2] >> 19) return false;
        for (int q = 0; q < r; q++)
            if ((rows >> q & 1) && (table[4 * q] == w[0] || table[4 * q + 1] == blob)) return false;
        if (blob < 16) {
            if (!(slots >> blob & 1) || status) return false;
            if (flags != 1 && flags != 3) return false;
            if (clean && !(marks >> blob & 1)) return false;
            if (flags == 1 && !clean) return false;
            if (flags == 3) writer[blob] = true;
        } else {
            if (++flash > 1 || flags != 2 || clean) return false;
            if (blob <= 17 && (status || phase != UPLOADING)) return false;
            if (blob == 18 && (phase == IDLE || (status && phase != UPLOADING))) return false;
            if (blob == 19 && phase != VERIFIED) return false;
            if (blob == 20 && (status == 1 || status == 3 || (status == 2 && phase != IDLE))) return false;
        }
    }
    if (phase == IDLE && (image_len || hash_len)) return false;
    for (int k = 0; k < SLOTS; k++) {
        const uint8_t *name = names + 32 * k;
        bool mark = marks >> k & 1;
        if (!(slots >> k & 1)) {
            if (mark || committed_len[k] || staged_len[k] || !zero(name, 32) || !zero(committed + SLOT * k, SLOT) || !zero(staged + SLOT * k, SLOT)) return false;
            continue;
        }
        if (!store_name_padded(name) || committed_len[k] > SLOT || staged_len[k] > SLOT) return false;
        for (int l = 0; l < k; l++)
            if ((slots >> l & 1) && !memcmp(name, names + 32 * l, 32)) return false;
        if (!mark && (committed_len[k] || !writer[k])) return false;
        if (staged_len[k] && !writer[k]) return false;
    }
    return true;
}

/* a state that is most often sound */
static void make(void) {
    memset(control, 0, sizeof control), memset(table, 0, sizeof table), memset(names, 0, sizeof names);
    memset(committed, 0, sizeof committed), memset(staged, 0, sizeof staged);
    phase = any(3);
    if (phase != IDLE) image_len = any(2) ? 16384 : any(16385), hash_len = any(65);
    next_id = any(2) ? 65535 : any(65536);
    int r = 0;
    for (int k = 0; k < SLOTS; k++) {
        if (any(3) == 0) continue;
        bool mark = any(2), writes = !mark || any(2), reads = mark && !writes && any(2);
        slots |= 1u << k, marks |= (uint32_t)mark << k;
        int n = 1 + any(25);
        memcpy(names + 32 * k, "/scan/", 6);
        for (int i = 0; i < n; i++) names[32 * k + 6 + i] = "azAZ09m"[any(7)];
        names[32 * k + 6] = 'a' + k;
        committed_len[k] = mark ? (any(2) ? 4096 : any(4097)) : 0;
        staged_len[k] = writes ? any(4097) : 0;
        uint32_t at = any(SLOT);
        committed[SLOT * k + at] = at, staged[SLOT * k + at] = ~at;
        if (!writes && !reads) continue;
        rows |= 1u << r;
        table[4 * r] = r * 4000 + at % 4000, table[4 * r + 1] = k;
        table[4 * r + 2] = writes ? 3 | (mark && any(2)) << 18 : 1 | 1 << 18;
        table[4 * r++ + 3] = any(1000);
    }
    if (r < ROWS && any(2)) {
        uint32_t blob = phase == UPLOADING ? 16 + any(3) : phase == VERIFIED ? 18 + any(3) : 20;
        uint32_t status = blob == 19 || (blob == 18 && phase == UPLOADING) ? any(4) : blob == 20 && phase == IDLE ? 2 * any(2) : 0;
        rows |= 1u << r;
        table[4 * r] = 65535 - any(100), table[4 * r + 1] = blob, table[4 * r + 2] = 2 | status << 16;
    }
    static const size_t exact[6] = {64, 512, 65536, 65536, 16384, 64};
    memcpy(lent, exact, sizeof exact);
}

/* one change of a state */
static void change(void) {
    static const uint32_t values[] = {0, 1, 2, 3, 15, 16, 17, 18, 19, 20, 21, 64, 65, 4096, 4097, 16384, 16385, 65535, 65536, 65537, 131074, 196610, 262145, 262147, 524288, 524291, 4294967295u};
    uint32_t v = values[any(sizeof values / sizeof values[0])], a = any(16), b = any(16), j = any(2);
    switch (any(10)) {
    case 0: table[any(64)] = v; break;
    case 1: table[4 * any(16) + 2] ^= 1u << any(32); break;
    case 2: table[4 * a + j] = table[4 * b + j]; break;
    case 3: control[any(3)] ^= 1u << any(17); break;
    case 4: control[3 + any(32)] = v; break;
    case 5: phase = any(3); break;
    case 6: control[36 + any(3)] = v; break;
    case 7: names[32 * a + 2 * b + j] = v; break;
    case 8: memmove(names + 32 * a, names + 32 * b, 32); break;
    default: (j ? committed : staged)[4096 * a + 273 * b] = v; if (any(8) == 0) lent[any(6)] -= 1;
    }
}

int main(void) {
    const int cases = 200000;
    int good = 0;
    for (int i = 0; i < cases; i++) {
        make();
        for (int n = any(3); n > 0; n--) change();
        bool a = sound_words(control, 40, table, lent[0], names, lent[1], committed, lent[2], staged, lent[3], image, lent[4], hash, lent[5]);
        bool b = second();
        good += b;
        if (a != b) return printf("case %d: proved test %d, second test %d\n", i, a, b), 1;
    }
    printf("%d random states, %d of them sound: both tests agree\n", cases, good);
    return 0;
}
