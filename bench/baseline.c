/*
 * The same rules in C, with no check that a rule does not name: no bound of an index. The signatures are the library's, so that both are called alike.
 * It is built by more than one compiler and linked once for each: -DBY=gcc makes CALL(find) gcc_find.
 */
#include <stddef.h>
#include <stdint.h>

#define JOINED(by, call) by##_##call
#define NAMED(by, call) JOINED(by, call)
#define CALL(call) NAMED(BY, call)

enum { SIZE = 1, COUNT, ID, TWICE, DAMAGED, FULL, ABSENT, LAST, ROOM, FORM, PACKET = 12, MOST_SEATS = 2048 };

/* a, N and the six parts of a table */
#define PARTS(qualifier, table)                                                                                    \
    uint32_t a = (table)[0], N = (table)[1];                                                                       \
    qualifier uint32_t *A = (table) + 2, *K = A + a, *W = K + a, *L = W + a, *R = L + a, *S = R + a;               \
    (void)N, (void)A, (void)K, (void)W, (void)L, (void)R, (void)S

static inline uint64_t output(uint64_t n, uint64_t k)
{
    uint64_t z = k + n * 0x9e3779b97f4a7c15u;
    z = (z ^ (z >> 30)) * 0xbf58476d1ce4e5b9u;
    z = (z ^ (z >> 27)) * 0x94d049bb133111ebu;
    return z ^ (z >> 31);
}

static int legal(const uint32_t *table, size_t words)
{
    return words >= 2 && table[0] >= 1 && table[0] <= MOST_SEATS && words == 2 + 6 * (size_t)table[0];
}

/* Both calls below are this one, each with its own copy of it. */
static inline __attribute__((always_inline)) uint32_t found(const uint32_t *table, size_t words, uint64_t key,
                                                            uint32_t *seat, uint32_t *server, uint32_t *draws,
                                                            uint32_t *walks)
{
    if (!legal(table, words))
        return SIZE;
    PARTS(const, table);
    uint32_t b = (uint32_t)(output(1, key) % a), taken = 1, walked = 0, bound;
    while ((bound = A[b]) != 0) {
        uint32_t h = (uint32_t)(output((uint64_t)b + 2, key) % bound), left = a;
        for (;;) {
            if (h >= a)
                return DAMAGED;
            if (A[h] < bound)
                break;
            if (left-- == 0)
                return DAMAGED;
            h = K[h];
        }
        b = h;
        taken++;
        walked += a - left;
    }
    if (S[b] == 0)
        return DAMAGED;
    *seat = b;
    *server = S[b];
    *draws = taken;
    *walks = walked;
    return 0;
}

uint32_t CALL(find)(const uint32_t *restrict table, size_t words, uint64_t key, uint32_t *restrict seat,
                    uint32_t *restrict server, uint32_t *restrict draws)
{
    uint32_t walks;
    return found(table, words, key, seat, server, draws, &walks);
}

uint32_t CALL(find_walks)(const uint32_t *restrict table, size_t words, uint64_t key, uint32_t *restrict seat,
                          uint32_t *restrict server, uint32_t *restrict draws, uint32_t *restrict walks)
{
    return found(table, words, key, seat, server, draws, walks);
}

/* A key's way followed as if every table were sound: no SIZE, no DAMAGED. */
uint32_t CALL(bare_find)(const uint32_t *restrict table, size_t words, uint64_t key, uint32_t *restrict seat,
                         uint32_t *restrict server, uint32_t *restrict draws)
{
    PARTS(const, table);
    uint32_t b = (uint32_t)(output(1, key) % a), taken = 1, bound;
    (void)words;
    while ((bound = A[b]) != 0) {
        uint32_t h = (uint32_t)(output((uint64_t)b + 2, key) % bound);
        while (A[h] >= bound)
            h = K[h];
        b = h;
        taken++;
    }
    *seat = b;
    *server = S[b];
    *draws = taken;
    return 0;
}

static int occurs(const uint32_t *list, size_t count, uint32_t id)
{
    int hit = 0;
    for (size_t i = 0; i < count; i++)
        hit |= list[i] == id;
    return hit;
}

static int repeats(const uint32_t *list, size_t count)
{
    int hit = 0;
    for (size_t i = 0; i < count; i++)
        if (list[i] != 0)
            hit |= occurs(list + i + 1, count - i - 1, list[i]);
    return hit;
}

/* The library's test, step by step: did seat x stand at position q? */
static inline int stood(const uint32_t *table, uint32_t x, uint32_t q)
{
    PARTS(const, table);
    if (A[x] == 0 || A[x] < q)
        return W[q] == x && (N <= q || L[x] == q);
    return L[x] == q;
}

static inline int seat_passes(const uint32_t *table, uint32_t x)
{
    PARTS(const, table);
    if (A[x] == 0)
        return S[x] != 0 && K[x] == x && stood(table, x, x);
    return S[x] == 0 && A[x] >= N && A[x] < a && R[a - 1 - A[x]] == x && stood(table, x, x);
}

static inline int removal_passes(const uint32_t *table, uint32_t i)
{
    PARTS(const, table);
    uint32_t b = R[i], p = a - 1 - i;
    if (i >= a - N)
        return b == 0;
    if (b >= a || A[b] != p || K[b] != W[p])
        return 0;
    return W[p] == b || (W[p] < a && L[b] < p && stood(table, W[p], L[b]));
}

uint32_t CALL(audit)(const uint32_t *table, size_t words)
{
    if (!legal(table, words))
        return SIZE;
    PARTS(const, table);
    if (N < 1 || N > a)
        return DAMAGED;
    int ok = 1;
    for (uint32_t i = 0; i < a; i++)
        ok &= seat_passes(table, i) & removal_passes(table, i);
    return ok && !repeats(S, a) ? 0 : DAMAGED;
}

static void take_out_seat(uint32_t *table, uint32_t b)
{
    PARTS(, table);
    R[a - N] = b;
    table[1] = --N;
    A[b] = N;
    uint32_t last = W[N], place = L[b];
    K[b] = last;
    W[place] = last;
    L[last] = place;
    S[b] = 0;
}

uint32_t CALL(open)(uint32_t *restrict table, size_t words, uint32_t a, const uint32_t *restrict ids, size_t count,
                    uint32_t *restrict n)
{
    if (a < 1 || a > MOST_SEATS || words != 2 + 6 * (size_t)a)
        return SIZE;
    if (count < 1 || count > a)
        return COUNT;
    if (occurs(ids, count, 0))
        return ID;
    if (repeats(ids, count))
        return TWICE;
    table[0] = a;
    table[1] = (uint32_t)count;
    uint32_t *A = table + 2, *K = A + a, *W = K + a, *L = W + a, *R = L + a, *S = R + a;
    for (uint32_t i = 0; i < a; i++) {
        A[i] = i < count ? 0 : i;
        K[i] = W[i] = L[i] = i;
        R[i] = i < a - count ? a - 1 - i : 0;
        S[i] = i < count ? ids[i] : 0;
    }
    *n = (uint32_t)count;
    return 0;
}

/* The stores alone, on a sound table that has the id. */
uint32_t CALL(bare_out)(uint32_t *restrict table, size_t words, uint32_t id, uint32_t *restrict seat)
{
    PARTS(, table);
    uint32_t b = 0;
    (void)words;
    while (S[b] != id)
        b++;
    take_out_seat(table, b);
    *seat = b;
    return 0;
}

/* The stores alone, on a sound table that is not full. */
uint32_t CALL(bare_seat)(uint32_t *restrict table, size_t words, uint32_t id, uint32_t *restrict seat)
{
    PARTS(, table);
    uint32_t b = R[a - N - 1];
    (void)words;
    R[a - N - 1] = 0;
    A[b] = 0;
    L[W[N]] = N;
    W[L[b]] = b;
    K[b] = b;
    table[1] = N + 1;
    S[b] = id;
    *seat = b;
    return 0;
}

uint32_t CALL(out)(uint32_t *restrict table, size_t words, uint32_t id, uint32_t *restrict seat)
{
    uint32_t refusal = CALL(audit)(table, words);
    if (refusal != 0)
        return refusal;
    if (id == 0)
        return ID;
    if (!occurs(table + 2 + 5 * (size_t)table[0], table[0], id))
        return ABSENT;
    return table[1] == 1 ? (uint32_t)LAST : CALL(bare_out)(table, words, id, seat);
}

uint32_t CALL(seat)(uint32_t *restrict table, size_t words, uint32_t id, uint32_t *restrict seat)
{
    uint32_t refusal = CALL(audit)(table, words);
    if (refusal != 0)
        return refusal;
    if (id == 0)
        return ID;
    if (occurs(table + 2 + 5 * (size_t)table[0], table[0], id))
        return TWICE;
    return table[1] == table[0] ? (uint32_t)FULL : CALL(bare_seat)(table, words, id, seat);
}

static uint8_t *write_two(uint8_t *to, uint32_t number)
{
    to[0] = (uint8_t)(number >> 8);
    to[1] = (uint8_t)number;
    return to + 2;
}

static uint32_t read_two(const uint8_t *from)
{
    return (uint32_t)from[0] << 8 | from[1];
}

static uint32_t read_four(const uint8_t *from)
{
    return read_two(from) << 16 | read_two(from + 2);
}

enum { HEAD = 0x4153, OUT = 0x4F55, IN = 0x494E };

uint32_t CALL(save)(const uint32_t *restrict table, size_t words, uint8_t *restrict record, size_t room,
                    size_t *restrict bytes)
{
    uint32_t refusal = CALL(audit)(table, words);
    if (refusal != 0)
        return refusal;
    PARTS(const, table);
    size_t length = 6 + 4 * (size_t)(a - N) + 8 * (size_t)N;
    if (room < length)
        return ROOM;
    uint8_t *to = write_two(write_two(write_two(record, HEAD), a), N);
    for (uint32_t i = 0; i < a - N; i++)
        to = write_two(write_two(to, OUT), R[i]);
    for (uint32_t b = 0; b < a; b++)
        if (S[b] != 0)
            to = write_two(write_two(write_two(write_two(to, IN), b), S[b] >> 16), S[b] & 0xFFFF);
    *bytes = length;
    return 0;
}

/* Are these a record? Every seat once, those in use ascending, the ids other than 0 and distinct. */
static int has_form(const uint8_t *record, size_t bytes)
{
    uint8_t seen[MOST_SEATS] = {0};
    uint32_t ids[MOST_SEATS];
    if (bytes < 6 || read_two(record) != HEAD)
        return 0;
    uint32_t a = read_two(record + 2), N = read_two(record + 4), next = 0;
    if (a < 1 || a > MOST_SEATS || N < 1 || N > a || bytes != 6 + 4 * (size_t)(a - N) + 8 * (size_t)N)
        return 0;
    const uint8_t *at = record + 6;
    for (uint32_t i = 0; i < a - N; i++, at += 4) {
        uint32_t b = read_two(at + 2);
        if (read_two(at) != OUT || b >= a || seen[b])
            return 0;
        seen[b] = 1;
    }
    for (uint32_t i = 0; i < N; i++, at += 8) {
        uint32_t b = read_two(at + 2);
        if (read_two(at) != IN || b >= a || b < next || seen[b] || read_four(at + 4) == 0)
            return 0;
        next = b + 1;
        ids[i] = read_four(at + 4);
    }
    return !repeats(ids, N);
}

uint32_t CALL(load)(uint32_t *restrict table, size_t words, const uint8_t *restrict record, size_t bytes,
                    uint32_t *restrict n)
{
    if (!has_form(record, bytes))
        return FORM;
    uint32_t a = read_two(record + 2), used = read_two(record + 4);
    if (words != 2 + 6 * (size_t)a)
        return SIZE;
    uint32_t *A = table + 2, *K = A + a, *W = K + a, *L = W + a, *R = L + a, *S = R + a;
    table[0] = table[1] = a;
    for (uint32_t i = 0; i < a; i++) {
        A[i] = R[i] = S[i] = 0;
        K[i] = W[i] = L[i] = i;
    }
    const uint8_t *at = record + 6;
    for (uint32_t i = 0; i < a - used; i++, at += 4)
        take_out_seat(table, read_two(at + 2));
    for (uint32_t i = 0; i < used; i++, at += 8)
        S[read_two(at + 2)] = read_four(at + 4);
    *n = used;
    return 0;
}

static inline uint64_t read_eight(const uint8_t *from)
{
    return (uint64_t)read_four(from) << 32 | read_four(from + 4);
}

/* The last word: protocol and ports. */
static inline uint64_t last_word(const uint8_t *ports, uint32_t protocol, int wanted)
{
    return (uint64_t)protocol << 32 | (wanted ? read_four(ports) : 0);
}

uint32_t CALL(key)(const uint8_t *restrict packet, size_t bytes, uint8_t *restrict key, size_t key_bytes)
{
    if (key_bytes != 8)
        return ROOM;
    if (bytes == 0)
        return PACKET;
    uint64_t made = 0;
    if (packet[0] >> 4 == 4) {
        if (bytes < 20)
            return PACKET;
        size_t header = (size_t)(packet[0] & 15) * 4, total = read_two(packet + 2);
        int wanted = (packet[9] == 6 || packet[9] == 17) && read_two(packet + 6) % 0x4000 == 0;
        if (header < 20 || total < header || bytes < total || (wanted && total < header + 4))
            return PACKET;
        made = output(1, made ^ read_eight(packet + 12));
        made = output(1, made ^ last_word(packet + header, packet[9], wanted));
    } else if (packet[0] >> 4 == 6) {
        if (bytes < 40)
            return PACKET;
        size_t payload = read_two(packet + 4);
        int wanted = packet[6] == 6 || packet[6] == 17;
        if (bytes < 40 + payload || (wanted && payload < 4))
            return PACKET;
        for (size_t at = 8; at < 40; at += 8)
            made = output(1, made ^ read_eight(packet + at));
        made = output(1, made ^ last_word(packet + 40, packet[6], wanted));
    } else {
        return PACKET;
    }
    for (size_t i = 8; i-- > 0; made >>= 8)
        key[i] = (uint8_t)made;
    return 0;
}
