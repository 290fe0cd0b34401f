/* The jobs of the program `bench` in plain C: the same circuits, graphs and questions, the same tests and refusals,
   the same records and heads, and the same lines printed. `compare` compiles it, runs both and tells the ratios. */
#include <stdbool.h>
#include <stdint.h>
#include <stdio.h>
#include <stdlib.h>
#include <string.h>
#include <time.h>

enum { INPUTS = 100, OUTPUTS = 100, HEADS = 65536, TEXT = 1048576 };
enum { MAX_BYTES = 1048576, MAX_VARIABLES = 1004096, MAX_INPUTS = 4096, MAX_OUTPUTS = 4096, MAX_GATES = 1000000 };
static const uint32_t UNDEFINED = 4294967295u, FALSE_EDGE = 0, TRUE_EDGE = 1;

/* Random numbers: Marsaglia's xorshift. */

static uint64_t random_state;

static void seed(void) { random_state = 0x2545F4914F6CDD1Dull; }

static uint64_t next_random(void) {
    random_state ^= random_state << 13;
    random_state ^= random_state >> 7;
    random_state ^= random_state << 17;
    return random_state;
}

static uint32_t below(uint32_t n) { return n ? (uint32_t)((next_random() >> 32) % n) : 0; }

/* The graph: pairs in lent records, each in the chain of its hash. */

typedef struct { uint32_t larger, smaller; } pair;
typedef struct { pair pair; uint32_t next; } record;
typedef struct { uint32_t inputs, level, size, limit; record *records; uint32_t *heads; } graph;

enum { DONE = 0, FULL = 11, NO_NODE = 12, VALUES = 14, TOO_LONG = 15, TOO_MANY = 4, MANY_INPUTS = 13 };

static void new_graph(graph *g, uint32_t inputs, uint32_t level, record *records, uint32_t limit, uint32_t *heads) {
    memset(heads, 0, HEADS * sizeof *heads);
    *g = (graph){inputs, level, 0, limit, records, heads};
}

static uint32_t nodes(const graph *g) { return g->inputs + 1 + g->size; }

static bool contains(const graph *g, uint32_t edge) { return edge / 2 < nodes(g); }

static uint32_t slot(pair p) {
    uint64_t edges = (uint64_t)p.larger << 32 | p.smaller;
    uint64_t spread = edges * 0x9E3779B97F4A7C15ull;
    return (uint32_t)((spread ^ spread >> 32) * 0x9E3779B97F4A7C15ull >> 48);
}

static pair pair_of(uint32_t x, uint32_t y) { return x < y ? (pair){y, x} : (pair){x, y}; }

/* The two-level rules. An operand's children are none where it is no AND node. */

typedef struct { uint32_t edge; const pair *below; } operand;
typedef enum { STORE, EDGE, PAIR } kind;
typedef struct { kind kind; uint32_t edge; pair pair; } reply;

static operand operand_of(const graph *g, uint32_t edge) {
    uint32_t node = edge / 2;
    return (operand){edge, node > g->inputs ? &g->records[node - g->inputs - 1].pair : NULL};
}

static bool has(const pair *p, uint32_t edge) { return p->larger == edge || p->smaller == edge; }

static bool clash(const pair *c, const pair *d) { return has(d, c->larger ^ 1) || has(d, c->smaller ^ 1); }

static uint32_t other(const pair *p, uint32_t edge) { return p->larger == edge ? p->smaller : p->larger; }

/* The children of a plain, or of a complemented AND edge. */
static const pair *plain(operand u) { return u.edge & 1 ? NULL : u.below; }
static const pair *complemented(operand u) { return u.edge & 1 ? u.below : NULL; }

static bool contradiction(operand u, operand v, reply *r) {
    if (!plain(u) || !has(plain(u), v.edge ^ 1)) return false;
    *r = (reply){.kind = EDGE, .edge = FALSE_EDGE};
    return true;
}

static bool shared_contradiction(operand u, operand v, reply *r) {
    if (!plain(u) || !plain(v) || !clash(plain(u), plain(v))) return false;
    *r = (reply){.kind = EDGE, .edge = FALSE_EDGE};
    return true;
}

static bool subsumption(operand u, operand v, reply *r) {
    if (!complemented(u) || !has(complemented(u), v.edge ^ 1)) return false;
    *r = (reply){.kind = EDGE, .edge = v.edge};
    return true;
}

static bool shared_subsumption(operand u, operand v, reply *r) {
    if (!complemented(u) || !plain(v) || !clash(complemented(u), plain(v))) return false;
    *r = (reply){.kind = EDGE, .edge = v.edge};
    return true;
}

static bool idempotence(operand u, operand v, reply *r) {
    if (!plain(u) || !has(plain(u), v.edge)) return false;
    *r = (reply){.kind = EDGE, .edge = u.edge};
    return true;
}

static bool resolution(operand u, operand v, reply *r) {
    const pair *c = complemented(u), *d = complemented(v);
    if (!c || !d) return false;
    uint32_t shared;
    if (has(d, c->larger) && other(d, c->larger) == (c->smaller ^ 1)) shared = c->larger;
    else if (has(d, c->smaller) && other(d, c->smaller) == (c->larger ^ 1)) shared = c->smaller;
    else return false;
    *r = (reply){.kind = EDGE, .edge = shared ^ 1};
    return true;
}

static bool substitution(operand u, operand v, reply *r) {
    const pair *c = complemented(u);
    if (!c || !has(c, v.edge)) return false;
    *r = (reply){.kind = PAIR, .pair = pair_of(other(c, v.edge) ^ 1, v.edge)};
    return true;
}

static bool shared_substitution(operand u, operand v, reply *r) {
    const pair *c = complemented(u), *d = plain(v);
    if (!c || !d) return false;
    uint32_t shared;
    if (has(d, c->larger)) shared = c->larger;
    else if (has(d, c->smaller)) shared = c->smaller;
    else return false;
    *r = (reply){.kind = PAIR, .pair = pair_of(other(c, shared) ^ 1, v.edge)};
    return true;
}

/* Where no node is an operand and a child, or a child of both operands, no rule fits. */
static bool under(operand u, uint32_t edge) {
    return u.below && ((u.below->larger ^ edge) < 2 || (u.below->smaller ^ edge) < 2);
}

static bool related(operand u, operand v) {
    return under(u, v.edge) || under(v, u.edge)
        || (v.below && (under(u, v.below->larger) || under(u, v.below->smaller)));
}

/* A rule in either order of its operands. */
#define FITS(rule) (rule(u, v, &r) || rule(v, u, &r))

/* What level three replies, and level one, which has no rule. */
static reply reply_of(const graph *g, pair p) {
    operand u = operand_of(g, p.larger), v = operand_of(g, p.smaller);
    reply r = {.kind = STORE};
    if (g->level < 3 || !related(u, v)) return r;
    (void)(FITS(contradiction) || FITS(shared_contradiction) || FITS(subsumption) || FITS(shared_subsumption)
        || FITS(idempotence) || FITS(resolution) || FITS(substitution) || FITS(shared_substitution));
    return r;
}

static bool trivial(uint32_t x, uint32_t y, uint32_t *edge) {
    if (x == FALSE_EDGE || y == FALSE_EDGE || x == (y ^ 1)) { *edge = FALSE_EDGE; return true; }
    if (x == TRUE_EDGE) { *edge = y; return true; }
    if (y == TRUE_EDGE || x == y) { *edge = x; return true; }
    return false;
}

static int and_of(graph *g, uint32_t x, uint32_t y, uint32_t *edge, uint32_t *added) {
    if (!contains(g, x) || !contains(g, y)) return NO_NODE;
    pair p;
    for (;;) {
        if (trivial(x, y, edge)) return DONE;
        p = pair_of(x, y);
        reply r = reply_of(g, p);
        if (r.kind == STORE) break;
        if (r.kind == EDGE) { *edge = r.edge; return DONE; }
        x = r.pair.larger;
        y = r.pair.smaller;
    }
    uint32_t *head = &g->heads[slot(p)];
    for (uint32_t link = *head; link; link = g->records[link - 1].next) {
        const pair *stored = &g->records[link - 1].pair;
        if (stored->larger == p.larger && stored->smaller == p.smaller) {
            *edge = 2 * (g->inputs + link);
            return DONE;
        }
    }
    if (g->size == g->limit) return FULL;
    *edge = 2 * nodes(g);
    g->records[g->size] = (record){p, *head};
    *head = ++g->size;
    ++*added;
    return DONE;
}

static int xor_of(graph *g, uint32_t x, uint32_t y, uint32_t *edge) {
    uint32_t p, q, added = 0;
    int refused = and_of(g, x, y ^ 1, &p, &added);
    if (!refused) refused = and_of(g, x ^ 1, y, &q, &added);
    if (!refused) refused = and_of(g, p ^ 1, q ^ 1, edge, &added);
    if (!refused) *edge ^= 1;
    return refused;
}

/* Reading: the whole file is checked before the graph is touched. */

typedef struct { const uint8_t *at, *end; uint32_t fault; } cursor;
typedef struct { uint32_t number, line, fault; } refusal;
typedef struct { uint32_t max, inputs, latches, outputs, ands; } header;

enum { NO_DIGIT = 1, LEADING_ZERO = 2, TOO_LONG_NUMBER = 3, OTHER = 4 };

static bool number(cursor *c, uint32_t *value) {
    const uint8_t *start = c->at;
    uint32_t v = 0;
    if (start == c->end) { c->fault = OTHER; return false; }
    while (c->at < c->end && (uint8_t)(*c->at - '0') < 10) {
        if (c->at - start < 7) v = 10 * v + (*c->at - '0');
        c->at++;
    }
    size_t n = c->at - start;
    if (n == 0) { c->fault = NO_DIGIT; return false; }
    if (*start == '0' && n > 1) { c->fault = LEADING_ZERO; return false; }
    if (n > 7) { c->fault = TOO_LONG_NUMBER; return false; }
    *value = v;
    return true;
}

static bool byte(cursor *c, uint8_t b) {
    if (c->at == c->end || *c->at != b) { c->fault = OTHER; return false; }
    c->at++;
    return true;
}

static bool literal(cursor *c, uint32_t *value, uint8_t end) {
    return number(c, value) && byte(c, end);
}

static bool read_header(cursor *c, header *h) {
    return byte(c, 'a') && byte(c, 'a') && byte(c, 'g') && byte(c, ' ') && literal(c, &h->max, ' ')
        && literal(c, &h->inputs, ' ') && literal(c, &h->latches, ' ') && literal(c, &h->outputs, ' ')
        && literal(c, &h->ands, '\n');
}

static int test_header(const header *h, uint32_t inputs, size_t places, size_t outs) {
    if (h->latches) return 3;
    if (h->max > MAX_VARIABLES || h->inputs > MAX_INPUTS || h->outputs > MAX_OUTPUTS || h->ands > MAX_GATES) return 4;
    if (h->max < h->inputs + h->ands) return 4;
    if (h->inputs != inputs) return 5;
    return places <= h->max || outs < h->outputs ? 6 : 0;
}

static bool may_define(const header *h, uint32_t v) { return v && v % 2 == 0 && v <= 2 * h->max + 1; }

/* A letter where a number is due is no digit; the file's end there is another fault. */
static bool names(cursor *c, const header *h, uint32_t *line) {
    for (; c->at < c->end; ++*line) {
        if (*c->at == 'c') { c->at++; return byte(c, '\n'); }
        uint32_t count = *c->at == 'i' ? h->inputs : h->outputs, index;
        if (*c->at != 'i' && *c->at != 'o') { c->fault = OTHER; return false; }
        c->at++;
        if (!number(c, &index)) return false;
        c->fault = OTHER;
        if (index >= count || !byte(c, ' ')) return false;
        const uint8_t *end = memchr(c->at, '\n', c->end - c->at);
        if (!end || end == c->at) return false;
        c->at = end + 1;
    }
    return true;
}

static int check_lines(cursor *c, const header *h, uint32_t *map, uint32_t *outputs, uint32_t *line) {
    uint32_t v, x, y;
    *line = 2;
    for (uint32_t j = 0; j < h->inputs; j++, ++*line) {
        if (!literal(c, &v, '\n')) return 7;
        if (!may_define(h, v)) return 8;
        if (map[v / 2] != UNDEFINED) return 9;
        map[v / 2] = 2 * (j + 1);
    }
    for (uint32_t j = 0; j < h->outputs; j++, ++*line) {
        if (!literal(c, &v, '\n')) return 7;
        if (v > 2 * h->max + 1) return 8;
        outputs[j] = v;
    }
    for (uint32_t j = 0; j < h->ands; j++, ++*line) {
        if (!literal(c, &v, ' ') || !literal(c, &x, ' ') || !literal(c, &y, '\n')) return 7;
        if (!may_define(h, v) || x > 2 * h->max + 1 || y > 2 * h->max + 1) return 8;
        if (map[v / 2] != UNDEFINED) return 9;
        if (map[x / 2] == UNDEFINED || map[y / 2] == UNDEFINED) return 10;
        map[v / 2] = FALSE_EDGE;
    }
    if (!names(c, h, line)) return 7;
    for (uint32_t j = 0; j < h->outputs; j++)
        if (map[outputs[j] / 2] == UNDEFINED) { *line = h->inputs + j + 2; return 10; }
    return DONE;
}

static uint32_t trusted(const uint8_t **at) {
    uint32_t v = 0;
    for (; (uint8_t)(**at - '0') < 10; ++*at) v = 10 * v + (**at - '0');
    ++*at;
    return v;
}

static uint32_t through(const uint32_t *map, uint32_t v) { return map[v / 2] ^ (v & 1); }

static int request_gates(graph *g, const header *h, const uint8_t *at, uint32_t *map, uint32_t *added, uint32_t *line) {
    for (uint32_t j = 0; j < h->ands; j++) {
        uint32_t v = trusted(&at), x = trusted(&at), y = trusted(&at), edge;
        if (and_of(g, through(map, x), through(map, y), &edge, added)) {
            *line = h->inputs + h->outputs + j + 2;
            return FULL;
        }
        map[v / 2] = edge;
    }
    return DONE;
}

static refusal read_circuit(graph *g, const uint8_t *bytes, size_t len, uint32_t *map, size_t places, uint32_t *outputs,
                            size_t outs, uint32_t *added) {
    header h;
    cursor c = {bytes, bytes + len, 0};
    if (len > MAX_BYTES) return (refusal){1, 0, 0};
    if (!read_header(&c, &h)) return (refusal){2, 1, 0};
    int refused = test_header(&h, g->inputs, places, outs);
    if (refused) return (refusal){refused, 1, 0};
    uint32_t line;
    const uint8_t *body = c.at;
    memset(map, 255, (h.max + 1) * sizeof *map);
    map[0] = FALSE_EDGE;
    refused = check_lines(&c, &h, map, outputs, &line);
    if (!refused) {
        for (uint32_t j = 0; j < h.inputs + h.outputs; j++)
            body = (const uint8_t *)memchr(body, '\n', c.end - body) + 1;
        refused = request_gates(g, &h, body, map, added, &line);
    }
    if (refused) {
        memset(map, 255, (h.max + 1) * sizeof *map);
        memset(outputs, 255, h.outputs * sizeof *outputs);
        return (refusal){refused, line, refused == 7 ? c.fault : 0};
    }
    for (uint32_t j = 0; j < h.outputs; j++) outputs[j] = through(map, outputs[j]);
    return (refusal){DONE, 0, 0};
}

/* Writing: the text is measured first, so that a buffer that is too short is left as it was. */

static uint32_t digits(uint32_t v) {
    uint32_t n = 1;
    for (; v > 9; v /= 10) n++;
    return n;
}

static uint8_t *put(uint8_t *at, uint32_t v, uint8_t end) {
    uint32_t n = digits(v);
    for (uint32_t i = n; i-- > 0; v /= 10) at[i] = '0' + v % 10;
    at[n] = end;
    return at + n + 1;
}

static size_t measured(const graph *g, const uint32_t *outputs, size_t outs) {
    size_t n = 4 + digits(g->inputs + g->size) + digits(g->inputs) + 1 + digits(outs) + digits(g->size) + 5;
    for (uint32_t j = 1; j <= g->inputs; j++) n += digits(2 * j) + 1;
    for (size_t j = 0; j < outs; j++) n += digits(outputs[j]) + 1;
    for (uint32_t i = 0; i < g->size; i++) {
        pair p = g->records[i].pair;
        n += digits(2 * (g->inputs + 1 + i)) + digits(p.larger) + digits(p.smaller) + 3;
    }
    return n;
}

static int write_circuit(const graph *g, const uint32_t *outputs, size_t outs, uint8_t *text, size_t room, size_t *len) {
    if (outs > MAX_OUTPUTS) return TOO_MANY;
    for (size_t j = 0; j < outs; j++)
        if (!contains(g, outputs[j])) return NO_NODE;
    size_t most = 59 + 11 * (g->inputs + outs) + 33 * (size_t)g->size;
    if (room < most && measured(g, outputs, outs) > room) return TOO_LONG;
    uint8_t *at = text;
    memcpy(at, "aag ", 4);
    at = put(put(at + 4, g->inputs + g->size, ' '), g->inputs, ' ');
    at = put(put(put(at, 0, ' '), outs, ' '), g->size, '\n');
    for (uint32_t j = 1; j <= g->inputs; j++) at = put(at, 2 * j, '\n');
    for (size_t j = 0; j < outs; j++) at = put(at, outputs[j], '\n');
    for (uint32_t i = 0; i < g->size; i++) {
        pair p = g->records[i].pair;
        at = put(put(put(at, 2 * (g->inputs + 1 + i), ' '), p.larger, ' '), p.smaller, '\n');
    }
    *len = (size_t)(at - text);
    return DONE;
}

/* Questions. */

static uint64_t meaning(const uint64_t *values, uint32_t edge) { return values[edge / 2] ^ -(uint64_t)(edge & 1); }

static int evaluate(const graph *g, const uint64_t *inputs, size_t n, uint64_t *values, size_t places) {
    if (n != g->inputs || places < nodes(g)) return VALUES;
    values[0] = 0;
    memcpy(values + 1, inputs, n * sizeof *values);
    for (uint32_t i = 0; i < g->size; i++) {
        pair p = g->records[i].pair;
        values[n + 1 + i] = meaning(values, p.larger) & meaning(values, p.smaller);
    }
    return DONE;
}

static uint64_t input_block(uint32_t block, uint32_t j) {
    static const uint64_t columns[] = {0xAAAAAAAAAAAAAAAA, 0xCCCCCCCCCCCCCCCC, 0xF0F0F0F0F0F0F0F0,
                                       0xFF00FF00FF00FF00, 0xFFFF0000FFFF0000, 0xFFFFFFFF00000000};
    return j < 6 ? columns[j] : -(uint64_t)(block >> (j - 6) & 1);
}

/* The smallest assignment under which the edges differ, or -1. */
static int compare(const graph *g, uint32_t x, uint32_t y, uint64_t *blocks, size_t places, int64_t *difference) {
    if (!contains(g, x) || !contains(g, y)) return NO_NODE;
    if (g->inputs > 16) return MANY_INPUTS;
    if (places < nodes(g)) return VALUES;
    uint32_t total = 1u << g->inputs;
    for (uint32_t b = 0; b < (total + 63) / 64; b++) {
        uint64_t inputs[16];
        for (uint32_t j = 0; j < g->inputs; j++) inputs[j] = input_block(b, j);
        evaluate(g, inputs, g->inputs, blocks, places);
        uint64_t differs = meaning(blocks, x) ^ meaning(blocks, y);
        if (total < 64) differs &= (1ull << total) - 1;
        if (differs) { *difference = 64 * (int64_t)b + __builtin_ctzll(differs); return DONE; }
    }
    *difference = -1;
    return DONE;
}

/* The measurements: each in so many rounds, of which the shortest time counts. */

static double now(void) {
    struct timespec t;
    clock_gettime(CLOCK_MONOTONIC, &t);
    return t.tv_sec * 1e9 + t.tv_nsec;
}

static void shorter(double *best, double time) { if (time < *best) *best = time; }

static void fail(const char *what) { fprintf(stderr, "%s was refused\n", what); exit(1); }

static void *memory(size_t n, size_t size) {
    void *p = malloc(n * size + 1);
    if (!p) { fprintf(stderr, "no memory\n"); exit(1); }
    return memset(p, 255, n * size); /* so that no page is new while time is taken */
}

static size_t circuit(uint32_t gates, char *text) {
    uint32_t last = INPUTS + gates;
    char *at = text + sprintf(text, "aag %u %d 0 %d %u\n", last, INPUTS, OUTPUTS, gates);
    seed();
    for (uint32_t v = 1; v <= INPUTS; v++) at += sprintf(at, "%u\n", 2 * v);
    for (uint32_t j = 0; j < OUTPUTS; j++) at += sprintf(at, "%u\n", below(2 * last + 2));
    for (uint32_t j = 0; j < gates; j++) {
        uint32_t v = 2 * (INPUTS + 1 + j), x = below(v), y = below(v);
        at += sprintf(at, "%u %u %u\n", v, x, y);
    }
    return at - text;
}

static void press_circuit(uint32_t gates, int rounds) {
    char *bytes = memory(40 * (size_t)(gates + INPUTS + OUTPUTS + 1), 1);
    size_t len = circuit(gates, bytes), written = 0;
    double read_time = 1e18, write_time = 1e18;
    uint32_t added = 0;
    for (int round = 0; round < rounds; round++) {
        size_t places = gates + INPUTS + 1;
        record *records = memory(gates, sizeof *records);
        uint32_t *heads = memory(HEADS, sizeof *heads), *map = memory(places, sizeof *map), outputs[OUTPUTS];
        uint8_t *text = memory(TEXT, 1);
        graph g;
        new_graph(&g, INPUTS, 3, records, gates, heads);
        added = 0;
        double start = now();
        refusal r = read_circuit(&g, (uint8_t *)bytes, len, map, places, outputs, OUTPUTS, &added);
        shorter(&read_time, now() - start);
        if (r.number) fail("a circuit");
        start = now();
        if (write_circuit(&g, outputs, OUTPUTS, text, TEXT, &written)) fail("writing");
        shorter(&write_time, now() - start);
        free(records), free(heads), free(map), free(text);
    }
    printf("chained store, circuit of %u gates: %zu bytes, %u nodes, %zu bytes written, read %.0fns, write %.0fns\n",
           gates, len, added, written, read_time, write_time);
    free(bytes);
}

static uint64_t grow(graph *g, uint32_t size) {
    uint64_t calls = 0;
    for (; calls < 4 * (uint64_t)size && g->size < size; calls++) {
        uint32_t edges = 2 * nodes(g), x = below(edges), y = below(edges), edge, added = 0;
        if (and_of(g, x, y, &edge, &added)) fail("an AND");
    }
    return calls;
}

static void build_graph(uint32_t size, int rounds) {
    double time = 1e18;
    uint64_t calls = 0;
    for (int round = 0; round < rounds; round++) {
        record *records = memory(size, sizeof *records);
        uint32_t *heads = memory(HEADS, sizeof *heads);
        graph g;
        new_graph(&g, INPUTS, 3, records, size, heads);
        seed();
        double start = now();
        calls = grow(&g, size);
        shorter(&time, now() - start);
        size = g.size;
        free(records), free(heads);
    }
    printf("chained store, ANDs of random edges: %lu calls, %u nodes, built %.0fns\n", (unsigned long)calls, size, time);
}

static void evaluate_graph(uint32_t size, int rounds) {
    double time = 1e18;
    uint64_t xor = 0;
    for (int round = 0; round < rounds; round++) {
        record *records = memory(size, sizeof *records);
        uint32_t *heads = memory(HEADS, sizeof *heads);
        uint64_t inputs[INPUTS], *values = memory(size + INPUTS + 1, sizeof *values);
        graph g;
        new_graph(&g, INPUTS, 3, records, size, heads);
        seed();
        grow(&g, size);
        for (int j = 0; j < INPUTS; j++) inputs[j] = next_random();
        double start = now();
        if (evaluate(&g, inputs, INPUTS, values, nodes(&g))) fail("an evaluation");
        shorter(&time, now() - start);
        xor = 0;
        for (uint32_t i = 0; i < nodes(&g); i++) xor ^= values[i];
        free(records), free(heads), free(values);
    }
    printf("chained store, evaluation by blocks: %u nodes, XOR of all words %lu, evaluated %.0fns\n", size,
           (unsigned long)xor, time);
}

enum { FEW = 16 };

static void compare_edges(bool parities, uint32_t size, int rounds) {
    double time = 1e18;
    int64_t difference = 0;
    for (int round = 0; round < rounds; round++) {
        record *records = memory(size, sizeof *records);
        uint32_t *heads = memory(HEADS, sizeof *heads), x = 2, y = 0, added = 0;
        uint64_t *blocks = memory(size + FEW + 1, sizeof *blocks);
        graph g;
        new_graph(&g, FEW, 1, records, size, heads);
        int refused = 0;
        for (uint32_t j = 2; j <= FEW; j++)
            refused |= parities ? xor_of(&g, x, 2 * j, &x) : and_of(&g, x, 2 * j, &x, &added);
        if (parities) {
            y = 2 * FEW;
            for (uint32_t j = FEW - 1; j > 0; j--) refused |= xor_of(&g, 2 * j, y, &y);
        }
        seed();
        grow(&g, size);
        double start = now();
        refused |= compare(&g, x, y, blocks, nodes(&g), &difference);
        shorter(&time, now() - start);
        if (refused) fail("a comparison");
        free(records), free(heads), free(blocks);
    }
    printf("chained store, comparison of %s: %u nodes, ", parities
               ? "the XOR of 16 inputs from the left with that from the right" : "the AND of 16 inputs with false", size);
    if (difference < 0) printf("same");
    else printf("differ %ld", (long)difference);
    printf(", compared %.0fns\n", time);
}

int main(void) {
    press_circuit(1000, 20);
    press_circuit(10000, 20);
    press_circuit(20000, 20);
    press_circuit(40000, 20);
    press_circuit(50000, 10);
    build_graph(1000, 20);
    build_graph(10000, 20);
    build_graph(500000, 3);
    build_graph(1000000, 3);
    evaluate_graph(10000, 20);
    evaluate_graph(100000, 20);
    evaluate_graph(1000000, 5);
    compare_edges(true, 1000, 10);
    compare_edges(true, 10000, 10);
    compare_edges(false, 1000, 10);
    compare_edges(false, 10000, 10);
    return 0;
}
