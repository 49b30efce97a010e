// Stuck faults of a netlist of gates and registers, as `yse fault` prints them: a loop in plain C, tuned and with no
// proof, for bench/faults. It runs 62 faults beside the good design in two 64-bit words a signal, by one thread, in
// rank order; a group ends once all of its faults are seen. It knows AND, NAND, OR, NOR, XOR, XNOR, NOT, BUFF, DFF and
// values 0, 1 and x, and trusts its files.
//
// usage: faults NETLIST STIMULUS [0]      (0: registers begin with 0, else with x)
#include <stdint.h>
#include <stdio.h>
#include <stdlib.h>
#include <string.h>

enum kind { AND, NAND, OR, NOR, XOR, XNOR, NOT, BUFF, DFF, INPUT };
static const char *WORDS[] = { "AND", "NAND", "OR", "NOR", "XOR", "XNOR", "NOT", "BUFF", "DFF" };

struct signal { char *name; enum kind kind; int *ops; int count, rank; };
struct op { enum kind kind; int a, b, out, last; };
// a lane's value is 0, 1 by `one`, or x where `unknown` is set; `one` is then 0
struct planes { uint64_t one, unknown; };
struct row { char *values; long times; };

static struct signal *signals; static int count, room;
static int *printed, outputs;
static int *table; static size_t slots;

static char *all_of(const char *path) {
    FILE *file = fopen(path, "rb");
    if (!file) { perror(path); exit(1); }
    fseek(file, 0, SEEK_END);
    long size = ftell(file);
    rewind(file);
    char *text = malloc(size + 1);
    if (fread(text, 1, size, file) != (size_t)size) { perror(path); exit(1); }
    text[size] = 0;
    fclose(file);
    return text;
}

static size_t slot_of(const char *name, size_t length) {
    uint64_t hash = 1469598103934665603u;
    for (size_t k = 0; k < length; k++) hash = (hash ^ (unsigned char)name[k]) * 1099511628211u;
    size_t at = hash & (slots - 1);
    while (table[at] >= 0 && (strncmp(signals[table[at]].name, name, length) || signals[table[at]].name[length]))
        at = (at + 1) & (slots - 1);
    return at;
}

static int number_of(const char *name, size_t length) {
    int number = table[slot_of(name, length)];
    if (number < 0) { fprintf(stderr, "no signal %.*s\n", (int)length, name); exit(1); }
    return number;
}

static int add(const char *name, size_t length, enum kind kind) {
    size_t at = slot_of(name, length);
    signals[count] = (struct signal){ .name = strndup(name, length), .kind = kind };
    table[at] = count;
    return count++;
}

static const char *SIGNS = " \t\r()=,";

// the next word of a line, or none
static char *word_of(char **line, size_t *length) {
    *line += strspn(*line, SIGNS);
    char *word = *line;
    *length = strcspn(word, " \t\r()=,\n#");
    *line += *length;
    return *length ? word : NULL;
}

static int is(const char *word, size_t length, const char *other) {
    return strlen(other) == length && !strncasecmp(word, other, length);
}

// inputs are numbered first, and then what gates and registers drive, in the order of the lines
static void read_netlist(char *text) {
    for (char *at = text; *at; at++) room += *at == '\n';
    room += 2;
    for (slots = 4; slots < 4 * (size_t)room; slots *= 2) {}
    signals = malloc(room * sizeof *signals);
    printed = malloc(room * sizeof *printed);
    table = malloc(slots * sizeof *table);
    memset(table, 0xff, slots * sizeof *table);
    for (int pass = 0; pass < 3; pass++) {
        for (char *line = text; *line;) {
            char *end = line + strcspn(line, "\n"), *at = line;
            size_t length, other;
            char *word = word_of(&at, &length);
            if (word && is(word, length, "INPUT")) {
                char *name = word_of(&at, &other);
                if (pass == 0) add(name, other, INPUT);
            } else if (word && is(word, length, "OUTPUT")) {
                char *name = word_of(&at, &other);
                if (pass == 2) printed[outputs++] = number_of(name, other);
            } else if (word && pass == 1) {
                char *kind = word_of(&at, &other);
                enum kind k = AND;
                while (k < DFF && !is(kind, other, WORDS[k])) k++;
                add(word, length, k);
            } else if (word) {
                if (pass == 2) {
                    struct signal *it = &signals[number_of(word, length)];
                    word_of(&at, &other);
                    it->ops = malloc(((end - at) / 2 + 1) * sizeof *it->ops);
                    for (char *op; (op = word_of(&at, &other)) && op < end;) it->ops[it->count++] = number_of(op, other);
                }
            }
            line = *end ? end + 1 : end;
        }
    }
}

static int *order, ordered, *registers, register_count, input_count;

// each gate after its operands, by a walk with a stack of its own
static void rank_all(void) {
    int *stack = malloc((count + 1) * sizeof *stack), *next = calloc(count, sizeof *next);
    order = malloc(count * sizeof *order);
    registers = malloc(count * sizeof *registers);
    for (int s = 0; s < count; s++) {
        input_count += signals[s].kind == INPUT;
        if (signals[s].kind == DFF) registers[register_count++] = s;
        if (signals[s].kind >= DFF || signals[s].rank) continue;
        int top = 0;
        stack[0] = s;
        signals[s].rank = 1;
        while (top >= 0) {
            struct signal *it = &signals[stack[top]];
            if (next[stack[top]] == it->count) { order[ordered++] = stack[top--]; continue; }
            int operand = it->ops[next[stack[top]]++];
            if (signals[operand].kind < DFF && !signals[operand].rank) { signals[operand].rank = 1; stack[++top] = operand; }
        }
    }
    free(stack);
    free(next);
}

static struct op *ops; static int op_count;

static void lay_out(void) {
    static const enum kind BASE[] = { AND, AND, OR, OR, XOR, XOR, NOT, BUFF };
    int most = 0;
    for (int k = 0; k < ordered; k++) most += signals[order[k]].count;
    ops = malloc((most + 1) * sizeof *ops);
    for (int k = 0; k < ordered; k++) {
        struct signal *it = &signals[order[k]];
        int out = order[k];
        if (it->count == 1) {
            int inverts = it->kind == NOT || it->kind == NAND || it->kind == NOR || it->kind == XNOR;
            ops[op_count++] = (struct op){ inverts ? NOT : BUFF, it->ops[0], it->ops[0], out, 1 };
            continue;
        }
        for (int j = 1; j < it->count; j++) {
            int last = j == it->count - 1;
            ops[op_count++] = (struct op){ last ? it->kind : BASE[it->kind], j == 1 ? it->ops[0] : out, it->ops[j], out, last };
        }
    }
}

static struct row *rows; static long row_count;

static void read_rows(char *text) {
    long lines = 1;
    for (char *at = text; *at; at++) lines += *at == '\n';
    rows = malloc(lines * sizeof *rows);
    for (char *line = text; *line;) {
        char *end = line + strcspn(line, "\n"), *values = malloc(end - line + 1), *star = NULL;
        long got = 0;
        for (char *at = line; at < end && *at != '#'; at++) {
            if (*at == '*') { star = at + 1; break; }
            if (strchr("01xX", *at)) values[got++] = *at;
        }
        if (got || star) rows[row_count++] = (struct row){ values, star ? strtol(star, NULL, 10) : 1 };
        else free(values);
        line = *end ? end + 1 : end;
    }
}

static const struct planes X = { 0, ~0ull };

static inline struct planes eval(enum kind kind, struct planes p, struct planes q) {
    struct planes r;
    switch (kind) {
    case AND: case NAND:
        r.one = p.one & q.one;
        r.unknown = (p.one | p.unknown) & (q.one | q.unknown) & ~r.one;
        break;
    case OR: case NOR:
        r.one = p.one | q.one;
        r.unknown = (p.unknown | q.unknown) & ~r.one;
        break;
    case XOR: case XNOR:
        r.unknown = p.unknown | q.unknown;
        r.one = (p.one ^ q.one) & ~r.unknown;
        break;
    default:
        r = p;
    }
    if (kind == NAND || kind == NOR || kind == XNOR || kind == NOT) r.one = ~(r.one | r.unknown);
    return r;
}

static inline struct planes forced(struct planes p, struct planes force) {
    return (struct planes){ (p.one & force.unknown) | force.one, p.unknown & force.unknown };
}

enum { GROUP = 62 };

// the verdicts of the faults from number `from` on: 2 * signal for stuck at 0, and 2 * signal + 1 for stuck at 1
static void run_group(int from, int faults, int zero, int *cycles, int *columns, struct planes *now, struct planes *force, unsigned char *stuck, struct planes *kept) {
    for (int s = 0; s < count; s++) now[s] = X;
    for (int k = 0; k < faults; k++) {
        int s = (from + k) / 2;
        if (!stuck[s]) force[s] = X;
        stuck[s] = 1;
        force[s].unknown &= ~(2ull << k);
        if ((from + k) % 2) force[s].one |= 2ull << k;
    }
    uint64_t left = ((2ull << faults) - 1) & ~1ull;
    int cycle = 0;
    for (long r = 0; r < row_count && left; r++) {
        for (long t = 0; t < rows[r].times && left; t++) {
            cycle++;
            for (int k = 0; k < register_count; k++) kept[k] = now[signals[registers[k]].ops[0]];
            for (int k = 0; k < register_count; k++) {
                struct planes v = cycle > 1 ? kept[k] : zero ? (struct planes){ 0, 0 } : X;
                now[registers[k]] = stuck[registers[k]] ? forced(v, force[registers[k]]) : v;
            }
            for (int s = 0; s < input_count; s++) {
                char c = rows[r].values[s];
                struct planes v = c == '0' ? (struct planes){ 0, 0 } : c == '1' ? (struct planes){ ~0ull, 0 } : X;
                now[s] = stuck[s] ? forced(v, force[s]) : v;
            }
            for (int k = 0; k < op_count; k++) {
                struct op op = ops[k];
                struct planes v = eval(op.kind, now[op.a], now[op.b]);
                if (op.last && stuck[op.out]) v = forced(v, force[op.out]);
                now[op.out] = v;
            }
            for (int j = 0; j < outputs; j++) {
                struct planes p = now[printed[j]];
                if (p.unknown & 1) continue;
                uint64_t good = p.one & 1 ? ~0ull : 0, other = (p.one ^ good) & ~p.unknown & left;
                left &= ~other;
                for (; other; other &= other - 1) {
                    int k = __builtin_ctzll(other) - 1;
                    cycles[from + k] = cycle;
                    columns[from + k] = j;
                }
            }
        }
    }
    for (int k = 0; k < faults; k++) {
        stuck[(from + k) / 2] = 0;
        force[(from + k) / 2] = (struct planes){ 0, 0 };
    }
}

int main(int argc, char **argv) {
    if (argc < 3) { fprintf(stderr, "usage: faults NETLIST STIMULUS [0]\n"); return 2; }
    read_netlist(all_of(argv[1]));
    read_rows(all_of(argv[2]));
    rank_all();
    lay_out();
    int all = 2 * count, seen = 0;
    int *cycles = calloc(all + 1, sizeof *cycles), *columns = calloc(all + 1, sizeof *columns);
    struct planes *now = malloc((count + 1) * sizeof *now), *kept = malloc((count + 1) * sizeof *kept), *force = calloc(count + 1, sizeof *force);
    unsigned char *stuck = calloc(count + 1, 1);
    for (int from = 0; from < all; from += GROUP)
        run_group(from, all - from < GROUP ? all - from : GROUP, argc > 3, cycles, columns, now, force, stuck, kept);
    for (int k = 0; k < all; k++) {
        seen += cycles[k] > 0;
        if (cycles[k]) printf("%s %d %d %s\n", signals[k / 2].name, k % 2, cycles[k], signals[printed[columns[k]]].name);
        else printf("%s %d -\n", signals[k / 2].name, k % 2);
    }
    printf("detected %d of %d\n", seen, all);
    return 0;
}
