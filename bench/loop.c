/* The loop that the reference simulation is compared with: operations on two places, each with its
 * sixteen answers in it, registers and memories, and nothing proved.
 *
 * usage: loop OPS ROWS CYCLES
 *
 * OPS has numbers of 32 bits: the inputs, the signals, the turns of a cycle, the printed signals, the
 * operations, the registers and the memories; then the printed signals; then each operation: its place,
 * its two operands and its table; then each register: its place and its operand; then each memory: its
 * first output, its address bits, the bits of a word and its enable, and the operands of address and data
 * from bit 0 on. An operand is of this turn, or of the last one if it is greater by all signals; the place
 * after both is for what stands between. Registers and memories take what is there before an edge. All
 * begins with x. ROWS has a line of 0 and 1 for each cycle. */
#include <stdint.h>
#include <stdio.h>
#include <stdlib.h>
#include <string.h>

struct op {
    uint32_t place, a, b, table;
};

struct latch {
    uint32_t place, from;
};

struct memory {
    uint32_t first, address, width, enable, *at, *data;
    uint8_t *words, *answer;
};

struct net {
    uint32_t inputs, signals, turns, printed, ops, latches, memories;
    uint32_t *shown;
    struct op *op;
    struct latch *latch;
    struct memory *memory;
    uint8_t *values, *kept;
};

/* So many bytes. */
static void *room(size_t bytes) {
    void *found = malloc(bytes + 1);
    if (!found)
        exit(3);
    return found;
}

/* So many undefined values. */
static uint8_t *unknown(size_t count) {
    return memset(room(count), 2, count);
}

/* The next numbers of a file. */
static void *numbers(FILE *file, size_t count) {
    void *found = room(4 * count);
    if (fread(found, 4, count, file) != count)
        exit(3);
    return found;
}

/* The next memory of a file. */
static struct memory read_memory(FILE *file) {
    struct memory it;
    uint32_t *head = numbers(file, 4);
    it.first = head[0], it.address = head[1], it.width = head[2], it.enable = head[3];
    it.at = numbers(file, it.address);
    it.data = numbers(file, it.width);
    it.words = unknown((size_t)it.width << it.address);
    it.answer = unknown(it.width);
    free(head);
    return it;
}

/* The netlist of a file, before its first turn. */
static struct net read_net(FILE *file) {
    struct net net;
    uint32_t *head = numbers(file, 7);
    net.inputs = head[0], net.signals = head[1], net.turns = head[2];
    net.printed = head[3], net.ops = head[4], net.latches = head[5], net.memories = head[6];
    net.shown = numbers(file, net.printed);
    net.op = numbers(file, 4 * (size_t)net.ops);
    net.latch = numbers(file, 2 * (size_t)net.latches);
    net.memory = room(sizeof *net.memory * net.memories);
    for (uint32_t k = 0; k < net.memories; k++)
        net.memory[k] = read_memory(file);
    net.values = unknown(2 * (size_t)net.signals + 1);
    net.kept = unknown(net.latches);
    free(head);
    return net;
}

/* High impedance as undefined, and any other value as it is. */
static inline uint8_t settled(uint8_t value) {
    return value - (value == 3);
}

/* A memory reads, and then writes, by the values of the state before. */
static void act(struct memory *it, const uint8_t *values) {
    uint8_t enable = values[it->enable], vague = 0;
    size_t at = 0;
    for (uint32_t k = 0; k < it->address; k++) {
        uint8_t bit = values[it->at[k]];
        vague |= bit & 2;
        at |= (size_t)(bit & 1) << k;
    }
    uint8_t *word = it->words + at * it->width;
    if (vague)
        memset(it->answer, 2, it->width);
    else
        memcpy(it->answer, word, it->width);
    if (enable == 0)
        return;
    if (vague)
        memset(it->words, 2, (size_t)it->width << it->address);
    else
        for (uint32_t k = 0; k < it->width; k++)
            word[k] = enable == 1 ? settled(values[it->data[k]]) : 2;
}

/* What registers and memories take of the state before, and then have: none reads what another has now. */
static void edge(struct net *net) {
    uint8_t *values = net->values, *kept = net->kept;
    const struct latch *latch = net->latch;
    uint32_t latches = net->latches;
    for (uint32_t k = 0; k < latches; k++)
        kept[k] = settled(values[latch[k].from]);
    for (uint32_t k = 0; k < net->memories; k++)
        act(&net->memory[k], values);
    for (uint32_t k = 0; k < latches; k++)
        values[latch[k].place] = kept[k];
    for (uint32_t k = 0; k < net->memories; k++)
        memcpy(values + net->memory[k].first, net->memory[k].answer, net->memory[k].width);
}

/* The turns of a cycle. Where there is one, no operation takes a value of the last turn, and none is kept. */
static void run_cycle(struct net *net, const char *row, int first) {
    uint8_t *values = net->values;
    const struct op *list = net->op, *end = list + net->ops;
    for (uint32_t turn = 0; turn < net->turns; turn++) {
        if (net->turns > 1)
            memcpy(values + net->signals, values, net->signals);
        if (turn == 0 && !first)
            edge(net);
        for (uint32_t k = 0; k < net->inputs; k++)
            values[k] = row[k] - '0';
        for (const struct op *op = list; op < end; op++)
            values[op->place] = op->table >> 2 * (values[op->a] + 4 * values[op->b]) & 3;
    }
}

int main(int count, char **words) {
    FILE *file = count == 4 ? fopen(words[1], "rb") : NULL;
    FILE *rows = count == 4 ? fopen(words[2], "r") : NULL;
    if (!file || !rows)
        return 2;
    struct net net = read_net(file);
    char *row = room(net.inputs + 3), *line = room(net.printed + 1);
    puts("cycle");
    for (long cycle = 1; cycle <= atol(words[3]); cycle++) {
        if (!fgets(row, net.inputs + 3, rows))
            return 4;
        run_cycle(&net, row, cycle == 1);
        for (uint32_t k = 0; k < net.printed; k++)
            line[k] = "01xz"[net.values[net.shown[k]]];
        line[net.printed] = 0;
        printf("%ld %s\n", cycle, line);
    }
    return 0;
}
