/* A plain interpreter of RV32IM with a switch loop, as a C programmer would write it: what `plural serial` is timed beside. It runs
   the tasks of a map serially with the same checks: the nine traps, regions, budgets, a private cache with its misses, the
   counts of each instance.

   usage: interpreter CODE IMAGE MAP
   CODE holds the kernels' words, little-endian. IMAGE is the memory, a hexadecimal word a line. MAP has the numbers of
   words and of tasks; then for each task its quota, budget, numbers of dependencies and of regions, each dependency's task
   and code (2 for any), and of each region whether it is written, base, stride and count. Each kernel ends with its one
   ecall, and the kernels stand in the order of the tasks. It writes how many instructions ran and the sum of the last memory.

   By default each word is decoded when it is fetched. With -DONCE the words are decoded once, before the run. */
#include <stdint.h>
#include <stdio.h>
#include <stdlib.h>
#include <string.h>
typedef uint32_t u32;
typedef int32_t i32;
typedef uint64_t u64;

static u32 *mem;
static inline u32 mem_read(u32 a) { return mem[a]; }
static inline void mem_write(u32 a, u32 v) { mem[a] = v; }
static u32 words, code_words, code[16384];

/* ---- task map ---- */
typedef struct { int write; u32 base, stride, count; } Region;
typedef struct { u32 on, code; } Dep; /* code: 2 for any */
typedef struct { u32 quota, entry, budget, deps, regions; Dep dep[16]; Region region[8]; } Task;
typedef struct { u32 instructions, loads, misses, stores; int end; u32 trap_pc; } Record; /* end: code, 2 spent, 10 + cause */

/* ---- cache: 16 sets, 2 ways, lines of 8 words, least recently loaded goes ---- */
enum { SETS = 16, WAYS = 2, NONE = 0xffffffff };
typedef struct { u32 line[SETS][WAYS], age[SETS][WAYS], data[SETS][WAYS][8], tick; } Cache;

static void cache_empty(Cache *c) { memset(c->line, 0xff, sizeof c->line); memset(c->age, 0, sizeof c->age); c->tick = 0; }
static inline u32 cache_load(Cache *c, Record *r, u32 a) {
    u32 line = a / 8, set = line % SETS, way = 0;
    r->loads++;
    for (u32 w = 0; w < WAYS; w++) {
        if (c->line[set][w] == line) { c->age[set][w] = ++c->tick; return c->data[set][w][a % 8]; }
        if (c->age[set][w] < c->age[set][way]) way = w;
    }
    r->misses++;
    for (u32 i = 0; i < 8; i++) c->data[set][way][i] = mem_read(line * 8 + i);
    c->line[set][way] = line;
    c->age[set][way] = ++c->tick;
    return c->data[set][way][a % 8];
}
static inline void cache_store(Cache *c, Record *r, u32 a, u32 v) {
    u32 line = a / 8, set = line % SETS;
    r->stores++;
    for (u32 w = 0; w < WAYS; w++) if (c->line[set][w] == line) c->data[set][w][a % 8] = v;
    mem_write(a, v);
}

/* ---- decoding ---- */
enum { LUI, AUIPC, JAL, JALR, BEQ, BNE, BLT, BGE, BLTU, BGEU, LB, LH, LW, LBU, LHU, SB, SH, SW, ADDI, SLTI, SLTIU, XORI, ORI, ANDI,
       SLLI, SRLI, SRAI, ADD, SUB, SLL, SLT, SLTU, XOR, SRL, SRA, OR, AND, MUL, MULH, MULHSU, MULHU, DIV, DIVU, REM, REMU,
       FENCE, ECALL, EBREAK, ILLEGAL };
typedef struct { uint8_t op, rd, rs1, rs2; i32 imm; } Instr;

static inline Instr decode(u32 w) {
    static const uint8_t branch[8] = {BEQ, BNE, ILLEGAL, ILLEGAL, BLT, BGE, BLTU, BGEU};
    static const uint8_t load[8] = {LB, LH, LW, ILLEGAL, LBU, LHU, ILLEGAL, ILLEGAL};
    static const uint8_t imm_op[8] = {ADDI, SLLI, SLTI, SLTIU, XORI, SRLI, ORI, ANDI};
    static const uint8_t reg_op[8] = {ADD, SLL, SLT, SLTU, XOR, SRL, OR, AND};
    u32 f3 = w >> 12 & 7, f7 = w >> 25;
    i32 s = (i32)w;
    Instr i = {ILLEGAL, w >> 7 & 31, w >> 15 & 31, w >> 20 & 31, s >> 20};
    switch (w & 127) {
    case 0x37: i.op = LUI; i.imm = (i32)(w & 0xfffff000); break;
    case 0x17: i.op = AUIPC; i.imm = (i32)(w & 0xfffff000); break;
    case 0x6f: i.op = JAL; i.imm = (s >> 31) * (1 << 20) | (i32)((w & 0xff000) | (w >> 9 & 0x800) | (w >> 20 & 0x7fe)); break;
    case 0x67: if (f3 == 0) i.op = JALR; break;
    case 0x63: i.op = branch[f3]; i.imm = (s >> 31) * (1 << 12) | (i32)((w << 4 & 0x800) | (w >> 20 & 0x7e0) | (w >> 7 & 0x1e)); break;
    case 0x03: i.op = load[f3]; break;
    case 0x23: if (f3 < 3) i.op = SB + f3; i.imm = (s >> 25) * 32 | (i32)(w >> 7 & 31); break;
    case 0x13:
        if (f3 != 1 && f3 != 5) i.op = imm_op[f3];
        else if (f7 == 0) { i.op = imm_op[f3]; i.imm = i.rs2; }
        else if (f7 == 0x20 && f3 == 5) { i.op = SRAI; i.imm = i.rs2; }
        break;
    case 0x33:
        if (f7 == 0) i.op = reg_op[f3];
        else if (f7 == 1) i.op = MUL + f3;
        else if (f7 == 0x20 && f3 == 0) i.op = SUB;
        else if (f7 == 0x20 && f3 == 5) i.op = SRA;
        break;
    case 0x0f: if (f3 == 0) i.op = FENCE; break;
    case 0x73: i.op = w == 0x73 ? ECALL : w == 0x100073 ? EBREAK : ILLEGAL; break;
    }
    return i;
}

#ifdef ONCE
static Instr decoded[16384];
static inline Instr instr_at(u32 pc) { return decoded[pc / 4]; }
static void decode_all(void) { for (u32 p = 0; p < code_words; p++) decoded[p] = decode(code[p]); }
#else
static inline Instr instr_at(u32 pc) { return decode(code[pc / 4]); }
static void decode_all(void) {}
#endif

/* ---- one instance ---- */
#define TRAP(cause) do { r.end = 10 + (cause); r.trap_pc = pc; return r; } while (0)
static Record run(const Task *t, u32 k, Cache *cache) {
    u32 x[32] = {0}, pc = t->entry, q = t->quota;
    Record r = {0};
    x[10] = k; x[11] = q;
    struct { u32 lo, count, write; } window[8];
    for (u32 n = 0; n < t->regions; n++) {
        window[n].lo = t->region[n].base + t->region[n].stride * k;
        window[n].count = t->region[n].count;
        window[n].write = t->region[n].write;
    }
    cache_empty(cache);
    for (;;) {
        if (pc / 4 >= code_words) TRAP(1);
        Instr i = instr_at(pc);
        u32 a = x[i.rs1], b = x[i.rs2], v = 0, next = pc + 4, at = a + i.imm, size, raw, ok = 0;
        switch (i.op) {
        case LUI: v = i.imm; break;
        case AUIPC: v = pc + i.imm; break;
        case JAL: v = pc + 4; next = pc + i.imm; if (next % 4) TRAP(3); break;
        case JALR: v = pc + 4; next = at & ~1u; if (next % 4) TRAP(3); break;
#define BRANCH(op, test) case op: if (test) { next = pc + i.imm; if (next % 4) TRAP(3); } goto no_rd;
        BRANCH(BEQ, a == b) BRANCH(BNE, a != b) BRANCH(BLT, (i32)a < (i32)b)
        BRANCH(BGE, (i32)a >= (i32)b) BRANCH(BLTU, a < b) BRANCH(BGEU, a >= b)
        case LB: case LBU: size = 1; goto load;
        case LH: case LHU: size = 2; goto load;
        case LW: size = 4;
        load:
            if (at % size) TRAP(4);
            for (u32 n = 0; n < t->regions; n++) if (at / 4 - window[n].lo < window[n].count) { ok = 1; break; }
            if (!ok) TRAP(5);
            raw = cache_load(cache, &r, at / 4) >> at % 4 * 8;
            v = i.op == LW ? raw : i.op == LB ? (u32)(int8_t)raw : i.op == LBU ? (uint8_t)raw : i.op == LH ? (u32)(int16_t)raw : (uint16_t)raw;
            break;
        case SB: size = 1; goto store;
        case SH: size = 2; goto store;
        case SW: size = 4;
        store:
            if (at % size) TRAP(6);
            for (u32 n = 0; n < t->regions; n++) if (window[n].write && at / 4 - window[n].lo < window[n].count) { ok = 1; break; }
            if (!ok) TRAP(7);
            if (size < 4) {
                u32 mask = (size == 1 ? 0xffu : 0xffffu) << at % 4 * 8;
                b = (cache_load(cache, &r, at / 4) & ~mask) | (b << at % 4 * 8 & mask);
            }
            cache_store(cache, &r, at / 4, b);
            goto no_rd;
        case ADDI: v = at; break;
        case SLTI: v = (i32)a < i.imm; break;
        case SLTIU: v = a < (u32)i.imm; break;
        case XORI: v = a ^ i.imm; break;
        case ORI: v = a | i.imm; break;
        case ANDI: v = a & i.imm; break;
        case SLLI: v = a << i.imm; break;
        case SRLI: v = a >> i.imm; break;
        case SRAI: v = (i32)a >> i.imm; break;
        case ADD: v = a + b; break;
        case SUB: v = a - b; break;
        case SLL: v = a << (b & 31); break;
        case SLT: v = (i32)a < (i32)b; break;
        case SLTU: v = a < b; break;
        case XOR: v = a ^ b; break;
        case SRL: v = a >> (b & 31); break;
        case SRA: v = (i32)a >> (b & 31); break;
        case OR: v = a | b; break;
        case AND: v = a & b; break;
        case MUL: v = a * b; break;
        case MULH: v = (u64)((int64_t)(i32)a * (i32)b) >> 32; break;
        case MULHSU: v = (u64)((int64_t)(i32)a * (int64_t)b) >> 32; break;
        case MULHU: v = (u64)a * b >> 32; break;
        case DIV: v = b == 0 ? ~0u : a == 0x80000000 && b == ~0u ? a : (u32)((i32)a / (i32)b); break;
        case DIVU: v = b == 0 ? ~0u : a / b; break;
        case REM: v = b == 0 ? a : b == ~0u ? 0 : (u32)((i32)a % (i32)b); break;
        case REMU: v = b == 0 ? a : a % b; break;
        case FENCE: goto no_rd;
        case ECALL: if (x[10] > 1) TRAP(9); r.instructions++; r.end = x[10]; return r;
        case EBREAK: TRAP(8);
        default: TRAP(2);
        }
        if (i.rd) x[i.rd] = v;
    no_rd:
        pc = next;
        if (++r.instructions == t->budget) { r.end = 2; return r; }
    }
}

/* ---- the whole run ---- */
static u32 number(FILE *f) {
    u32 n = 0;
    if (fscanf(f, "%u", &n) != 1) exit(2);
    return n;
}

static u32 read_map(FILE *f, Task *tasks) {
    words = number(f);
    u32 count = number(f);
    for (u32 t = 0; t < count; t++) {
        Task *it = &tasks[t];
        it->quota = number(f), it->budget = number(f), it->deps = number(f), it->regions = number(f);
        for (u32 d = 0; d < it->deps; d++) it->dep[d].on = number(f), it->dep[d].code = number(f);
        for (u32 r = 0; r < it->regions; r++) {
            Region *at = &it->region[r];
            at->write = number(f), at->base = number(f), at->stride = number(f), at->count = number(f);
        }
    }
    return count;
}

static void setup(const char *code_file, const char *image_file, Task *tasks, u32 count) {
    FILE *f = fopen(code_file, "rb"), *g = fopen(image_file, "r");
    u32 v;
    if (!f || !g) exit(2);
    code_words = fread(code, 4, 16384, f);
    mem = calloc(words, sizeof *mem);
    for (u32 a = 0; a < words && fscanf(g, "%x", &v) == 1; a++) mem[a] = v;
    for (u32 p = 0, t = 1; t < count; t++) { while (code[p] != 0x73) p++; tasks[t].entry = 4 * ++p; }
    decode_all();
}

/* Whether a task runs; no task fails here, since the run then ends. */
static int runs(const Task *t, const int *end) {
    for (u32 d = 0; d < t->deps; d++) if (t->dep[d].code < 2 && end[t->dep[d].on] != (int)t->dep[d].code) return 0;
    return 1;
}

int main(int argc, char **argv) {
    static Cache cache;
    static Task tasks[64];
    FILE *f;
    if (argc != 4 || !(f = fopen(argv[3], "r"))) return 2;
    u32 count = read_map(f, tasks), sum = 0;
    u64 total = 0;
    int end[64] = {0};
    setup(argv[1], argv[2], tasks, count);
    for (u32 t = 0; t < count; t++) {
        if (!runs(&tasks[t], end)) { end[t] = -1; continue; }
        for (u32 k = 0; k < tasks[t].quota; k++) {
            Record r = run(&tasks[t], k, &cache);
            total += r.instructions;
            if (r.end > end[t]) end[t] = r.end;
            if (r.end > 1) { printf("task %u instance %u: end %d pc %08x\n", t, k, r.end, r.trap_pc); return 1; }
        }
    }
    for (u32 a = 0; a < words; a++) sum += mem[a];
    printf("%llu %u\n", (unsigned long long)total, sum);
    return 0;
}
