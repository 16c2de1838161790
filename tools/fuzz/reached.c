/* Coverage of the library as it is, without a compiler's help: a breakpoint stands at each of its instructions, and is taken away and counted when
   it is first reached. Linux on x86-64. */
#define _GNU_SOURCE
#include "reached.h"
#include "tolphaneap.h"

#include <signal.h>
#include <stdint.h>
#include <stdio.h>
#include <stdlib.h>
#include <sys/mman.h>
#include <ucontext.h>
#include <unistd.h>

#define MOST (1 << 16)
#define BREAKPOINT 0xcc

/* One counter an instruction: libFuzzer keeps an input that reaches a new one. */
__attribute__((section("__libfuzzer_extra_counters"))) static uint8_t now[MOST];

static uint8_t *places[MOST], before[MOST];
static int total, reached;

static int place_of(const uint8_t *at) {
    int low = 0, high = total;
    while (low < high) {
        int middle = (low + high) / 2;
        if (places[middle] < at) low = middle + 1;
        else high = middle;
    }
    return low < total && places[low] == at ? low : -1;
}

static void on_breakpoint(int signal, siginfo_t *info, void *context) {
    (void)signal, (void)info;
    greg_t *registers = ((ucontext_t *)context)->uc_mcontext.gregs;
    uint8_t *at = (uint8_t *)registers[REG_RIP] - 1;
    int i = place_of(at);
    if (i < 0) abort();
    *at = before[i];
    now[i] = 1;
    reached++;
    registers[REG_RIP] = (greg_t)at;
}

static void tell(void) { fprintf(stderr, "fuzz: %d of %d instructions of the library reached\n", reached, total); }

/* The file has a line for each instruction, lowest first: its distance from tolphaneap_parse. */
void watch(const char *file) {
    FILE *list = fopen(file, "r");
    long distance;
    if (list == NULL) {
        fprintf(stderr, "fuzz: no %s, so the library's code is not watched\n", file);
        return;
    }
    while (total < MOST && fscanf(list, "%ld", &distance) == 1) places[total++] = (uint8_t *)(intptr_t)tolphaneap_parse + distance;
    fclose(list);
    if (total == 0) {
        fprintf(stderr, "fuzz: %s is empty\n", file);
        exit(1);
    }
    struct sigaction action = {.sa_sigaction = on_breakpoint, .sa_flags = SA_SIGINFO};
    uintptr_t page = (uintptr_t)sysconf(_SC_PAGESIZE), first = (uintptr_t)places[0] / page * page, last = (uintptr_t)places[total - 1] + 16;
    if (sigaction(SIGTRAP, &action, NULL) != 0 || mprotect((void *)first, last - first, PROT_READ | PROT_WRITE | PROT_EXEC) != 0) {
        perror("fuzz: the library's code cannot be watched");
        exit(1);
    }
    for (int i = 0; i < total; i++) {
        before[i] = *places[i];
        *places[i] = BREAKPOINT;
    }
    atexit(tell);
}
