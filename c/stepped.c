#include <stdio.h>
#include <string.h>
#include "stilefray.h"

enum { S = 1024, N = 4, PATIENCE = 1000 }; /* regions of S bytes, N of them, and how often an operation asks for one service */

static uint8_t region[S]; /* the region buffer: while an operation runs or a service is under way, nothing else may use it */
/* The service that was asked for and is not over, also after its operation; kind 0: none. Stop it, or erase the chip, and make that 0. */
static stilefray_request under_way;

/* Stands for a slow flash: a service is begun at the first call, and is done at the fourth. Put your driver here. */
static uint8_t chip[N * S];
static struct { uint32_t kind; size_t place; unsigned calls; } begun;
static unsigned calls, services;
static int stuck;

/* One service at a time: to any other it is busy, so that none takes the end of another for its own. */
static int busy(uint32_t kind, size_t place) {
    calls++;
    if (begun.kind == 0) begun.kind = kind, begun.place = place, begun.calls = 0;
    if (stuck || begun.kind != kind || begun.place != place || ++begun.calls < 4) return 1;
    begun.kind = 0;
    services++;
    return 0;
}

static uint32_t flash_read(size_t r) {
    if (busy(STILEFRAY_READ, r * S)) return STILEFRAY_NOT_READY;
    memcpy(region, chip + r * S, S);
    return STILEFRAY_DONE;
}

/* It reads back what it wrote: a worn flash fails here. */
static uint32_t flash_write(size_t place, const uint8_t *bytes, size_t len) {
    size_t i;
    if (busy(STILEFRAY_WRITE, place)) return STILEFRAY_NOT_READY;
    for (i = 0; i < len; i++) chip[place + i] &= bytes[i];
    return memcmp(chip + place, bytes, len) == 0 ? STILEFRAY_DONE : STILEFRAY_FAILED;
}

static uint32_t flash_erase(size_t r) {
    if (busy(STILEFRAY_ERASE, r * S)) return STILEFRAY_NOT_READY;
    memset(chip + r * S, 255, S);
    return STILEFRAY_DONE;
}

/* The loop, to be lifted with `under_way`: does what the step asks for, and says to the next one how it went. */
static uint32_t serve(const stilefray_request *request) {
    switch (request->kind) {
    case STILEFRAY_READ: return flash_read(request->region);
    case STILEFRAY_WRITE: return flash_write(request->place, region + request->from, request->to - request->from);
    case STILEFRAY_ERASE: return flash_erase(request->region);
    default: return STILEFRAY_DONE; /* nothing is under way */
    }
}

static uint32_t ask(stilefray_request request) {
    unsigned asked = 0;
    uint32_t reply;
    under_way = request;
    while ((reply = serve(&request)) == STILEFRAY_NOT_READY) /* sleep here, or do other work */
        if (++asked == PATIENCE) return STILEFRAY_FAILED;    /* the store would ask for ever; the flash may still be at it */
    under_way.kind = 0;
    return reply;
}

static stilefray_answer run(stilefray_start start, const uint8_t *value, size_t value_len, uint8_t *buffer, size_t buffer_len) {
    stilefray_answer refused = {STILEFRAY_REFUSED, start.refusal, 0};
    stilefray_stepped now;
    if (start.refusal != 0) return refused;
    refused.refusal = STILEFRAY_FLASH_FAILED; /* a service that was given up: until it is done, nothing of this operation is begun */
    if (ask(under_way) != STILEFRAY_DONE) return refused;
    now = stilefray_step(start.op, STILEFRAY_BEGIN, region, S, value, value_len, buffer, buffer_len);
    while (now.request.kind != STILEFRAY_ANSWER)
        now = stilefray_step(now.op, ask(now.request), region, S, value, value_len, buffer, buffer_len);
    return now.request.answer;
}

int main(void) {
    const char *gains = "R1.1 G1 B0.9";
    uint8_t buffer[64];
    stilefray_answer stayed_busy, a = run(stilefray_start_initialise(S, N, 1000), NULL, 0, NULL, 0);
    if (a.kind == STILEFRAY_REFUSED) return (int)a.refusal;
    a = run(stilefray_start_append(S, N, 101, 12), (const uint8_t *)gains, 12, NULL, 0);
    if (a.kind == STILEFRAY_REFUSED) return (int)a.refusal;
    stuck = 1;
    stayed_busy = run(stilefray_start_get(S, N, 102, sizeof buffer), NULL, 0, buffer, sizeof buffer);
    stuck = 0; /* its read, of another region, is still under way: it ends before the next one is begun */
    a = run(stilefray_start_get(S, N, 101, sizeof buffer), NULL, 0, buffer, sizeof buffer);
    if (a.kind == STILEFRAY_REFUSED) return (int)a.refusal;
    printf("%zu bytes: %.*s\n", a.value, (int)a.value, (const char *)buffer);
    printf("%u services in %u calls; while the flash stayed busy: refusal %u\n", services, calls, (unsigned)stayed_busy.refusal);
    return 0;
}
