/* A world of values, and a script that calls a function of the program. */
#include "rhai_host.h"
#include <stdio.h>
#include <stdlib.h>
#include <string.h>

/* The doors of memory, over C's own. */
_Static_assert(_Alignof(max_align_t) >= 16, "malloc aligns to less than the library may ask for");

static RhaiHostBlock block(void *at) {
    static char nowhere;
    return (RhaiHostBlock){at != NULL, at != NULL ? at : &nowhere};
}

RhaiHostBlock rattle_alloc(size_t size, size_t align) { return block(malloc(size > 0 ? size : align)); }

RhaiHostBlock rattle_realloc(void *at, size_t kept, size_t size, size_t align) {
    (void)kept;
    return block(realloc(at, size > 0 ? size : align));
}

void rattle_dealloc(void *at) { free(at); }

/* Ends the program where a call didn't end well, or was refused. */
static void well(uint32_t status, const RhaiHostTold *told, const char *call) {
    if (status != RHAI_HOST_STATUS_DONE || told->kind == RHAI_HOST_KIND_REFUSED) {
        fprintf(stderr, "%s: status %u, reason %u\n", call, (unsigned)status, (unsigned)told->reason);
        exit(1);
    }
}

#define DO(call) well(call, &told, #call)

/* The last text or bytes that were answered, with a zero behind them; the caller frees them. */
static uint8_t *answer(RhaiHostHandle *handle, size_t length) {
    uint8_t *room = malloc(length + 1);
    if (room == NULL || (length > 0 && rhai_host_answer(handle, false, room, length) != length)) {
        exit(1);
    }
    room[length] = 0;
    return room;
}

/* The hash bytes of an int: its kind, and eight bytes. */
static void int_to_bytes(int64_t n, uint8_t bytes[9]) {
    bytes[0] = 4;
    for (int i = 0; i < 8; i++) {
        bytes[1 + i] = (uint8_t)((uint64_t)n >> (8 * i));
    }
}

/* The int that was reported. */
static int64_t told_int(const RhaiHostTold *told) {
    if (told->kind != RHAI_HOST_KIND_INT) {
        exit(1);
    }
    return (int64_t)told->low;
}

static void world(RhaiHostHandle *handle) {
    RhaiHostTold told = {0};
    DO(rhai_host_put_int(handle, 40, &told));
    DO(rhai_host_put_int(handle, 2, &told));
    DO(rhai_host_binary(handle, RHAI_HOST_OPERATOR_PLUS, 0, 1, &told));
    DO(rhai_host_as_int(handle, 2, &told));
    printf("40 + 2 is %lld, of %zu values\n", (long long)told.low, rhai_host_hand_len(handle));
    DO(rhai_host_put_text(handle, (const uint8_t *)"two", 3, &told));
    DO(rhai_host_make_array(handle, 2, &told));
    DO(rhai_host_show(handle, 2, &told));
    uint8_t *text = answer(handle, told.low);
    printf("an array of both: %s\n", (char *)text);
    free(text);
    DO(rhai_host_drop(handle, &told));
    bool refused = rhai_host_as_int(handle, 9, &told) == RHAI_HOST_STATUS_DONE && told.kind == RHAI_HOST_KIND_REFUSED;
    printf("at 9: %s\n", refused && told.reason == RHAI_HOST_REASON_NO_VALUE ? "no value" : "?");
}

/* Answers the call of `twice`. */
static void twice(RhaiHostHandle *handle) {
    RhaiHostTold told = {0};
    uint8_t bytes[9];
    DO(rhai_host_script_argument(handle, 0, &told));
    int_to_bytes((int64_t)(2 * (uint64_t)told_int(&told)), bytes);
    DO(rhai_host_script_answer(handle, bytes, sizeof bytes));
}

static void script(RhaiHostHandle *handle) {
    static const char text[] = "stock -= 2; print(\"stock \" + stock); twice(stock) + 8";
    static const char names[] = "twice 1\n";
    RhaiHostScriptStop stop;
    RhaiHostTold told = {0};
    uint8_t bytes[9];
    int_to_bytes(19, bytes);
    DO(rhai_host_variable_push(handle, (const uint8_t *)"stock", 5, bytes, sizeof bytes));
    DO(rhai_host_script_compile(handle, (const uint8_t *)text, strlen(text), (const uint8_t *)names, strlen(names), &stop));
    if (stop.kind != 0) {
        fprintf(stderr, "no script (line %u, column %u)\n", (unsigned)stop.line, (unsigned)stop.column);
        exit(1);
    }
    DO(rhai_host_script_begin(handle, 0, 0, 0, 500, true));
    do {
        DO(rhai_host_script_go(handle, 100000, &stop));
        uint8_t *said = answer(handle, stop.printed + stop.said);
        fwrite(said, 1, stop.printed, stdout);
        if (stop.kind == 2) {
            twice(handle);
        } else if (stop.kind != 0) {
            fprintf(stderr, "stop %u: %s (line %u)\n", (unsigned)stop.kind, (char *)said + stop.printed, (unsigned)stop.line);
            exit(1);
        }
        free(said);
    } while (stop.kind != 0);
    DO(rhai_host_script_value(handle, &told));
    printf("the script comes to %lld\n", (long long)told_int(&told));
    DO(rhai_host_script_end(handle));
}

int main(void) {
    RhaiHostHandle handle = RHAI_HOST_CLOSED;
    RhaiHostTold told = {0};
    RHAI_HOST_STAMP();
    DO(rhai_host_new(&handle, 0, 0));
    world(&handle);
    script(&handle);
    rhai_host_close(&handle);
    return 0;
}
