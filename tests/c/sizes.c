/* Compares the header's structs with the library's: their sizes, which are proved of the library's, and the places of the fields of
 * a count, as the numbers that it writes there tell them. It is a C program and a C++ one. */
#include "puffin.h"
#include <stdio.h>

static int failures;

static void is(const char *what, uint64_t got, uint64_t wanted) {
    if (got != wanted) {
        printf("%s: %llu in place of %llu\n", what, (unsigned long long)got, (unsigned long long)wanted);
        failures++;
    }
}

/* A scope of id 1 without a text, with so many bytes of children in it: 31 bytes, and those of the children. */
static void put_scope(uint8_t *at, uint8_t start, uint8_t stop, uint8_t children) {
    at[0] = '(';
    at[1] = 1;
    at[5] = start;
    at[14] = children;
    at[22 + children] = ')';
    at[23 + children] = stop;
}

int main(void) {
    /* From 5 to 9, with two scopes in it. */
    static uint8_t bytes[93];
    PuffinVersion version = puffin_version();
    PuffinCount count;
    put_scope(bytes, 5, 9, 62);
    put_scope(bytes + 22, 6, 7, 0);
    put_scope(bytes + 53, 7, 8, 0);
    is("major version", version.major, PUFFIN_VERSION_MAJOR);
    is("minor version", version.minor, PUFFIN_VERSION_MINOR);
    is("patch version", version.patch, PUFFIN_VERSION_PATCH);
    is("interface", puffin_interface(), PUFFIN_INTERFACE);
    is("PuffinCount", sizeof(PuffinCount), 32);
    is("PuffinFrame", sizeof(PuffinFrame), 48);
    is("PuffinIds", sizeof(PuffinIds), 16);
    is("PuffinThread", sizeof(PuffinThread), 16);
    is("PuffinProfiler", sizeof(PuffinProfiler), 16);
    is("PuffinScope", sizeof(PuffinScope), 48);
    is("PuffinStream", sizeof(PuffinStream), 64);
    is("PuffinFileThread", sizeof(PuffinFileThread), 48);
    is("PuffinMerged", sizeof(PuffinMerged), 72);
    is("PuffinPlace", sizeof(PuffinPlace), 56);
    is("PuffinThreadName", sizeof(PuffinThreadName), 32);
    is("PuffinScopeList", sizeof(PuffinScopeList), 48);
    is("PuffinStreamList", sizeof(PuffinStreamList), 104);
    is("PuffinFileThreadList", sizeof(PuffinFileThreadList), 48);
    is("PuffinMergedList", sizeof(PuffinMergedList), 48);
    is("count", puffin_count(bytes, sizeof bytes, false, &count), PUFFIN_OK);
    is("scopes", count.scopes, 3);
    is("depth", count.depth, 2);
    is("start_ns", (uint64_t)count.start_ns, 5);
    is("stop_ns", (uint64_t)count.stop_ns, 9);
    bytes[0] = ')';
    is("a fault", puffin_count(bytes, sizeof bytes, false, &count), PUFFIN_INVALID_STREAM);
    is("scopes", count.scopes, 3);
    return failures != 0;
}
