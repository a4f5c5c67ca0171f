#include "value.h"

#include <inttypes.h>
#include <stdio.h>
#include <string.h>

#define FORCES 24 /* bytes: axial force, shear and moment */

/* The length alone decides, and that the metadata (map 0) holds text only. */
static int has_forces(value v)
{
    return v.len == FORCES && v.map != 0;
}

static double force(const uint8_t *bytes)
{
    uint64_t bits = 0;
    double number;
    for (int i = 0; i < 8; i++)
        bits = bits << 8 | bytes[i];
    memcpy(&number, &bits, sizeof number);
    return number;
}

static void print_forces(value v, const char *between)
{
    printf("%.17g%s%.17g%s%.17g", force(v.at), between, force(v.at + 8), between, force(v.at + 16));
}

static int printable(value v)
{
    for (uint64_t i = 0; i < v.len; i++)
        if (v.at[i] < 32 || v.at[i] > 126)
            return 0;
    return 1;
}

static void print_hex(value v)
{
    for (uint64_t i = 0; i < v.len; i++)
        printf("%02x", v.at[i]);
}

void value_print(value v)
{
    if (has_forces(v)) {
        print_forces(v, " ");
        return;
    }
    printf("%" PRIu64 " bytes", v.len);
    if (v.len == 0)
        return;
    if (printable(v)) {
        fputs(": ", stdout);
        fwrite(v.at, 1, (size_t)v.len, stdout);
    } else {
        fputs(", hex: ", stdout);
        print_hex(v);
    }
}

void value_print_cells(value v)
{
    printf("%" PRIu64 ",", v.len);
    if (has_forces(v))
        print_forces(v, ",");
    else
        fputs(",,", stdout);
}
