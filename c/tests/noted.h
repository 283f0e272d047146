/* Shared by noted.c and noted_finalizers.c: exports that only record their arguments, for testing the layer above them. A test sets the codes that they return
 * one after another. So each call returns each of its codes, also those that would need 2^48 calls, a failed allocation or another thread. A place is filled
 * only if its export returns OK: with a number that the test sets, and its successors.
 */
#ifndef DERRIMAS_NOTED_H
#define DERRIMAS_NOTED_H

#include <inttypes.h>
#include <stdbool.h>
#include <stddef.h>
#include <stdint.h>

#define N " %" PRIu64

/* Records a call of an export, as "set 0:2 9", and returns the next code; if none is left, `behind`, so that each walk ends. */
uint8_t noted_export(uint8_t behind, const char *form, ...);

/* Records a call of one of the test's procedures. */
void noted_procedure(const char *form, ...);

/* Copies the data of an export to its place if its code is 0. */
uint8_t noted_filled(uint8_t code, void *place, const void *what, size_t size);

/* The number for a place at this offset. */
uint64_t noted_value(uint64_t further);

/* Replaces the compiler's call of this name: the processor lacks a feature if the test says so. */
int noted_cpuid(unsigned leaf, unsigned *eax, unsigned *ebx, unsigned *ecx, unsigned *edx);

/* Counts opened and destroyed handles. */
void noted_opened(int64_t more);

#define FILLED(code, place, type, ...) noted_filled(code, place, &(type){__VA_ARGS__}, sizeof(type))
#define V(n) noted_value(n)

#endif
