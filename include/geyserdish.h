/*
 * Geyserdish: the proved calls as C functions, for C99 and C++ on x86-64 Linux. `rt lib` in crates/c_api proves them and builds
 * the library that has them, crates/c_api/out/libc_api.a. crates/c_api/src/lib.rt has their contracts; tests/header compares it with
 * the declarations below.
 *
 * All numbers are whole. A segment has a modulus, a step, a start, a count and a window. Its residue at x is (start - step*x) mod
 * modulus, for every x from 0 up, always from 0 to modulus - 1. Its arguments are the x below count. An argument is hard when its
 * residue is less than the window.
 *
 * A domain has an origin, a modulus, a value, a slope, a curve (signed), a count and a window. Its value at x is
 * V(x) = (value + slope*x + curve*x(x-1)/2) mod modulus, always from 0 to modulus - 1. Its arguments are the x below count. An
 * argument x is hard when V(x) is less than the window away from a multiple of the modulus, on either side: V(x) < window or
 * modulus - V(x) < window. The origin is where the domain begins in its binade: the argument x is listed as origin + x. It changes
 * neither what is hard nor the values.
 *
 * Each function but geyserdish_range returns 0, or the number of a refusal: the first in this table whose condition holds, where 11
 * stands before 7.
 *
 *     1   modulus below 2 or above 2^62
 *     2   step or slope not below the modulus
 *     3   start or value not below the modulus
 *     4   count not 1 to 1,048,576
 *     5   window 0 or above the modulus
 *     6   curve below -1,048,576 or above 1,048,576
 *     11  origin above 2^52 (geyserdish_search_domain)
 *     7   more hard arguments than the list has places, or than the values have
 *     9   argument not below the period (geyserdish_digits, geyserdish_residue)
 *     10  target not below the modulus, or not a multiple of gcd(step, modulus) (geyserdish_divide)
 *
 * The caller may pass any numbers: the functions test them, and a refusal leaves all of the caller's memory as it was.
 *
 * The functions do not test pointers. The caller sees to it that each one points to memory for as many numbers as its array has,
 * or for one number. A list is two arguments, a pointer and the number of its places: it points to memory for as many numbers. The
 * values beside a list are two arguments in the same way, and may have fewer or more places than the list. No two of these overlap. No
 * pointer is null, but a list or values with 0 places may have a null pointer, since nothing is read or written through it. What the
 * memory holds before the call does not matter, except in the list of geyserdish_range.
 *
 * The functions keep no state and allocate nothing, so several threads may call them at once, each with memory of its own.
 */
#ifndef GEYSERDISH_H
#define GEYSERDISH_H

#include <stddef.h>
#include <stdint.h>

#ifdef __cplusplus
extern "C" {
#endif

/* The rows of an expansion's table, and the places for the digits of an argument. */
#define GEYSERDISH_ROWS 89
#define GEYSERDISH_DIGITS 88

/*
 * The continued-fraction expansion of step and modulus. It starts from
 *     remainder(-1) = modulus, remainder(0) = step, denominator(-1) = 0, denominator(0) = 1
 * and goes on while remainder(i) is not 0:
 *     quotient(i)      = remainder(i-1) / remainder(i), rounded down
 *     remainder(i+1)   = remainder(i-1) - quotient(i)*remainder(i)
 *     denominator(i+1) = denominator(i-1) + quotient(i)*denominator(i)
 * Let remainder(m) be the first that is 0; m is at most 88. The period is denominator(m), which is modulus / gcd(step, modulus).
 *
 * Leaves:
 *     remainders[i]     remainder(i) for i from 0 to m, and 0 in the places after
 *     denominators[i]   denominator(i) for i from 0 to m, and 0 in the places after
 *     quotients[i]      quotient(i) for i from 0 to m-1, and 0 in the places after
 *     *last             m
 *
 * Returns 0, or refuses by
 *     1   modulus below 2 or above 2^62
 *     2   step not below the modulus
 * and leaves the three arrays and *last as they were.
 */
uint32_t geyserdish_expand(
    uint64_t modulus,
    uint64_t step,
    uint64_t remainders[GEYSERDISH_ROWS],
    uint64_t denominators[GEYSERDISH_ROWS],
    uint64_t quotients[GEYSERDISH_ROWS],
    uint64_t *last);

/*
 * The digits of an argument x below the period, with the names of the expansion above: the only numbers digit(0) to digit(m-1) with
 *     x = digit(0)*denominator(0) + digit(1)*denominator(1) + .. + digit(m-1)*denominator(m-1)
 *     digit(0) < quotient(0)
 *     digit(i) <= quotient(i), and digit(i-1) = 0 where digit(i) = quotient(i), for i from 1 to m-1
 * From the highest row down, each is how often its row's denominator goes into what the rows above leave of x. They tell why step*x is
 * close to a multiple of the modulus: modulo the modulus, the digit d of row i moves step*x by d*remainder(i), up where i is even and
 * down where i is odd, and remainders fall from row to row.
 *
 * Leaves:
 *     digits[i]   digit(i) for i from 0 to m-1, and 0 in the places after
 *     *count      m
 *
 * Returns 0, or refuses by
 *     1   modulus below 2 or above 2^62
 *     2   step not below the modulus
 *     9   argument not below the period
 * and leaves digits and *count as they were.
 */
uint32_t geyserdish_digits(
    uint64_t modulus,
    uint64_t step,
    uint64_t argument,
    uint64_t digits[GEYSERDISH_DIGITS],
    uint64_t *count);

/*
 * The residue of an argument, made from its digits: (step*argument) mod modulus, which is
 *     (digit(0)*remainder(0) - digit(1)*remainder(1) + digit(2)*remainder(2) - ..) mod modulus
 * It is not the residue of a segment, which goes down from the segment's start.
 *
 * Leaves:
 *     *residue   step*argument mod modulus
 *
 * Returns 0, or refuses by
 *     1   modulus below 2 or above 2^62
 *     2   step not below the modulus
 *     9   argument not below the period
 * and leaves *residue as it was.
 */
uint32_t geyserdish_residue(
    uint64_t modulus,
    uint64_t step,
    uint64_t argument,
    uint64_t *residue);

/*
 * The way back, from a residue to its argument: modular division of the target by the step.
 *
 * Leaves:
 *     *argument   the x below the period with (step*x) mod modulus = target; there is only one
 *
 * Returns 0, or refuses by
 *     1    modulus below 2 or above 2^62
 *     2    step not below the modulus
 *     10   target not below the modulus, or not a multiple of gcd(step, modulus): then no x has it
 * and leaves *argument as it was.
 */
uint32_t geyserdish_divide(
    uint64_t modulus,
    uint64_t step,
    uint64_t target,
    uint64_t *argument);

/*
 * The regular search of a segment. It finds the least residue over the x below a number n, without going through them. With the
 * names of the expansion above, n is one of these numbers:
 *     denominator(i) + denominator(i-1), with the index i, for each i from 0 to m-1
 *     the period, with the index m
 * It is the first of them that is not below count, or the period where count is above the period.
 *
 * Leaves:
 *     shown[0]   n
 *     shown[1]   its index, which is also how many quotients the search drew; at most 29
 *     shown[2]   the distance, which is the least residue over the x below n
 *     shown[3]   the x that has it; there is only one
 *     shown[4]   the verdict: 1, clear, where the distance is at least the window, and otherwise 0, possible
 *
 * No argument of a clear segment is hard. Possible does not mean that one is: the x shown may be count or more. A scan tells.
 *
 * Returns 0, or refuses by
 *     1   modulus below 2 or above 2^62
 *     2   step not below the modulus
 *     3   start not below the modulus
 *     4   count not 1 to 1,048,576
 *     5   window 0 or above the modulus
 * and leaves shown as it was.
 */
uint32_t geyserdish_regular_search(
    uint64_t modulus,
    uint64_t step,
    uint64_t start,
    uint64_t count,
    uint64_t window,
    uint64_t shown[5]);

/*
 * The fine search of a segment: the regular search with more numbers for n, so that it may clear what the other does not. They are
 *     denominator(i) + denominator(i-1) + t*denominator(i), with the label (i, t), for each i from 0 to m-1 and t from 0 to
 *     quotient(i) - 1; the last of them is the period
 *     1, with the label (0, 0), where step is 0
 * It is the first of them that is not below count, or the period where count is above the period.
 *
 * Leaves:
 *     shown[0]   n
 *     shown[1]   the index i of its label
 *     shown[2]   the part t of its label
 *     shown[3]   the distance, which is the least residue over the x below n
 *     shown[4]   the x that has it; there is only one
 *     shown[5]   the verdict: 1, clear, where the distance is at least the window, and otherwise 0, possible
 *
 * Returns 0, or refuses by
 *     1   modulus below 2 or above 2^62
 *     2   step not below the modulus
 *     3   start not below the modulus
 *     4   count not 1 to 1,048,576
 *     5   window 0 or above the modulus
 * and leaves shown as it was.
 */
uint32_t geyserdish_fine_search(
    uint64_t modulus,
    uint64_t step,
    uint64_t start,
    uint64_t count,
    uint64_t window,
    uint64_t shown[6]);

/*
 * The scan of a segment: its hard arguments, all of them, found by visiting every argument, and the residue of each.
 *
 * Leaves:
 *     list[0] to list[*listed - 1]       the hard arguments, each once, in ascending order; the places after them are as they were
 *     values[0] to values[*listed - 1]   their residues, each at the place of its argument: values[i] is the residue at list[i], which is
 *                                        (start - step*list[i]) mod modulus; the places after them are as they were
 *     *listed                            how many hard arguments there are
 *
 * Returns 0, or refuses by
 *     1   modulus below 2 or above 2^62
 *     2   step not below the modulus
 *     3   start not below the modulus
 *     4   count not 1 to 1,048,576
 *     5   window 0 or above the modulus
 *     7   more hard arguments than list_places, or than value_places
 * and leaves list, values and *listed as they were.
 */
uint32_t geyserdish_scan_segment(
    uint64_t modulus,
    uint64_t step,
    uint64_t start,
    uint64_t count,
    uint64_t window,
    uint64_t *list,
    size_t list_places,
    uint64_t *values,
    size_t value_places,
    uint64_t *listed);

/*
 * The search of a domain: its hard arguments, all of them, and V of each. A regular search tries to clear the whole domain, unless
 * every value is hard. Where it does not, a fine search tries to clear each of eight parts, and a scan visits every argument of the parts that are not clear either.
 * Each part has count / 8 arguments, rounded down, and the first count % 8 parts have one more.
 *
 * Leaves:
 *     list[0] to list[searched[1] - 1]       the hard arguments, each once, in ascending order, and each as origin + x; the places after
 *                                            them are as they were
 *     values[0] to values[searched[1] - 1]   their values, each at the place of its argument: values[i] is V(list[i] - origin) itself,
 *                                            from 0 to modulus - 1, also where it is just below the modulus; the places after them are
 *                                            as they were
 *     marks[0] to marks[7]                   of the eight parts, in order: 0, not looked at, of all eight where the domain is cleared;
 *                                            1, clear, with no hard argument; 2, possible, and scanned; 3, without arguments
 *     searched[0]                            the verdict on the whole domain: 1, cleared, with no hard argument, or 0, possible
 *     searched[1]                            how many hard arguments there are
 *
 * Returns 0, or refuses by
 *     1   modulus below 2 or above 2^62
 *     2   slope not below the modulus
 *     3   value not below the modulus
 *     4   count not 1 to 1,048,576
 *     5   window 0 or above the modulus
 *     6   curve below -1,048,576 or above 1,048,576
 *     11  origin above 2^52
 *     7   more hard arguments than list_places, or than value_places
 * in this order, and leaves list, values, marks and searched as they were.
 */
uint32_t geyserdish_search_domain(
    uint64_t origin,
    uint64_t modulus,
    uint64_t value,
    uint64_t slope,
    int64_t curve,
    uint64_t count,
    uint64_t window,
    uint64_t *list,
    size_t list_places,
    uint64_t *values,
    size_t value_places,
    uint8_t marks[8],
    uint64_t searched[2]);

/*
 * The range of a strictly ascending list between two bounds: its entries from lo on and below hi. Bounds are compared with entries as
 * listed, which for a domain is origin + x. Every place of the list is read as an entry, and none is changed.
 *
 * Leaves:
 *     *start   the place of the range's first entry; where the range is empty, the number of entries below lo
 *
 * Returns how many entries the range has: they are list[*start] and those after it. For a list that does not ascend strictly, and
 * for lo above hi, it returns 0 and leaves 0 in *start. It refuses nothing.
 */
uint64_t geyserdish_range(
    const uint64_t *list,
    size_t places,
    uint64_t lo,
    uint64_t hi,
    uint64_t *start);

#ifdef __cplusplus
}
#endif

#endif
