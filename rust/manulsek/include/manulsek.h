/* Manulsek: the real Schur decomposition of nalgebra 0.35.0, proved, for C99 and C++ on x86-64.
 *
 * The functions are those of the static library that `tools/build door` writes,
 * target/staticlib/libdoor.a. A program needs the C library besides:
 *
 *     cc -I rust/manulsek/include roots.c target/staticlib/libdoor.a
 *
 * A matrix of order n, 1 to 64, is n * n doubles, column by column: row r, column c stands at r + c * n.
 * Rows and columns count from 0. Memory is lent as bytes, eight to a double, the lowest first, which is
 * how a double stands in memory on x86-64: lend (uint8_t *)doubles. Lengths are in bytes, and have to be
 * 8 * n * n for a matrix and 8 * n for a list. No address has to be a multiple of anything. Memory that
 * is written must overlap no other. The functions keep nothing, and may be called from many threads;
 * each needs up to 76 KiB of stack.
 *
 * Row order: C and NumPy have a matrix row by row. Lent like that it is read as its transpose, and nothing says
 * so. In exact arithmetic the transpose has the same eigenvalues. Here rounding may change them, most often in
 * the last bits, and by far more where eigenvalues meet; their order, the pass count, and whether and why the call
 * is refused may differ too. T and Q are others, unless the matrix is symmetric. One line turns rows into columns,
 * and a T or Q, which are column by column too, into rows:
 *
 *     for (size_t k = 0; k < n * n; k++) columns[k] = rows[k % n * n + k / n];
 *
 * Every function takes every input and ends. It answers one number: below 2^32 the call was accepted;
 * else it was refused, and the answer is number * 2^32 + row * 2^16 + col. The four helpers at the end
 * take it apart. Checks run in the order of the numbers, and the first that fails is told:
 *
 *      1  the order is 0
 *      2  the order is above 64
 *      3  a slice has not the length that belongs to the order
 *      4  the tolerance is NaN, below 0, or 1 and more
 *      5  the budget is 0 or above 1000000
 *      6  an entry is NaN or infinite; the place of the first, column by column
 *      7  the counted passes reached the budget
 *      8  the result is not finite; the place of the first such entry of T, or else of Q;
 *         of the eigenvalues, k k for the first that is not finite
 *      9  the entry at the place told spoils the quasi-triangular shape
 *     10  some eigenvalues are complex
 *     11  the complex reader: a block's discriminant is above 0 or NaN; the place of its upper left entry
 *
 * Numbers without a place have row 0 and col 0. A refusal with 1 to 6 touches nothing that was lent. The
 * decomposition's 7, 8 and 9 leave 7FF8000000000000, a NaN, in every entry of T, and of Q if it was
 * wanted. A refusal by the others touches nothing.
 */
#ifndef MANULSEK_H
#define MANULSEK_H

#include <stddef.h>
#include <stdint.h>
#include <string.h>

#ifdef __cplusplus
extern "C" {
#endif

/* T of a matrix, and Q unless `wanted` is 0: then q is not looked at. `tolerance` is the pattern of a
 * double from 0 to below 1 (manulsek_pattern), 2^-52 for most uses. The answer is the pass count, which is
 * below the budget, or a refusal with 1 to 9. An accepted T is finite, and zero two or more places below its
 * diagonal, and of two neighbours just below it at least one is zero; it is the same whether Q is wanted or
 * not. An accepted Q is finite. What t and q held before makes no difference.
 *
 * That is what an acceptance promises. That Q T Q' is near the matrix, and Q near an orthogonal one, it does not:
 * that was measured, not proved. On usual matrices, which take few passes, both are off by a small multiple of
 * n * 2^-52, the first one times the matrix's norm (docs/ACCURACY.md has the figures). It is false of some that
 * are accepted. We know of:
 *   - order 2, which is not scaled: products of large entries overflow, and those of small ones vanish or lose
 *     digits. Rows (1 0), (2^700 1) give zeros for T and Q;
 *   - order 2, with an entry below the diagonal that is small beside the others. Rows (1 1), (2^-108 1) give a T
 *     with -2^-108 at row 0, column 1, and lose the 1;
 *   - from order 3 on, the part of a column below the diagonal, in the matrix or in what the reduction has made
 *     of it, that is not zero but so small beside the largest entry that its squares vanish. It may turn Q, and
 *     does not turn T. Rows (1 1 0), (-2^-600 2 0), (0 0 3) give a T with 1 at row 0, column 1, where the matrix
 *     has 1 and Q T Q' has -1. The reduction may make such a column of plain entries;
 *   - a largest entry near or below 2^-1022, where a double has fewer digits;
 *   - a tolerance above 2^-52, by which larger entries are set to zero.
 *
 * The matrix is read, and T and Q are written, column by column. Rows are turned by
 *     for (size_t k = 0; k < n * n; k++) columns[k] = rows[k % n * n + k / n]; */
uint64_t manulsek_decompose(size_t order, const uint8_t *matrix, size_t matrix_len,
                            uint64_t tolerance, uint64_t budget, uint32_t wanted,
                            uint8_t *t, size_t t_len, uint8_t *q, size_t q_len);

/* The real reader: the eigenvalues of a T, its diagonal. 0, or a refusal with 1, 2, 3, 6, 9 or 10. On an
 * accepted T it is 0 exactly if every entry just below the diagonal is zero, and else 10. T is read column by
 * column. Rows are turned by
 *     for (size_t k = 0; k < n * n; k++) columns[k] = rows[k % n * n + k / n];
 * Not turned, those of most T are refused: (2 1), (0 3) with 10, though its eigenvalues are 2 and 3. */
uint64_t manulsek_eigenvalues(size_t order, const uint8_t *t, size_t t_len,
                              uint8_t *values, size_t values_len);

/* The complex reader: real and imaginary parts of the eigenvalues of a T, a pair in two places one after
 * the other: first the one with the imaginary part above 0, then the one below 0; where the block's
 * discriminant is 0 both imaginary parts are +0. 0, or a refusal with 1, 2, 3, 6, 9, 11 or 8. T is read column
 * by column. Rows are turned by
 *     for (size_t k = 0; k < n * n; k++) columns[k] = rows[k % n * n + k / n];
 * Not turned, those of most T are refused: (2 1), (0 3) with 11. */
uint64_t manulsek_complex_eigenvalues(size_t order, const uint8_t *t, size_t t_len,
                                      uint8_t *re, size_t re_len, uint8_t *im, size_t im_len);

/* The plain entry: the eigenvalues of a matrix, if all are real, with the tolerance 2^-52 and the budget
 * 10000; at order 2 the larger first. 0, or a refusal with 1, 2, 3, 6 to 10. The matrix is read column by column.
 * Rows are turned by
 *     for (size_t k = 0; k < n * n; k++) columns[k] = rows[k % n * n + k / n]; */
uint64_t manulsek_plain_eigenvalues(size_t order, const uint8_t *matrix, size_t matrix_len,
                                    uint8_t *values, size_t values_len);

/* The square root, from pattern to pattern; 7FF8000000000000 for a NaN and for a number below 0. */
uint64_t manulsek_sqrt(uint64_t pattern);

/* Whether a call was accepted. */
static inline int manulsek_accepted(uint64_t answer) { return answer >> 32 == 0; }

/* The number of a refusal; 0 if there was none. */
static inline unsigned manulsek_number(uint64_t answer) { return (unsigned)(answer >> 32); }

/* The place of a refusal. */
static inline unsigned manulsek_row(uint64_t answer) { return (unsigned)(answer >> 16 & 0xffff); }
static inline unsigned manulsek_col(uint64_t answer) { return (unsigned)(answer & 0xffff); }

/* A double's pattern. */
static inline uint64_t manulsek_pattern(double x) {
    uint64_t pattern;
    memcpy(&pattern, &x, sizeof pattern);
    return pattern;
}

#ifdef __cplusplus
}
#endif

#endif
