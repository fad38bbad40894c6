/* The roots of a polynomial, from the eigenvalues of its companion matrix. From the repository's root:
 *
 *     tools/build door
 *     cc -I rust/manulsek/include rust/manulsek/examples/roots.c target/staticlib/libdoor.a -o roots
 *     ./roots -6 11 -6      # x^3 - 6x^2 + 11x - 6, the constant first; the leading 1 is left out
 *
 * Without numbers it takes x^3 - 2x^2 + x - 2, whose roots are 2, i and -i. Where roots meet, digits are lost:
 * `./roots -8 12 -6`, which is (x - 2)^3, has five that are right.
 *
 * Exit status: 0, the roots are printed. Else nothing is printed but the reason, on standard error:
 * 1, a word is no number that a double can hold; 2, there are more than 64 numbers; 3, the library
 * refused, with a number that manulsek.h explains; 4, the roots could not be written (some may have been). */
#include <ctype.h>
#include <errno.h>
#include <float.h>
#include <stdio.h>
#include <stdlib.h>
#include <string.h>

#include "manulsek.h"

enum { MOST = 64, UNREAD = 1, MISCALLED, REFUSED, UNWRITTEN };

static double matrix[MOST * MOST], t[MOST * MOST], re[MOST], im[MOST];

/* What keeps a word from being a number, or NULL, and then the number. A number that is not 0 must not
 * become 0, nor a finite one infinite. `nan` and `inf` are numbers here: the library refuses them. */
static const char *fault(const char *word, double *number) {
    char *end;
    errno = 0;
    *number = strtod(word, &end);
    if (end == word || *end != '\0' || isspace((unsigned char)*word)) {
        return "is no number";
    }
    if (errno == ERANGE && *number == 0) {
        return "is not 0, but too small for a double";
    }
    if (errno == ERANGE && (*number > DBL_MAX || *number < -DBL_MAX)) {
        return "is too large for a double";
    }
    return NULL;
}

/* The word is cut if it is long, and what a terminal might obey is a question mark. */
static int unread(int place, const char *word, const char *why) {
    fprintf(stderr, "roots: word %d, \"", place);
    for (int k = 0; k < 40 && word[k] != '\0'; k++) {
        fputc(isprint((unsigned char)word[k]) ? word[k] : '?', stderr);
    }
    fprintf(stderr, "%s\", %s\n", strlen(word) > 40 ? ".." : "", why);
    return UNREAD;
}

static int refused(const char *what, uint64_t answer) {
    fprintf(stderr, "roots: %s refused with %u, row %u, column %u\n", what, manulsek_number(answer),
            manulsek_row(answer), manulsek_col(answer));
    return REFUSED;
}

int main(int count, char **words) {
    static const double usual[] = {-2, 1, -2};
    size_t n = count > 1 ? (size_t)count - 1 : 3;
    if (n > MOST) {
        fprintf(stderr, "roots: at most %d numbers\n", MOST);
        return MISCALLED;
    }
    /* Ones just below the diagonal, the coefficients with their signs turned in the last column. */
    for (size_t row = 0; row < n; row++) {
        double number = usual[row % 3];
        const char *why = count > 1 ? fault(words[row + 1], &number) : NULL;
        if (why != NULL) {
            return unread((int)row + 1, words[row + 1], why);
        }
        matrix[row + (n - 1) * n] = -number;
        if (row > 0) {
            matrix[row + (row - 1) * n] = 1;
        }
    }
    size_t square = n * n * sizeof(double), list = n * sizeof(double);
    uint64_t passes =
        manulsek_decompose(n, (const uint8_t *)matrix, square, manulsek_pattern(DBL_EPSILON), 1000,
                           0, (uint8_t *)t, square, NULL, 0);
    if (!manulsek_accepted(passes)) {
        return refused("decomposition", passes);
    }
    uint64_t answer = manulsek_complex_eigenvalues(n, (const uint8_t *)t, square, (uint8_t *)re,
                                                   list, (uint8_t *)im, list);
    if (!manulsek_accepted(answer)) {
        return refused("eigenvalues", answer);
    }
    printf("passes %u\n", (unsigned)passes);
    for (size_t k = 0; k < n; k++) {
        printf("%016llx %016llx  %.17g %+.17gi\n", (unsigned long long)manulsek_pattern(re[k]),
               (unsigned long long)manulsek_pattern(im[k]), re[k], im[k]);
    }
    if (fflush(stdout) != 0 || ferror(stdout)) {
        perror("roots");
        return UNWRITTEN;
    }
    return 0;
}
