/*
 * ScaLAPACK's `PDGERFS` and `PDPORFS` hand `PDLACON` an estimate that they never set, and its first call compares with it.
 * What earlier calls left on the stack then decides, and differs among ranks. This sets it to 0 in the first call.
 */
#define _GNU_SOURCE
#include <dlfcn.h>

typedef void estimator(int *, double *, int *, int *, int *, double *, int *, int *, int *, int *, double *, int *);

void pdlacon_(int *n, double *v, int *iv, int *jv, int *descv, double *x, int *ix, int *jx, int *descx, int *isgn,
              double *est, int *kase) {
    static estimator *next;
    if (next == 0) {
        *(void **)&next = dlsym(RTLD_NEXT, "pdlacon_");
    }
    if (*kase == 0) {
        *est = 0;
    }
    next(n, v, iv, jv, descv, x, ix, jx, descx, isgn, est, kase);
}
