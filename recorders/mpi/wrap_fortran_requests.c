/* The calls of Fortran programs that wait for requests. Indices begin with 1 there. */
#include <stdlib.h>

#include "fortran.h"

static struct waited waited_in_fortran(int count, const word *requests) {
    struct waited waited;
    MPI_Request few[8] = {0};
    MPI_Request *handles = count <= 8 ? few : malloc(sizeof(MPI_Request) * (size_t)count);
    for (int number = 0; number < count; number++) {
        handles[number] = PMPI_Request_f2c(requests[number]);
    }
    waited = waited_for(count, handles);
    if (handles != few) {
        free(handles);
    }
    return waited;
}

FORTRAN(wait, word *request, word *status, word *error) {
    word own[MOST_STATUS_WORDS];
    struct waited waited = waited_in_fortran(1, request);
    status = status_or_own(status, own);
    pmpi_wait_(request, status, error);
    if (*error == MPI_SUCCESS && !waited.is_empty) {
        MPI_Status info = in_c(status);
        note_completed(&waited, 0, &info);
    }
    end_wait(&waited);
}

FORTRAN(test, word *request, word *is_complete, word *status, word *error) {
    word own[MOST_STATUS_WORDS];
    struct waited waited = waited_in_fortran(1, request);
    status = status_or_own(status, own);
    pmpi_test_(request, is_complete, status, error);
    if (*error == MPI_SUCCESS && *is_complete && !waited.is_empty) {
        MPI_Status info = in_c(status);
        note_completed(&waited, 0, &info);
    }
    end_wait(&waited);
}

/* Room for the statuses that the program doesn't want. */
static word *own_statuses(const struct waited *waited, word *statuses) {
    if (waited->is_empty || statuses != MPI_F_STATUSES_IGNORE) {
        return statuses;
    }
    return malloc(sizeof(word) * MOST_STATUS_WORDS * (size_t)(waited->count + 1));
}

/* So many words are a status in Fortran. */
static size_t status_words(void) { return sizeof(MPI_Status) / sizeof(word); }

static void note_all(const struct waited *waited, const word *statuses) {
    for (int number = 0; number < waited->count && !waited->is_empty; number++) {
        MPI_Status info = in_c(statuses + (size_t)number * status_words());
        note_completed(waited, number, &info);
    }
}

static void note_one(const struct waited *waited, int number, const word *status) {
    MPI_Status info = in_c(status);
    note_others(waited);
    note_completed(waited, number, &info);
}

static void end_statuses(struct waited *waited, word *own, word *statuses) {
    if (own != statuses) {
        free(own);
    }
    end_wait(waited);
}

FORTRAN(waitall, word *count, word *requests, word *statuses, word *error) {
    struct waited waited = waited_in_fortran(*count, requests);
    word *info = own_statuses(&waited, statuses);
    pmpi_waitall_(count, requests, info, error);
    if (*error == MPI_SUCCESS) {
        note_all(&waited, info);
    }
    end_statuses(&waited, info, statuses);
}

FORTRAN(testall, word *count, word *requests, word *are_complete, word *statuses, word *error) {
    struct waited waited = waited_in_fortran(*count, requests);
    word *info = own_statuses(&waited, statuses);
    pmpi_testall_(count, requests, are_complete, info, error);
    if (*error == MPI_SUCCESS && *are_complete) {
        note_all(&waited, info);
    }
    end_statuses(&waited, info, statuses);
}

FORTRAN(waitany, word *count, word *requests, word *index, word *status, word *error) {
    word own[MOST_STATUS_WORDS];
    struct waited waited = waited_in_fortran(*count, requests);
    status = status_or_own(status, own);
    pmpi_waitany_(count, requests, index, status, error);
    if (*error == MPI_SUCCESS && !waited.is_empty && *index != MPI_UNDEFINED) {
        note_one(&waited, *index - 1, status);
    }
    end_wait(&waited);
}

FORTRAN(testany, word *count, word *requests, word *index, word *is_complete, word *status, word *error) {
    word own[MOST_STATUS_WORDS];
    struct waited waited = waited_in_fortran(*count, requests);
    status = status_or_own(status, own);
    pmpi_testany_(count, requests, index, is_complete, status, error);
    if (*error == MPI_SUCCESS && *is_complete && !waited.is_empty && *index != MPI_UNDEFINED) {
        note_one(&waited, *index - 1, status);
    }
    end_wait(&waited);
}

static void note_some(const struct waited *waited, int many, const word *indices, const word *statuses) {
    for (int number = 0; number < many && !waited->is_empty; number++) {
        note_one(waited, indices[number] - 1, statuses + (size_t)number * status_words());
    }
}

FORTRAN(waitsome, word *count, word *requests, word *many, word *indices, word *statuses, word *error) {
    struct waited waited = waited_in_fortran(*count, requests);
    word *info = own_statuses(&waited, statuses);
    pmpi_waitsome_(count, requests, many, indices, info, error);
    if (*error == MPI_SUCCESS && *many != MPI_UNDEFINED) {
        note_some(&waited, *many, indices, info);
    }
    end_statuses(&waited, info, statuses);
}

FORTRAN(testsome, word *count, word *requests, word *many, word *indices, word *statuses, word *error) {
    struct waited waited = waited_in_fortran(*count, requests);
    word *info = own_statuses(&waited, statuses);
    pmpi_testsome_(count, requests, many, indices, info, error);
    if (*error == MPI_SUCCESS && *many != MPI_UNDEFINED) {
        note_some(&waited, *many, indices, info);
    }
    end_statuses(&waited, info, statuses);
}
