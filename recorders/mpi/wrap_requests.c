/* The calls that wait for requests, or ask whether they are complete. */
#include <stdlib.h>

#include "recording.h"

/* A handle is gone once its request is complete, so what it stands for is looked up before. */
struct waited waited_for(int count, const MPI_Request *requests) {
    struct waited waited = {.count = count, .is_empty = true};
    waited.requests = count <= 8 ? NULL : malloc(sizeof(struct request) * (size_t)count);
    for (int number = 0; number < count; number++) {
        struct request found = recall_request(requests[number]);
        (waited.requests == NULL ? waited.few : waited.requests)[number] = found;
        waited.is_empty = waited.is_empty && found.kind == NO_REQUEST;
    }
    return waited;
}

static const struct request *waits(const struct waited *waited, int number) {
    return &(waited->requests == NULL ? waited->few : waited->requests)[number];
}

void end_wait(struct waited *waited) { free(waited->requests); }

static bool is_receive(const struct request *request) {
    return request->is_active && (request->kind == RECEIVE_REQUEST || request->kind == RECEIVE_INIT);
}

void note_others(const struct waited *waited) {
    for (int number = 0; number < waited->count; number++) {
        if (is_receive(waits(waited, number))) {
            note_other_post(waits(waited, number)->number);
        }
    }
}

void note_completed(const struct waited *waited, int number, const MPI_Status *status) {
    const struct request *request = waits(waited, number);
    if (is_receive(request)) {
        note_done(request->communicator, request->number, status);
    } else if (request->kind == COLLECTIVE_REQUEST) {
        note_take(request->communicator, request->tag, request->peer, request->number);
    }
    if (request->kind == RECEIVE_REQUEST || request->kind == COLLECTIVE_REQUEST) {
        forget_request(request->handle);
    } else if (request->kind == RECEIVE_INIT) {
        set_active(request->handle, false, -1);
    }
}

int MPI_Wait(MPI_Request *request, MPI_Status *status) {
    MPI_Status own;
    MPI_Status *info = status == MPI_STATUS_IGNORE ? &own : status;
    struct waited waited = waited_for(1, request);
    int error = PMPI_Wait(request, waited.is_empty ? status : info);
    if (error == MPI_SUCCESS && !waited.is_empty) {
        note_completed(&waited, 0, info);
    }
    end_wait(&waited);
    return error;
}

int MPI_Test(MPI_Request *request, int *is_complete, MPI_Status *status) {
    MPI_Status own;
    MPI_Status *info = status == MPI_STATUS_IGNORE ? &own : status;
    struct waited waited = waited_for(1, request);
    int error = PMPI_Test(request, is_complete, waited.is_empty ? status : info);
    if (error == MPI_SUCCESS && *is_complete && !waited.is_empty) {
        note_completed(&waited, 0, info);
    }
    end_wait(&waited);
    return error;
}

/* Room for the statuses that the program doesn't want. */
static MPI_Status *own_statuses(const struct waited *waited, MPI_Status *statuses) {
    if (waited->is_empty || statuses != MPI_STATUSES_IGNORE) {
        return statuses;
    }
    return malloc(sizeof(MPI_Status) * (size_t)(waited->count + 1));
}

/* The receives of a call that completes all count as received in the order in which it names them. */
static void note_all(const struct waited *waited, const MPI_Status *statuses) {
    for (int number = 0; number < waited->count && !waited->is_empty; number++) {
        note_completed(waited, number, &statuses[number]);
    }
}

static void note_some(const struct waited *waited, int many, const int *indices, const MPI_Status *statuses) {
    for (int number = 0; number < many && !waited->is_empty; number++) {
        if (is_receive(waits(waited, indices[number]))) {
            note_others(waited);
        }
        note_completed(waited, indices[number], &statuses[number]);
    }
}

static void free_statuses(MPI_Status *own, MPI_Status *statuses) {
    if (own != statuses) {
        free(own);
    }
}

int MPI_Waitall(int count, MPI_Request requests[], MPI_Status statuses[]) {
    struct waited waited = waited_for(count, requests);
    MPI_Status *info = own_statuses(&waited, statuses);
    int error = PMPI_Waitall(count, requests, info);
    if (error == MPI_SUCCESS) {
        note_all(&waited, info);
    }
    free_statuses(info, statuses);
    end_wait(&waited);
    return error;
}

int MPI_Testall(int count, MPI_Request requests[], int *are_complete, MPI_Status statuses[]) {
    struct waited waited = waited_for(count, requests);
    MPI_Status *info = own_statuses(&waited, statuses);
    int error = PMPI_Testall(count, requests, are_complete, info);
    if (error == MPI_SUCCESS && *are_complete) {
        note_all(&waited, info);
    }
    free_statuses(info, statuses);
    end_wait(&waited);
    return error;
}

int MPI_Waitany(int count, MPI_Request requests[], int *index, MPI_Status *status) {
    MPI_Status own;
    MPI_Status *info = status == MPI_STATUS_IGNORE ? &own : status;
    struct waited waited = waited_for(count, requests);
    int error = PMPI_Waitany(count, requests, index, waited.is_empty ? status : info);
    if (error == MPI_SUCCESS && *index != MPI_UNDEFINED) {
        note_some(&waited, 1, index, info);
    }
    end_wait(&waited);
    return error;
}

int MPI_Testany(int count, MPI_Request requests[], int *index, int *is_complete, MPI_Status *status) {
    MPI_Status own;
    MPI_Status *info = status == MPI_STATUS_IGNORE ? &own : status;
    struct waited waited = waited_for(count, requests);
    int error = PMPI_Testany(count, requests, index, is_complete, waited.is_empty ? status : info);
    if (error == MPI_SUCCESS && *is_complete && *index != MPI_UNDEFINED) {
        note_some(&waited, 1, index, info);
    }
    end_wait(&waited);
    return error;
}

int MPI_Waitsome(int count, MPI_Request requests[], int *many, int indices[], MPI_Status statuses[]) {
    struct waited waited = waited_for(count, requests);
    MPI_Status *info = own_statuses(&waited, statuses);
    int error = PMPI_Waitsome(count, requests, many, indices, info);
    if (error == MPI_SUCCESS && *many != MPI_UNDEFINED) {
        note_some(&waited, *many, indices, info);
    }
    free_statuses(info, statuses);
    end_wait(&waited);
    return error;
}

int MPI_Testsome(int count, MPI_Request requests[], int *many, int indices[], MPI_Status statuses[]) {
    struct waited waited = waited_for(count, requests);
    MPI_Status *info = own_statuses(&waited, statuses);
    int error = PMPI_Testsome(count, requests, many, indices, info);
    if (error == MPI_SUCCESS && *many != MPI_UNDEFINED) {
        note_some(&waited, *many, indices, info);
    }
    free_statuses(info, statuses);
    end_wait(&waited);
    return error;
}
