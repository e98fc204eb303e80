/* What C calls of the handheld programmer: a label tape is put onto a board, request by request (02, Req 04). Link libhandheld.a; no board's library is needed.
 *
 * The label tape says what a motor shop wants on a board: records of length (2 bytes, little-endian, counting what follows), kind (2 bytes, little-endian) and
 * body. First and once kind 0020h with the four access codes, Code0 first; then for each wanted field kind 0021h with its status byte (bit 7 set) and exactly
 * its bytes, 16 for each block. A field's number is its place among them, from 0. tools/label.py makes such a tape of a text that a person can write.
 *
 * A run is one number, a uint64_t that the host keeps between two calls and hands in with the same tape:
 *
 *     uint64_t run = qp_start(address, tape, tape_length);
 *     if (QP_IS_REFUSED(run))
 *         say what is wrong with the tape, and where;             nothing has been sent
 *     while ((length = qp_next(run, tape, tape_length, request, sizeof request)) != 0) {
 *         send the request; wait for the reply, or until it is overdue;
 *         run = qp_heard(run, tape, tape_length, reply, reply_length);       reply_length 0 for silence
 *         show the progress: qp_progress(run, tape, tape_length);
 *     }
 *     QP_IS_DONE(run), or QP_HAS_FAILED(run): then QP_STAGE and QP_FIELD tell the request, QP_WHY and QP_WHY_NUMBER why
 *
 * host/program.c has all of it, with our board in memory at the other end.
 *
 * What it sends. 4Eh; then for each field present, from last to first, 4Ch and 4Dh, which deletes it by the status that was read; then for each wanted field, in
 * number order, 4Dh, which creates it write-enabled, 4Bh with all its bytes, 4Ah, which reads them back, and for a read-only one 4Dh, which locks it. A fault code
 * that waits on the board (a warning) does not stop it. It ends in done, or with the first request that failed: nothing is sent after that and nothing is undone.
 * Whatever is answered, it ends: after 1 request, 2 for each field present, of which a reply can tell 255, and 3 or 4 for each wanted one.
 *
 * What it needs. The tape's codes must be those in force on the board: it uses codes and sets none. The board must have blocks enough, which it learns when a
 * creation is answered with 10h. Against our board, with a sound memory and no other master on the line, done is then always reached, and the board holds exactly
 * the tape's fields (crates/shop). Done is said only if every wanted byte was read back as wanted, whatever board it was.
 *
 * Duties on the line, which no call can test:
 *   - one request at a time, its characters closer than the board's pause, and the next one only after the reply, or after the time that 000 gives the command;
 *   - reply holds what came after the request and nothing of the host's own echo;
 *   - no other master changes the board's fields or codes meanwhile;
 *   - when a run failed or the host was switched off, a new one starts with qp_start: it deletes what the broken run left.
 * Duties towards the library: as for host/quicksetter.h. No pointer is null, each has as many bytes behind it as the length beside it says, and buffer does not
 * overlap the tape. The library keeps nothing, allocates nothing, always returns and calls nothing of the host's; of the C library it needs memcpy.
 *
 * Refusals. A call refuses in the order of the numbers below, and then it has done nothing: the buffer is as it was, and the run that was handed in still holds. */
#ifndef QUICKSETTER_PROGRAMMER_H
#define QUICKSETTER_PROGRAMMER_H

#include <stdint.h>

#ifdef __cplusplus
extern "C" {
#endif

#define QP_VERSION "0.9.0" /* CHANGELOG.md tells what a host must change from one to the next */

#define QP_REQUEST_BUFFER 135 /* the longest request */
#define QP_REPLY_ROOM 134     /* the longest reply that fits a request; a longer one may be handed in, and fails */
#define QP_BROADCAST 255      /* address number for a line with one board on it */

/* ---- refusals ------------------------------------------------------------------------------------------------------------------------------------------- */

#define QP_REFUSED 0x80000000u
#define QP_IS_REFUSED(result) (((result)&QP_REFUSED) != 0) /* of every call's result */
#define QP_REFUSAL(result) ((uint32_t)(result))            /* which of these: */
#define QP_BAD_RECORD (QP_REFUSED + 1) /* the record at QP_PLACE is cut short, of an unknown kind, not the four codes though first, or codes again, or it is a field
                                          whose status is missing or has bit 7 clear, or a 257th field. An empty tape is bad at place 0 */
#define QP_WRONG_SIZE (QP_REFUSED + 2) /* no record is bad, and the field at QP_PLACE has not exactly its bytes */
#define QP_NO_RUN (QP_REFUSED + 3)     /* the number is none that a run of this tape can have */
#define QP_R4 (QP_REFUSED + 4)         /* buffer under QP_REQUEST_BUFFER bytes, needed or not */
#define QP_R5 (QP_REFUSED + 5)         /* an address neither 0 to 31 nor QP_BROADCAST */
#define QP_PLACE(result) ((uint32_t)((uint64_t)(result) >> 32)) /* of QP_BAD_RECORD and QP_WRONG_SIZE: where the record's length stands, counted from 0 */

/* ---- a run ---------------------------------------------------------------------------------------------------------------------------------------------- */

#define QP_STAGE(run) ((uint8_t)(run)) /* the request that is due, or that failed: */
#define QP_COUNT 1                     /* 4Eh: how many fields are present */
#define QP_LOOK 2                      /* 4Ch: the status of field QP_FIELD, which is present */
#define QP_REMOVE 3                    /* 4Dh: that field is deleted; its status was QP_STATUS */
#define QP_CREATE 4                    /* 4Dh: wanted field QP_FIELD is created, write-enabled */
#define QP_STORE 5                     /* 4Bh: its bytes are stored */
#define QP_READ 6                      /* 4Ah: they are read back */
#define QP_LOCK 7                      /* 4Dh: it is made read-only */
#define QP_DONE 8                      /* none: the board holds what the tape says */
#define QP_FIELD(run) ((uint8_t)((run) >> 8))
#define QP_STATUS(run) ((uint8_t)((run) >> 16))
#define QP_WHY(run) ((uint8_t)((run) >> 24)) /* 0 while nothing failed: */
#define QP_WHY_JUDGEMENT 1                   /* the reply does not fit the request: QP_WHY_NUMBER is 0 to 6, B0 to B6 of host/quicksetter.h. Silence is 1 */
#define QP_WHY_ERROR 2                       /* the board answered with the error code QP_WHY_NUMBER */
#define QP_WHY_DIFFERS 3                     /* what was read back is not what was stored */
#define QP_WHY_NUMBER(run) ((uint8_t)((run) >> 32))
#define QP_PRESENT(run) ((uint8_t)((run) >> 40)) /* fields that were present, once the board has told */
#define QP_ADDRESS(run) ((uint8_t)((run) >> 48)) /* as it was given to qp_start */
#define QP_IS_DONE(run) (QP_STAGE(run) == QP_DONE)
#define QP_HAS_FAILED(run) (QP_WHY(run) != 0)

/* ---- calls ---------------------------------------------------------------------------------------------------------------------------------------------- */

/* Checks a label tape, whole. Returns 0 if it is good. Refuses QP_BAD_RECORD for the first bad record, wherever it stands; else QP_WRONG_SIZE for the first field
 * that is not of its size. */
uint64_t qp_check(const uint8_t *tape, uint64_t tape_length);

/* Starts a run for the board of that address, 0 to 31, or QP_BROADCAST.
 * Returns the run, at QP_COUNT. Refuses as qp_check does, then QP_R5. */
uint64_t qp_start(uint32_t address, const uint8_t *tape, uint64_t tape_length);

/* Writes the request that is due to the front of the buffer: address byte, command, data, checksum.
 * Returns its length, 3 to QP_REQUEST_BUFFER, with the rest of the buffer as it was; 0 once the run is done or has failed, with all of it as it was. Asked again
 * with the same run it writes the same. Refuses as qp_check does, then QP_NO_RUN, QP_R4. */
uint64_t qp_next(uint64_t run, const uint8_t *tape, uint64_t tape_length, uint8_t *buffer, uint64_t buffer_length);

/* Takes the reply to the request that is due, 0 bytes for silence.
 * Returns the run after it; a run that is done or has failed stays as it is. Refuses as qp_check does, then QP_NO_RUN. */
uint64_t qp_heard(uint64_t run, const uint8_t *tape, uint64_t tape_length, const uint8_t *reply, uint64_t reply_length);

/* Tells how far a run has come. Returns QP_ANSWERED and QP_IN_ALL in one number; before the first reply the fields present are not known and not counted. Refuses
 * as qp_check does, then QP_NO_RUN. */
uint64_t qp_progress(uint64_t run, const uint8_t *tape, uint64_t tape_length);
#define QP_ANSWERED(progress) ((uint32_t)((uint64_t)(progress) >> 32)) /* requests that were answered as wanted */
#define QP_IN_ALL(progress) ((uint32_t)(progress))                     /* of so many; equal when the run is done */

#ifdef __cplusplus
}
#endif

#endif
