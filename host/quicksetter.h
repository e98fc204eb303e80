/* What C calls of Quicksetter: the board's calls and the bench's, on numbers and byte slices. Link libquicksetter.a.
 *
 * The board. The host keeps three buffers for each board:
 *   image   QS_IMAGE_LENGTH bytes, the plate and the board's state (layout below); qs_fresh or qs_restart makes it, and every other call takes it and leaves
 *           the new one in it.
 *   memory  QS_MEMORY_LENGTH(total) bytes, the motor's data fields: all 00h on a new board, later what the last call left there.
 *   room    at least QS_REPLY_ROOM bytes; a reply fills its front.
 * Each received character goes to qs_character with the tick of its end. When the pause after it is over the host calls qs_poll, so that the frame is closed
 * and answered. Both may return a reply: the one to the frame that this very call closed. Both tell how long the host may sleep (below).
 *
 * The plate is given once, when the image is made, and stands in it from then on:
 *   total    blocks of QS_BLOCK bytes in memory, 1 to 112
 *   bits     position bits, 1 to 32
 *   address  of the new board, 0 to 31; its address byte is 40h + address. 55h gives another one, which is then in force
 *   ticks    ticks per bit, one of 1, 2, 4, 8, 16, 32, 64; a tick is 1/38400 s
 *   pause    bit times without a character that close a frame, 22 or 55
 *   label    QS_LABEL_LENGTH bytes, any: what 52h and 56h tell of the board (below)
 *
 * Sleep. The host need not poll on every beat of a timer: the result of qs_character and qs_poll says at which tick the open frame's pause is over (02, Req
 * 03). A poll exactly that many ticks after the tick that was handed in, by a counter that wraps around, closes the frame; an earlier one does not. It holds
 * until the next character, closing poll or qs_power_on; measured positions, fault codes and polls that close nothing change nothing about it.
 *
 *     uint32_t called = 0, sleep = QS_NO_FRAME_OPEN;      what the last result told, and for which tick
 *     for (;;) {
 *         interrupts off;
 *         if (no character waits && (sleep == QS_NO_FRAME_OPEN || ticks_now() - called < sleep))
 *             sleep until an interrupt, and where sleep != QS_NO_FRAME_OPEN with the alarm at tick called + sleep;
 *         interrupts on;
 *         called = ticks_now();                           before the look at the queue: a character that ends in between is then not older than the poll
 *         if (a character waits)
 *             result = qs_character(.., called = its own tick, ..);
 *         else
 *             result = qs_poll(.., called, ..);
 *         sleep = QS_SLEEP(result);                       of a refused call QS_SLEEP_REFUSED: such a host does not meet it
 *         if (QS_REPLY(result) != 0)
 *             keep what must last; send the reply;        host/example.c has all of it
 *     }
 *
 * The look at the queue and the sleep are one step that no interrupt divides. Otherwise a character that ends in between is in the queue of a processor that
 * sleeps: it waits for the alarm, and where no frame was open, for ever. Most processors have a sleep that a pending interrupt ends also while interrupts are
 * off; it is then served when they are on again. The same look takes care of an alarm whose tick has gone by already, after a long write to flash: it would
 * come only when the counter has gone round.
 *
 * Only numbers and pointers to bytes cross. Every length, and every number of bytes that comes back, is a uint64_t, also where size_t has 32 bits.
 *
 * What must last. When the supply goes, two things must still be there afterwards: memory, and the QS_LASTING_LENGTH bytes of the image from
 * QS_IMAGE_LASTING on (codes, counter, address in force, offset). A call that returns no reply, or a refusal, changes neither. One that returns a reply changes
 * them only if QS_MAY_CHANGE(room[1]) holds of the reply's command byte, so an error reply never does. A host that then first writes what changed to its
 * flash and only after that sends the reply loses nothing that it ever acknowledged. After power-on it calls qs_restart with the plate and those bytes, and
 * gives the measured position by qs_measured: memory and state are then what power-on left of them. The plate, its label too, never changes and is not among
 * those bytes: a host has it in its program, the serial number where its maker wrote it, and gives the same at each start.
 *
 * Wear. Of memory a call writes only cells that change (02, Req 05): a byte that a store or 4Dh sets to what it holds already is read and not written, a byte
 * that changes is written once, by itself. So a request that is repeated wears no memory part, and a part that is mapped and takes single bytes may be lent as
 * memory; where the supply goes within a call, some of its cells are written and others not. A part that is written in pages must be compared by the host:
 * QS_MAY_CHANGE tells when memory may be another, not that it is. The image is written without such a look: it is for RAM.
 *
 * Address. A frame is judged by the address in force when it closes, and FFh is every board's. The address in force is the plate's until the board accepts a
 * 55h, then the new one; power-on and 53h leave it, and qs_restart takes it from the lasting bytes. So after qs_fresh nobody asks for the plate's address
 * again: the host reads the board's own at QS_IMAGE_ADDRESS, not at QS_IMAGE_PLATE_ADDRESS. A board whose lasting bytes are lost and that is made by qs_fresh
 * answers to the plate's address.
 *
 * Duties on the line, which no call can test:
 *   - The host hands in only what others sent. On a half-duplex line the receiver hears the host's own transmission too: it is thrown away. A board that is
 *     fed its own reply takes it for a request and answers it, for ever.
 *   - tick is a counter of 1/38400 s that wraps around at exactly 2^32 and never steps back behind a character that was handed in. A 32-bit microsecond
 *     timer that is divided wraps early: count ticks in the timer itself, or keep 64 bits and convert (host/example.c, ticks_of_microseconds).
 *   - qs_poll is called in time: a frame is answered at the first poll after its pause, which QS_SLEEP foretells. The reply is due within the times beside the
 *     commands below, counted from the end of the pause; they hold the flash write too.
 *   - A reply that qs_character returns answers the frame before: the master is sending again already. A host that is about to send lets it go and sends
 *     nothing; what the request changed stays changed, and is written to flash all the same.
 *   - Several boards may share a line, each with an address of its own. A host hands in all that it hears, the other boards' replies too: a frame that
 *     begins with another address is passed over.
 *   - Every board answers a broadcast (address FFh), each with its own address. A master asks so only where one board is on the line; 55h by broadcast would
 *     give every board the same address.
 *   - The good reply to 55h carries the new address already, and from then on the board answers to that one only; an error reply carries the old one. A
 *     master that heard no reply does not know which is in force: it asks at both. It gives no address that another board on the line has: that board would
 *     take the good reply for a request of its own. New boards come with their plate's address, mostly 40h: they are put on the line and given theirs one
 *     by one.
 *   - A good 53h is followed by silence. 000 gives a master 100 ms after it before the next request.
 *
 * Duties towards the library, which no call can test either:
 *   - no pointer is null, also where its length is 0;
 *   - each pointer has at least as many bytes behind it as the length beside it says;
 *   - the buffers of one call do not overlap; those that are only read may;
 *   - a board's buffers are in one call at a time: no interrupt calls on them while another call runs.
 * Any alignment will do. The library keeps nothing of its own, allocates nothing, always returns and calls nothing of the host's; of the C library it needs
 * nothing, on 32-bit Arm memset and memmove. docs/PERFORMANCE.md tells its size, its need of stack and the instructions of each call, docs/FIRMWARE.md those on
 * Arm.
 *
 * Refusals. A call refuses in the order of the numbers, and then it has done nothing: every buffer is as it was. */
#ifndef QUICKSETTER_H
#define QUICKSETTER_H

#include <stdint.h>

#ifdef __cplusplus
extern "C" {
#endif

#define QS_VERSION "0.9.0" /* CHANGELOG.md tells what a host must change from one to the next */

/* ---- sizes ---------------------------------------------------------------------------------------------------------------------------------------------- */

#define QS_BLOCK 16                                                   /* bytes of a block */
#define QS_MEMORY_LENGTH(total) ((uint64_t)(total) * (QS_BLOCK + 1)) /* total blocks of data, then one status byte for each possible field */
#define QS_IMAGE_LENGTH 212                                           /* the image: plate and state */
#define QS_LABEL_LENGTH 41                                            /* of it, the label */
#define QS_LASTING_LENGTH 12                                          /* of it, the bytes that must last */
#define QS_KEPT_BYTES 135                                             /* bytes kept of a frame; a longer one is answered with 0Ch */
#define QS_REPLY_ROOM 134                                             /* the longest reply */
#define QS_REQUEST_BUFFER 135                                         /* the longest request */
#define QS_BROADCAST 255                                              /* address number of a request to every board */

/* ---- results -------------------------------------------------------------------------------------------------------------------------------------------- */

/* Board calls and qs_request return a number of bytes, or QS_REFUSED and the number of the refusal; qs_character and qs_poll return that in QS_REPLY. */
#define QS_REFUSED 256
#define QS_R1 (QS_REFUSED + 1) /* a plate or state number beyond its limit, another layout number, another length of image, label or lasting bytes */
#define QS_R2 (QS_REFUSED + 2) /* memory not QS_MEMORY_LENGTH(total) bytes long */
#define QS_R3 (QS_REFUSED + 3) /* reply room under QS_REPLY_ROOM bytes, needed or not */
#define QS_R4 (QS_REFUSED + 4) /* request buffer under QS_REQUEST_BUFFER bytes, needed or not */
#define QS_R5 (QS_REFUSED + 5) /* a request that the bench does not write */
#define QS_IS_REFUSED(result) (QS_REPLY(result) > QS_REFUSED) /* of any of them */

/* The two numbers in what qs_character and qs_poll return: the one above, and for how many ticks after the tick that was handed in the host may sleep. */
#define QS_REPLY(result) ((result)&0xFFFFFFFF)
#define QS_SLEEP(result) ((uint32_t)((uint64_t)(result) >> 32)) /* 1 to QS_LONGEST_SLEEP, or one of the two below; never 0 */
#define QS_LONGEST_SLEEP 3520                                   /* the longest pause, 55 bit times of 64 ticks */
#define QS_NO_FRAME_OPEN 0xFFFFFFFFu                            /* until the next character there is nothing to poll for */
#define QS_SLEEP_REFUSED 0xFFFFFFFEu                            /* the call was refused, and tells nothing */

/* qs_judge returns one of these. */
#define QS_VERDICT_DONE 0
#define QS_VERDICT_DONE_WITH_WARNING 1    /* a fault code waits on the board */
#define QS_VERDICT_ERROR 256              /* and the error code: 256 to 511 */
#define QS_VERDICT_ERROR_WITH_WARNING 512 /* and the error code: 512 to 767 */
#define QS_VERDICT_REFUSED 1024           /* and the number of the refusal, B0 to B6 */
#define QS_VERDICT_IS_ERROR(verdict) ((verdict) >= QS_VERDICT_ERROR && (verdict) < QS_VERDICT_ERROR_WITH_WARNING + 256)
#define QS_VERDICT_CODE(verdict) ((uint8_t)((verdict)&0xFF)) /* the error code, where QS_VERDICT_IS_ERROR */
#define QS_VERDICT_WARNS(verdict) ((verdict) == QS_VERDICT_DONE_WITH_WARNING || ((verdict) & ~0xFFu) == QS_VERDICT_ERROR_WITH_WARNING)
#define QS_B0 (QS_VERDICT_REFUSED + 0)    /* the request is not one that the bench writes */
#define QS_B1 (QS_VERDICT_REFUSED + 1)    /* reply under 3 bytes */
#define QS_B2 (QS_VERDICT_REFUSED + 2)    /* its checksum is wrong */
#define QS_B3 (QS_VERDICT_REFUSED + 3)    /* its address is not the asked one; to a broadcast, not 40h to 5Fh; of a good reply to 55h, not the new one */
#define QS_B4 (QS_VERDICT_REFUSED + 4)    /* its command without bit 7 is neither the request's nor 50h */
#define QS_B5 (QS_VERDICT_REFUSED + 5)    /* its data length is not the command's, or not 1 in an error reply */
#define QS_B6 (QS_VERDICT_REFUSED + 6)    /* a field, offset, count, code number or 4Dh status that it returns differs from the request's */

/* ---- commands, and the codes of error replies ----------------------------------------------------------------------------------------------------------- */

/* Beside each: data of the request; data of the reply; the time within which the reply is due after the pause (000, table 10). Numbers of several bytes
 * stand high byte first; a code is an access code. */
#define QS_READ_POSITION 0x42     /* nothing; position 4; 10 ms */
#define QS_SET_POSITION 0x43      /* position 4, Code0; nothing; 40 ms */
#define QS_READ_COUNTER 0x46      /* nothing; counter 3; 5 ms */
#define QS_INCREMENT_COUNTER 0x47 /* nothing; nothing; 30 ms */
#define QS_RESET_COUNTER 0x49     /* Code0; nothing; 30 ms */
#define QS_READ_DATA 0x4A         /* field, offset, count, code; field, offset, count and as many bytes; 30 ms */
#define QS_STORE_DATA 0x4B        /* field, offset, count, code and as many bytes; field, offset, count; 250 ms */
#define QS_FIELD_STATUS 0x4C      /* field; field, status; 5 ms */
#define QS_CREATE_FIELD 0x4D      /* field, status, code; field, status; 70 ms. Also changes one, and deletes the last: QS_DELETION_OF */
#define QS_MEMORY_STATUS 0x4E     /* nothing; free blocks, number of fields; 5 ms */
#define QS_SET_ACCESS_CODE 0x4F   /* number 0 to 3, old code, new code; number; 40 ms */
#define QS_READ_STATUS 0x50       /* nothing; the oldest waiting fault code or 00h; 5 ms. Also the command byte of every error reply, whose data is its code */
#define QS_READ_TYPE_LABEL 0x52   /* nothing; type label 4; 5 ms */
#define QS_RESET 0x53             /* nothing; no reply at all */
#define QS_SET_ADDRESS 0x55       /* new address byte 40h to 5Fh, Code0; nothing, and the reply carries the new address; 40 ms */
#define QS_READ_VERSION 0x56      /* nothing; serial number 9, version 20, date 8; 5 ms */
#define QS_WARNING_BIT 0x80       /* set in a reply's command byte exactly if a fault code waits after the request was worked */

/* Whether the call that left a reply with this command byte may have changed memory or the lasting bytes. */
#define QS_MAY_CHANGE(command)                                                                                                                              \
    (((command)&0x7F) == QS_SET_POSITION || ((command)&0x7F) == QS_INCREMENT_COUNTER || ((command)&0x7F) == QS_RESET_COUNTER ||                             \
     ((command)&0x7F) == QS_STORE_DATA || ((command)&0x7F) == QS_CREATE_FIELD || ((command)&0x7F) == QS_SET_ACCESS_CODE ||                                  \
     ((command)&0x7F) == QS_SET_ADDRESS)

#define QS_ERROR_POSITION_LOCKED 0x02
#define QS_ERROR_TABLE_UNSOUND 0x03
#define QS_ERROR_COUNTER_OVERFLOW 0x08 /* noted by 47h; never an error reply of its own */
#define QS_ERROR_PARITY 0x09
#define QS_ERROR_CHECKSUM 0x0A
#define QS_ERROR_UNKNOWN_COMMAND 0x0B
#define QS_ERROR_WRONG_LENGTH 0x0C
#define QS_ERROR_WRONG_ARGUMENT 0x0D /* a number out of range; of a deletion, a status that is not QS_DELETION_OF the stored one */
#define QS_ERROR_READ_ONLY 0x0E
#define QS_ERROR_WRONG_CODE 0x0F
#define QS_ERROR_NO_ROOM 0x10
#define QS_ERROR_BEYOND_FIELD 0x11
#define QS_ERROR_NO_FIELD 0x12

/* Fault codes that lock the position until power-on; they never wait. */
#define QS_FAULT_LOCKS_A 0x22
#define QS_FAULT_LOCKS_B 0x24

/* A field's status byte. */
#define QS_STATUS_BLOCKS 0x07        /* blocks less one */
#define QS_STATUS_CODE_WANTED 0x08
#define QS_STATUS_CODE_NUMBER 0x30   /* shifted left by 4 */
#define QS_STATUS_WRITE_ENABLED 0x40
#define QS_STATUS_EXISTS 0x80

/* The status with which 4Dh deletes a field whose stored status, as 4Ch tells it, is this one: all bits but bit 7 must be the stored ones (02, Req 02). Any
 * other is answered with 0Dh, behind a wrong code (0Fh) and before a field that is not the last (10h). */
#define QS_DELETION_OF(status) ((uint8_t)((status) & ~QS_STATUS_EXISTS))

/* ---- the label ------------------------------------------------------------------------------------------------------------------------------------------ */

/* Place and size of each part of the label. 52h tells the first part and 56h the others, each byte as it was given: the library tests none of them and makes
 * none from the plate's numbers. That UART settings and memory size agree with the plate is the host's to see to.
 *
 * The type label is four bytes (000, table 28):
 *   UART settings  bits 0 to 2 the data rate (100b is 9600 baud, 4 ticks a bit); bits 4 and 5 the parity (10b is even); bit 6 set for a pause of 55 bit times
 *                  and clear for one of 22; bit 7 clear on a bus. E4h is 000's default
 *   encoder type   any but FFh: that says that there is an extended type label, and this board has none
 *   memory size    in blocks of 16 bytes, all that the part has: 000 has 80h where 70h blocks are for fields
 *   option code    00h on new boards
 * The rest is ASCII (000, table 31), the version with 00h behind it, the date as DD.MM.YY. */
#define QS_LABEL_TYPE 0
#define QS_LABEL_TYPE_SIZE 4
#define QS_LABEL_SERIAL 4
#define QS_LABEL_SERIAL_SIZE 9
#define QS_LABEL_VERSION 13
#define QS_LABEL_VERSION_SIZE 20
#define QS_LABEL_DATE 33
#define QS_LABEL_DATE_SIZE 8

/* ---- the image ------------------------------------------------------------------------------------------------------------------------------------------ */

/* Place and size of each part. Numbers of several bytes are little-endian. A host may read the parts, and write those of the state within their limits. */
#define QS_LAYOUT_NUMBER 2
#define QS_IMAGE_LAYOUT 0        /* QS_LAYOUT_NUMBER; another number is another layout, and R1 */
#define QS_IMAGE_LAYOUT_SIZE 1
#define QS_IMAGE_TOTAL 1         /* the plate: its numbers, a byte each, and the label */
#define QS_IMAGE_TOTAL_SIZE 1
#define QS_IMAGE_BITS 2
#define QS_IMAGE_BITS_SIZE 1
#define QS_IMAGE_PLATE_ADDRESS 3 /* the new board's; only its limit is looked at, and QS_IMAGE_ADDRESS is the one in force */
#define QS_IMAGE_PLATE_ADDRESS_SIZE 1
#define QS_IMAGE_TICKS 4
#define QS_IMAGE_TICKS_SIZE 1
#define QS_IMAGE_PAUSE 5
#define QS_IMAGE_PAUSE_SIZE 1
#define QS_IMAGE_LABEL 6         /* any bytes */
#define QS_IMAGE_LABEL_SIZE QS_LABEL_LENGTH
#define QS_IMAGE_LASTING 47      /* codes, counter, address and offset: what must last */
#define QS_IMAGE_LASTING_SIZE QS_LASTING_LENGTH
#define QS_IMAGE_CODES 47        /* the four access codes, any bytes */
#define QS_IMAGE_CODES_SIZE 4
#define QS_IMAGE_COUNTER 51      /* 0 to FFFFFFh */
#define QS_IMAGE_COUNTER_SIZE 3
#define QS_IMAGE_ADDRESS 54      /* the address in force, 0 to 31; the board's address byte is 40h + this */
#define QS_IMAGE_ADDRESS_SIZE 1
#define QS_IMAGE_OFFSET 55       /* of the position, below 2^bits */
#define QS_IMAGE_OFFSET_SIZE 4
#define QS_IMAGE_MEASURED 59     /* the measured position as it was given, any number */
#define QS_IMAGE_MEASURED_SIZE 4
#define QS_IMAGE_WAITING 63      /* the waiting fault codes, oldest first; all different, none of them 22h or 24h */
#define QS_IMAGE_WAITING_SIZE 4
#define QS_IMAGE_LOCKED 67       /* 1 while the position is locked, else 0 */
#define QS_IMAGE_LOCKED_SIZE 1
#define QS_IMAGE_OPEN 68         /* 1 while a frame is open, else 0 */
#define QS_IMAGE_OPEN_SIZE 1
#define QS_IMAGE_LONGER 69       /* 1 if the open frame has more than QS_KEPT_BYTES bytes, else 0 */
#define QS_IMAGE_LONGER_SIZE 1
#define QS_IMAGE_PARITY 70       /* 1 if a character of the open frame had a parity fault, else 0 */
#define QS_IMAGE_PARITY_SIZE 1
#define QS_IMAGE_LAST 71         /* the tick of the open frame's last character, any number */
#define QS_IMAGE_LAST_SIZE 4
#define QS_IMAGE_SUM 75          /* the XOR of all bytes of the open frame, any byte */
#define QS_IMAGE_SUM_SIZE 1
#define QS_IMAGE_KEPT_NUMBER 76  /* the number of its kept bytes, at most QS_KEPT_BYTES */
#define QS_IMAGE_KEPT_NUMBER_SIZE 1
#define QS_IMAGE_KEPT 77         /* its kept bytes */
#define QS_IMAGE_KEPT_SIZE QS_KEPT_BYTES

/* R1 for an image: another length; another layout number; a plate number beyond its limit, the plate's address too; an address in force over 31; an offset of
 * 2^bits or more; two waiting codes that are equal; 22h or 24h waiting; a code that waits behind an empty place; locked, open, longer or parity other than 0
 * and 1; a number of kept bytes over QS_KEPT_BYTES. Each also with no frame open. The counter is never beyond its limit: three bytes hold no more.
 * No step leads out of the limits: a host that hands in what the last call left never meets R1 for its image.
 *
 * Places that carry no meaning follow one rule each:
 *   - kept bytes beyond their number are left as they were, and are not read;
 *   - places of the queue beyond the waiting codes are 00h;
 *   - a call that closes or drops a frame and opens none, and every qs_power_on, leaves open, longer, parity, last, sum and the number of kept bytes all 0.
 *     With no frame open, longer, parity, last, sum and the number of kept bytes are not read but for R1, and calls that open none leave them as they were. */

/* ---- the board ------------------------------------------------------------------------------------------------------------------------------------------ */

/* Makes the image of a fresh board: codes 55h, nothing counted, the plate's address in force, no offset, nothing measured, no fault, no frame open. Every byte
 * of the image is written, the kept bytes too. The label is copied: its buffer is the host's again. The host clears memory itself where the board is new.
 * Returns 0. Refuses QS_R1: a plate number beyond its limit, label_length not QS_LABEL_LENGTH, or image_length not QS_IMAGE_LENGTH. */
uint64_t qs_fresh(uint32_t total, uint32_t bits, uint32_t address, uint32_t ticks, uint32_t pause, const uint8_t *label, uint64_t label_length,
                  uint8_t *image, uint64_t image_length);

/* Makes the image of a board that was off, from its plate and the bytes that lasted: codes, counter, address in force and offset are theirs, all else is as
 * fresh. Plate and label are those that were given before; of the plate's address only the limit matters, since the one that lasted is in force. The image
 * holds what qs_power_on leaves of the image from which the bytes were taken, but that the measured position is 0: the host gives that next, by qs_measured.
 * Returns 0. Refuses QS_R1: a plate number beyond its limit, label_length not QS_LABEL_LENGTH, lasting_length not QS_LASTING_LENGTH, image_length not
 * QS_IMAGE_LENGTH, an address over 31, an offset of 2^bits or more. That bytes within those limits are the right ones it cannot tell: a host keeps a checksum
 * of its own beside them. */
uint64_t qs_restart(uint32_t total, uint32_t bits, uint32_t address, uint32_t ticks, uint32_t pause, const uint8_t *label, uint64_t label_length,
                    const uint8_t *lasting, uint64_t lasting_length, uint8_t *image, uint64_t image_length);

/* A character came. tick is the time of its end; parity is 0, or anything else if the character had a parity fault. If its gap to the last character is at
 * least pause * ticks, it closes the open frame, which is then answered, and opens the next one.
 * Returns, in QS_REPLY, the length of the reply to the closed frame, 1 to QS_REPLY_ROOM bytes at the room's front with the rest of the room as it was, or 0 for
 * none; then all of the room is as it was. In QS_SLEEP, the full pause, pause * ticks: the character is the last one now.
 * Refuses QS_R1, QS_R2, QS_R3 in this order, with QS_SLEEP_REFUSED. */
uint64_t qs_character(uint8_t *image, uint64_t image_length, uint32_t tick, uint8_t value, uint8_t parity, uint8_t *memory, uint64_t memory_length,
                      uint8_t *room, uint64_t room_length);

/* The host looks whether the open frame is over: it is closed and answered if tick is at least pause * ticks after its last character. With no frame open,
 * or too early, nothing changes.
 * Returns and refuses as qs_character does, but for QS_SLEEP: QS_NO_FRAME_OPEN if it closed the frame or none was open, else what is left of the pause. */
uint64_t qs_poll(uint8_t *image, uint64_t image_length, uint32_t tick, uint8_t *memory, uint64_t memory_length, uint8_t *room, uint64_t room_length);

/* The host gives the measured position, any number; 42h and 43h reduce it mod 2^bits. It holds for frames that close later, open ones included.
 * Returns 0. Refuses QS_R1. */
uint64_t qs_measured(uint8_t *image, uint64_t image_length, uint32_t position);

/* The host notes a fault code. 00h is ignored; 22h and 24h lock the position; any other joins the queue of four, unless it waits already or four wait.
 * Returns 0. Refuses QS_R1. */
uint64_t qs_fault(uint8_t *image, uint64_t image_length, uint8_t code);

/* The supply came on: the queue is emptied, an open frame is dropped without an answer, the position is unlocked; all else stays.
 * Returns 0. Refuses QS_R1. */
uint64_t qs_power_on(uint8_t *image, uint64_t image_length);

/* ---- the bench ------------------------------------------------------------------------------------------------------------------------------------------ */

/* Writes a request to the front of the buffer: address byte, command, data, checksum. address is 0 to 31 or QS_BROADCAST.
 * Returns its length, 3 to QS_REQUEST_BUFFER; the rest of the buffer is as it was.
 * Refuses QS_R4, then QS_R5: another address; a command that is not one of the above; data of a length that the command does not allow; a count of 0 or over
 * 128 in 4Ah; a code number over 3 in 4Fh. Not otherwise: 43h's position and 55h's new address byte are the board's to judge. */
uint64_t qs_request(uint32_t address, uint8_t command, const uint8_t *data, uint64_t data_length, uint8_t *buffer, uint64_t buffer_length);

/* Judges a reply to a request. An error reply is the verdict error, but to a request 50h it is done and its byte is the data, since the wire shows no
 * difference. A request 53h is never done: it has no reply.
 * The good reply to a 55h (command 55h or D5h) must carry the request's new address byte, also where that was a broadcast, and the byte must be 40h to 5Fh; an
 * error reply must carry the asked address. After that good reply a master asks at the new address.
 * Returns a verdict, QS_VERDICT_REFUSED + n for B0 to B6 in this order. */
uint32_t qs_judge(const uint8_t *request, uint64_t request_length, const uint8_t *reply, uint64_t reply_length);

/* The data part of a reply that qs_judge takes: all between command and checksum, at place 2; the code byte of an error reply. Of a reply that qs_judge
 * refuses, no bytes at place 0. Its first byte is reply[QS_DATA_PLACE(part)]. */
uint64_t qs_data_part(const uint8_t *request, uint64_t request_length, const uint8_t *reply, uint64_t reply_length);
#define QS_DATA_PLACE(part) ((part) >> 32)
#define QS_DATA_LENGTH(part) ((part)&0xFFFFFFFF)

/* How long the reply to a request will be, once its first two bytes are here, so that a master knows its end: any reply that begins so and that qs_judge
 * takes has that length.
 * Returns QS_B0, whatever is here, for what is not a request that the bench writes; 0 while fewer than two bytes are here; then the length, 3 to
 * QS_REPLY_ROOM, or, since qs_judge takes no reply that begins so, QS_B4 (another command) or QS_B5 (to 53h there is none). */
uint64_t qs_reply_length(const uint8_t *request, uint64_t request_length, const uint8_t *reply, uint64_t reply_length);

#ifdef __cplusplus
}
#endif

#endif
