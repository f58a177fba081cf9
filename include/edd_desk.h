/*
 * edd_desk.h - an INT 13h disk service as a desk: a guest posts its registers, the host gives turns, the guest collects.
 *
 * Link with -ledd_desk. For C11 and C++17, on 64-bit hosts only: the library is compiled for x86-64. EDD_VERSION is the
 * version of this interface.
 *
 *
 * The parts
 *
 *   desk    EDD_DESK_SIZE bytes that hold the whole state of one service: the drives, one row for each guest, the turn
 *           pointer, the place of each guest's parameter tables, and the lengths of arena and store given at the opening. To
 *           the host these bytes are opaque. They contain no address of the host's memory, so a block may be copied and put
 *           back as long as the same library is linked. A block belongs to the version of the library that wrote it: do not
 *           keep it in a file for a later one.
 *   arena   the memory of all guests. Guest g, 0 to 7, has the window that starts at g * M, where M is the arena's length
 *           divided by 8, rounded down (edd_window). Every segment:offset address of a guest counts from the start of its
 *           window: 16 * segment + offset, never wrapped. Up to seven bytes at the end of the arena belong to nobody.
 *   store   the blocks of all drives, 512 bytes each. The drive table says which drive has which blocks.
 *   table   the drive table: 0 to 8 drives, numbered from 80h upward in table order. See "The drive table" below.
 *   reader  EDD_READER_SIZE bytes that hold a table of which only the beginning has arrived, for a host that gets it in
 *           fragments, through a pipe for example. See edd_reader_open. A host that has the whole table needs no reader.
 *           What is said above of a desk's bytes holds for a reader's too.
 *
 *
 * What every call keeps to
 *
 *   All input has an answer. Registers, packets, tables, records, fragments, desk blocks and reader blocks may hold anything;
 *   a guest's number, the lengths given at an opening and the address of edd_place may be any number. A slice may have any
 *   length, provided that its memory really is that long. The result is EDD_DONE (0), a number that says why the call was
 *   refused, or EDD_NOTHING_YET (256) where there is nothing to hand out yet.
 *
 *   A refused call changes nothing: no register, no result and no byte of desk, arena, store or buffer is written. There
 *   are two exceptions, both where a table is refused (1 to 9): *place is then written, by edd_open, edd_reader_feed and
 *   edd_reader_end, and at no other time; and a reader keeps that refusal in its block. A call that answers 256 changes
 *   nothing either, except that a post stores the waiting request in the desk, and a reader what it was fed.
 *
 *   The caller owns everything. The library keeps no pointer after a call returns, allocates nothing, starts nothing, and
 *   has no variable of its own: no static record, no cache, no errno. A call uses at most EDD_STACK_MAX bytes of stack. That
 *   much is for edd_open and the calls of a reader; the other calls use at most EDD_STACK_DESK_MAX. Both are tested and not
 *   proved. Outside itself the library calls only memcpy, memmove, memset and their like, and no support routine of a
 *   compiler. A loader that looks up such a name at its first call uses stack of its own: link with -z now where that
 *   matters.
 *
 *   What may run at the same time. All calls on one desk, its arena and its store run one at a time, under the host's own
 *   lock, and so do all calls on one reader. Calls with different desks, arenas and stores, or different readers, and calls
 *   that are lent none of these, need no lock and may run on any threads: the library has nothing of its own that they could
 *   share, so no request can meet another's scratch data.
 *
 *   What is proved is about the bytes at the beginning and at the end of a call. It holds if nobody else writes, while the
 *   call runs, the desk or reader block, the table, fragment, record or buffer that is lent, the window of the guest that is
 *   posted, served, withdrawn or placed for, or the blocks that are moved. Of the rest of arena and store a call uses only
 *   the lengths: a post, a withdrawal or a placement touches no window but its guest's; a turn touches no window but that
 *   of the guest it serves, whose request was waiting, and no block but those it moves; no other call touches a block. This
 *   is tested with protected pages and not proved. So a guest that has no request waiting may go on running in its own
 *   window, without the lock, while calls for other guests run.
 *
 *   A guest whose request is waiting leaves its buffer alone until the request has ended, because a turn may be reading or
 *   writing it. It may overwrite its packet, but two bytes there, the count word, are written by a withdrawal, and by the turn
 *   that meets a bad block, of a write (43h) as of a read (42h).
 *
 *   What is lent to one call must not overlap: desk, reader, arena, store, table, fragment, record and buffer (out) must not
 *   overlap each other, nor the places of the results, and no two result or register pointers may be the same. So a record is
 *   not converted in its own place. This is the caller's duty and is not tested.
 *
 *   Pointers. A slice is a pointer and its length in bytes. NULL with length 0 is an empty slice. No other pointer may be
 *   NULL: neither that of a slice longer than 0 nor that of a result or a register. A slice needs no alignment; results
 *   and registers are aligned as their types require.
 *
 *   The interface may grow by change request. The names of these nineteen calls and the order and types of their
 *   parameters stay; a call that needs more arguments comes under a new name. Everything else can change from one version
 *   to the next: the sizes (EDD_DESK_SIZE, EDD_READER_SIZE, EDD_TABLE_SIZE_MAX, EDD_STACK_MAX and so on), the form of the blocks,
 *   the refusals, and what a turn may answer. Compile with the header that came with the library; edd_version() ==
 *   EDD_VERSION says whether you did.
 *
 *
 * What is proved of every list of calls at one desk after an opening
 *
 *   A request that waits is served in at least one of any eight successive turns that are not refused. So, unless it is
 *   withdrawn, it finishes within 8 * ceil(n / 16) such turns, n being its number of blocks; at a bad block it may
 *   finish earlier. A turn changes no other guest's row or window. The registers, window and blocks of a finished request are
 *   those of the same request served alone at the time of its post, whatever the other guests posted, as long as the host
 *   leaves that window and the store alone meanwhile and no other guest writes a block that the request names. What a post
 *   answers at once it answers as served alone too, with the tables where they were placed for that guest at its post.
 *
 *
 * The drive table
 *
 *   Records, one after the other, every number little-endian. A record starts with its length in bytes (2 bytes), which
 *   counts the whole record, and its kind (2 bytes). The end record, length 4 and kind 0, comes last. A drive is a record of
 *   kind 1, length 68, or of kind 2, length 76. Kind 2 has a device path of sixteen bytes where kind 1 has eight, and knows one
 *   interface more, I2O; all else is the same, and one table may have drives of both kinds:
 *
 *      4  4 bytes each: physical cylinders, heads, sectors; any numbers, handed out by 48h
 *     16  8 bytes: the drive's number of blocks, at least 1
 *     24  8 bytes: its first block in the store
 *     32  2 bytes: information flags; bits 7 to 15 are zero. 48h hands them out, but bits 4 to 6 as zero where bit 2
 *         (removable) is clear; 43h may ask to verify (AL 2) where bit 3 is set
 *     34  2 bytes: cylinders, 1 to 1024
 *     36  2 bytes: heads, 1 to 255
 *     38  1 byte: sectors, 1 to 63; cylinders * heads * sectors is at most the number of blocks
 *     39  1 byte: 1 for a protected drive, otherwise 0
 *     40  4 bytes: host bus, "ISA" or "PCI"; the rest is filled with NUL
 *     44  8 bytes: interface, "ATA", "ATAPI", "SCSI", "USB", "1394" or "FIBRE", in kind 2 also "I2O"; the rest is filled with
 *         NUL
 *     52  8 bytes: interface path; any bytes, handed out by 48h. With the host bus PCI they begin with bus, slot, function and
 *         channel
 *     60  8 bytes in kind 1, 16 bytes in kind 2: device path; any bytes, handed out by 48h
 *
 *   Each drive lies inside the store, and no two drives share a block. What 48h hands out of a drive is said at edd_post. A
 *   drive of kind 1 is to guests what it is as kind 2 with eight zero bytes at 68: edd_convert_up makes that record of it, and
 *   edd_convert_down leads back where nothing is lost.
 *
 *   Directly after its drive, of kind 1 or 2, two further records may stand, one of kind 3 and one of kind 4, in this order;
 *   each drive may have either, both or none.
 *
 *   Kind 3, length 6 + 8 * n, lists n bad blocks of the drive, 1 to 16 of them. Reads and writes stop before a bad block
 *   (edd_turn), and 44h reports it (edd_post); nothing else looks at the list. A drive without this record has no bad block.
 *
 *      4  2 bytes: the drive's number, counted from 0 in table order
 *      6  8 bytes each: the numbers of the bad blocks, counted from the drive's own block 0 and not from the store's. Each
 *         is below the drive's number of blocks and above the one before it
 *
 *   Kind 4, length 20: from it the library makes the drive's device parameter table for a guest to read (edd_place):
 *
 *      4  2 bytes: the drive's number, counted from 0 in table order
 *      6  14 bytes: bytes 0 to 13 of the device parameter table; any bytes
 *
 *   A record of kind 3 is refused with 2 if its length is not that of 1 to 16 numbers; with 9 if it stands before any drive,
 *   names another than the last drive read, is that drive's second, or stands behind that drive's record of kind 4; then with
 *   5 if its numbers are not ascending, are repeated, or lie outside the drive.
 *
 *
 * Example: one block of drive 80h to 0000:0200 of guest 2. The result is 0, AH where carry is set, or -1.
 *
 *   #include "edd_desk.h"
 *
 *   int read_first_block(uint8_t *desk, const uint8_t *table, size_t table_len, uint8_t *arena, size_t arena_len,
 *                        uint8_t *store, size_t store_len)
 *   {
 *       uint64_t place = 0, served = 0, moved = 0;
 *       uint16_t ax = 0x0201, bx = 0x0200, cx = 0x0001, dx = 0x0080, ds = 0, si = 0, es = 0, carry = 0;
 *
 *       if (edd_open(desk, EDD_DESK_SIZE, table, table_len, arena_len, store_len, &place) != EDD_DONE)
 *           return -1;
 *       uint32_t answer = edd_post(desk, EDD_DESK_SIZE, arena, arena_len, store, store_len, 2,
 *                                  &ax, &bx, &cx, &dx, ds, si, es, &carry);
 *       while (answer == EDD_NOTHING_YET || answer == EDD_NOT_FINISHED) {
 *           if (edd_turn(desk, EDD_DESK_SIZE, arena, arena_len, store, store_len, &served, &moved) != EDD_DONE)
 *               return -1;
 *           answer = edd_collect(desk, EDD_DESK_SIZE, 2, &ax, &bx, &cx, &dx, &ds, &si, &es, &carry);
 *       }
 *       if (answer != EDD_DONE)
 *           return -1;
 *       return carry ? ax >> 8 : 0;
 *   }
 *
 * End of the example.
 */
#ifndef EDD_DESK_H
#define EDD_DESK_H

#include <stddef.h>
#include <stdint.h>

/* The length of a slice is a size_t, and the library, which is compiled for x86-64, takes it as 64 bits. */
#if SIZE_MAX < UINT64_MAX
#error "edd_desk.h is for 64-bit hosts: compile for x86-64, without -m32 or -mx32. The library takes a size_t of 64 bits"
#endif

/* The version of this header. A change that a program can see raises it by 1; edd_version() answers that of the library. */
#define EDD_VERSION 6

/* Asks the compiler to warn where the result of a call is ignored. Define it yourself, as nothing, to switch that off. */
#ifndef EDD_NODISCARD
#if defined(__cplusplus) && __cplusplus >= 201703L
#define EDD_NODISCARD [[nodiscard]]
#elif defined(__STDC_VERSION__) && __STDC_VERSION__ >= 202311L
#define EDD_NODISCARD [[nodiscard]]
#elif defined(__GNUC__)
#define EDD_NODISCARD __attribute__((warn_unused_result))
#else
#define EDD_NODISCARD
#endif
#endif

#ifdef __cplusplus
extern "C" {
#endif

/* ---- sizes */

#define EDD_DESK_SIZE 3920      /* bytes of a desk block; edd_desk_size() answers the same */
#define EDD_READER_SIZE 2018    /* bytes of a reader block; edd_reader_size() answers the same */
#define EDD_BLOCK_SIZE 512      /* bytes of a block of the store */
#define EDD_GUESTS 8            /* guests are 0 to 7 */
#define EDD_DRIVES 8            /* drives of a table, at most */
#define EDD_BAD_BLOCKS 16       /* bad blocks of a drive, at most */
#define EDD_RECORD_SIZE 68      /* bytes of a drive's record of kind 1, whose device path has eight bytes */
#define EDD_RECORD_SIZE_WIDE 76 /* bytes of a drive's record of kind 2, whose device path has sixteen */
#define EDD_TABLE_SIZE_MAX 1844 /* bytes of the longest table: eight drives of 76 + 134 + 20 and the end record of 4 */
#define EDD_TURN_BLOCKS 16      /* blocks that one turn moves, at most */
#define EDD_STACK_MAX 28672     /* bytes of stack that a call uses, at most */
#define EDD_STACK_DESK_MAX 4096 /* the same of all calls but edd_open and those of a reader */

/* ---- results of every call */

#define EDD_DONE 0
#define EDD_NOTHING_YET 256 /* edd_post: the request waits for turns. edd_turn: no request waits. edd_reader_feed: nothing is
                               settled: feed on, or say that the input has ended. edd_reader_write: say that first. */

/*
 * Refusals of a drive table, by edd_open, edd_reader_feed, edd_reader_end and edd_reader_write, which repeats the number
 * only. *place of the others says where, counted from the table's first byte: the start of the record, or for 8 the first
 * byte too many.
 */
#define EDD_TABLE_CUT_OFF 1     /* the table stops inside a record or before the end record: lend or feed all of it */
#define EDD_TABLE_LENGTH 2      /* the record's length is wrong for its kind: it must be 68 for a drive of kind 1 and 76 for one of
                                   kind 2; 6 + 8 n for n bad blocks, n from 1 to 16; 20 for parameters; 4 for the end record */
#define EDD_TABLE_KIND 3        /* unknown kind of record: this library knows drives (1 and 2), bad blocks (3), parameters (4) and
                                   the end (0) */
#define EDD_TABLE_NINTH_DRIVE 4 /* more than eight drives, kinds 1 and 2 together: use a second desk */
#define EDD_TABLE_FIELD 5       /* a field of the drive breaks its rule, or the bad blocks are unsorted, repeated or outside the
                                   drive: correct the record. A drive of interface I2O must be of kind 2. */
#define EDD_TABLE_STORE 6       /* the drive ends past the store: lend a longer store or correct the record */
#define EDD_TABLE_OVERLAP 7     /* the drive shares a block with an earlier one: correct its first block */
#define EDD_TABLE_TRAILING 8    /* a byte follows the end record: lend or feed the table without it */
#define EDD_TABLE_NOT_LAST 9    /* the record of kind 3 or 4 does not name the last drive read or repeats one, or one of kind 3
                                   stands behind its drive's kind 4: correct the table */

/*
 * Refusal of edd_convert_up and edd_convert_down: a slice has another size than it must have, the record is not a sound one of
 * its kind, or kind 1 cannot hold the drive. See there.
 */
#define EDD_CONVERSION 10

/* House refusals. Where several apply the order is 25, 24, 20, then 19, 21, 22 or 23, then 26. */
#define EDD_BUFFER_SHORT 19      /* edd_write, edd_reader_write: the buffer is shorter than the table: EDD_TABLE_SIZE_MAX is
                                    always enough */
#define EDD_NO_SUCH_GUEST 20     /* the guest's number is 8 or more: an error of the host */
#define EDD_ROW_NOT_VACANT 21    /* edd_post: the guest's last request waits or is finished: collect or withdraw it first.
                                    edd_place: it waits */
#define EDD_NOT_FINISHED 22      /* edd_collect: nothing to collect: post, or give more turns */
#define EDD_NOT_WAITING 23       /* edd_withdraw: no request waits: if it has finished, collect it */
#define EDD_LENGTH_DIFFERS 24    /* arena or store is not as long as at the opening: lend the same, or open again */
#define EDD_DESK_NOT_ACCEPTED 25 /* the block has another size, or its bytes are not those of an acceptable desk, or of a
                                    reader where a reader is lent: open it */
#define EDD_BAD_PLACE 26         /* edd_place: the tables cannot lie at that address: choose another */

/*
 * 25 does not detect every block that was never opened, nor all damage: a block of zeros, for example, is that of a desk
 * without drives and with both lengths 0 (as a reader it is refused). Open a block before you do anything else with it.
 */

/* Refusal of edd_block and edd_address: outside the geometry, or the geometry outside its limits. It is 04h of INT 13h. */
#define EDD_OUTSIDE 4

/* ---- AH when carry is set, in registers that edd_post, edd_collect or edd_withdraw hand out for the guest */

#define EDD_AH_BAD_PARAMETER 0x01   /* unknown function or drive, or a bad parameter */
#define EDD_AH_WRITE_PROTECTED 0x03 /* write to a protected drive */
#define EDD_AH_NOT_FOUND 0x04       /* blocks outside the drive or its geometry */
#define EDD_AH_NO_PARAMETERS 0x07   /* 08h on an unknown drive */
#define EDD_AH_BUFFER 0x09          /* transfer buffer outside the window, or AL above 128 */
#define EDD_AH_BAD_SECTOR 0x10      /* a read (02h, 42h) or a verify (44h) met a bad block */
#define EDD_AH_WITHDRAWN 0x80       /* withdrawn by the host */
#define EDD_AH_WRITE_FAULT 0xCC     /* a write (03h, 43h) met a bad block */

/*
 * With 10h, CCh and 80h part of the blocks may have been moved, the first ones of the request: AL of 02h and 03h, and the
 * count word of the packet of 42h and 43h, say how many. The count word of 44h says how many blocks before the bad one are
 * good. With every other code no block was moved.
 */

/* ---- the calls */

/*
 * The version of the library, EDD_VERSION of the header that came with it.
 */
EDD_NODISCARD uint32_t edd_version(void);

/*
 * The size of a desk block, EDD_DESK_SIZE. A host that loads the library at run time compares the version and the sizes of
 * both blocks (edd_reader_size) first.
 */
EDD_NODISCARD uint64_t edd_desk_size(void);

/*
 * Opens a desk: reads the drive table, keeps the two lengths, makes all rows vacant and the turn pointer 0. No guest has
 * parameter tables then: place them anew (edd_place).
 *
 *   desk, desk_len    the block to write. Only its size is looked at. It may hold any bytes, even those of a desk in use;
 *                     the requests and placements of that desk are then lost.
 *   table, table_len  the whole drive table, with nothing after it
 *   arena_length      length in bytes of the arena that later calls will be lent; any number
 *   store_length      length in bytes of the store that later calls will be lent; any number. The store has
 *                     store_length / 512 blocks, rounded down.
 *   place             where the table is refused
 *
 * 0         done: the whole block is written; *place is not.
 * 1 to 9    the table is refused: only *place is written.
 * 25        desk_len is not EDD_DESK_SIZE; tested first. Nothing is written, not even *place.
 */
EDD_NODISCARD uint32_t edd_open(uint8_t *desk, size_t desk_len, const uint8_t *table, size_t table_len,
                                uint64_t arena_length, uint64_t store_length, uint64_t *place);

/*
 * Writes the desk's drives as a table again: byte for byte the one that was opened.
 *
 *   desk, desk_len  only read
 *   out, out_len    the buffer for the table. Bytes after the table are left as they are.
 *   written         the length of the table in bytes
 *
 * 0         done: the table is at the start of the buffer, and *written is its length.
 * 25, 19    refused, tested in this order. Nothing is written.
 */
EDD_NODISCARD uint32_t edd_write(const uint8_t *desk, size_t desk_len, uint8_t *out, size_t out_len, uint64_t *written);

/*
 * Posts a guest's INT 13h registers. AH is the function: 02h, 03h, 08h, 41h, 42h, 43h, 44h, 47h and 48h are known.
 * 02h and 03h, and 42h and 43h with a count above 0, wait for turns if their parameters pass every test. Everything else
 * is answered at once and leaves the row vacant: then there is nothing to collect.
 *
 *   desk, desk_len         changed only when the request waits
 *   arena, arena_len       the whole arena. Only the guest's window is read. It is written in two cases: a 48h that
 *                          succeeds writes its result, and a 42h, 43h or 44h that is refused with a BIOS number, after the
 *                          size byte of its packet was found good, writes the packet's count word: 0, but for a 44h that
 *                          meets a bad block the number of good blocks before it.
 *   store, store_len       the whole store. Only the length is looked at.
 *   guest                  0 to 7
 *   ax, bx, cx, dx, carry  read, and written on 0. The value of carry on the way in does not matter.
 *   ds, si, es             read. No answer changes them.
 *
 * 0               answered at once: the registers are those to give the guest. Carry is 0, or 1 with the reason in AH.
 * 256             the request waits: give turns, then collect. No register is written, nor is carry.
 * 25, 24, 20, 21  refused, tested in this order. Nothing is written.
 *
 * 41h answers CX 0001h, and 48h has FFFFh:FFFFh at offset 26 of a result of 30 bytes or more. For a drive with a record of
 * kind 4, and a guest for which edd_place was done since the opening, these are CX 0005h and a pointer to the drive's
 * parameter table. The information flags at offset 2 are those of the drive's record, with bits 4 to 6 (change line,
 * lockable, maximum geometry) as zero where bit 2 (removable) is clear: without it they mean nothing.
 *
 * How long the result of 48h is depends on the size that the guest asks with, the word at its start:
 *
 *   below 26  none: 01h
 *   26 to 29  26 bytes
 *   30 to 65  30 bytes: also the pointer
 *   66 to 73  66 bytes: also the device path information, with the key BEDDh at 30 and the length byte 24h at 32; but 30 bytes
 *             for a drive of interface I2O, as if the guest had asked with 30
 *   from 74   74 bytes, for every drive: the same with the length byte 2Ch and a longer device path
 *
 * The 66 bytes have host bus and interface, at 36 and 40, as the record has them, filled with NUL; the interface path at 48;
 * the first eight bytes of the device path at 56, whatever the drive's kind; and a checksum at 65. The 74 bytes have host bus
 * and interface filled with 20h in place of each NUL; the interface path at 48; all sixteen bytes of the device path at 56, of
 * which the last eight are zero for a drive of kind 1; and the checksum at 73. The checksum makes the sum of the bytes from 30
 * on zero modulo 256. The word at 0 is then the number of bytes returned. All of them must lie inside the window (01h), and
 * bytes of the buffer behind them stay as they are.
 *
 * 44h tests its blocks at once: if one of them is bad, and all tests of its parameters passed, it is answered with carry 1
 * and AH 10h, and AL stays. A count of 0 meets none. The bad blocks that a 02h, 03h, 42h or 43h names are not looked at
 * here: the request waits, and a turn meets them. 47h and 48h do not heed them.
 *
 * The packet is read here and never again, so from now on the guest may overwrite it. Its place is remembered: a
 * withdrawal, or a turn that meets a bad block, writes the count word there. The guest leaves the buffer alone until the
 * request has ended.
 */
EDD_NODISCARD uint32_t edd_post(uint8_t *desk, size_t desk_len, uint8_t *arena, size_t arena_len, const uint8_t *store,
                                size_t store_len, uint64_t guest, uint16_t *ax, uint16_t *bx, uint16_t *cx,
                                uint16_t *dx, uint16_t ds, uint16_t si, uint16_t es, uint16_t *carry);

/*
 * Gives one turn: serves the first waiting row at or after the turn pointer, counting cyclically. It moves that request's
 * next 16 blocks, or what remains if fewer, in ascending order; then the pointer is the served guest plus 1, modulo 8.
 * When all blocks have been moved the row is finished, and the guest can collect.
 *
 * If one of these blocks is bad, the turn moves the good ones before the first such block, which may be none, and the row is
 * finished too: the guest collects carry 1 with AH 10h for a read, CCh for a write. A bad block is neither read nor written,
 * nor is any block behind it. A request whose next bad block lies behind this turn's part goes on as any other.
 *
 *   desk, desk_len    the served row and the pointer change
 *   arena, arena_len  the whole arena. A read (02h, 42h) writes the blocks into the served guest's window. At a bad block a 42h
 *                     or 43h also writes two bytes there, the count word where the packet was at the post: how many blocks of
 *                     the whole request were moved, in this turn and before it. They are written after the data, so they
 *                     stand on top of it where the buffer covers the packet. A request that moves all its blocks does not
 *                     write them.
 *   store, store_len  the whole store. A write (03h, 43h) writes the blocks.
 *   guest, moved      which guest was served, 0 to 7, and how many blocks this turn moved, 0 to 16. Fewer than 16, and than
 *                     what remained, means a bad block: the request has ended. 0 always means that. A host that does not
 *                     count blocks asks edd_collect, which answers 22 as long as the request waits.
 *
 * 0         a request was served, also if no block of it was moved.
 * 256       idle: no row waits. Nothing is written, and the pointer stays where it is.
 * 25, 24    refused, tested in this order. Nothing is written.
 */
EDD_NODISCARD uint32_t edd_turn(uint8_t *desk, size_t desk_len, uint8_t *arena, size_t arena_len, uint8_t *store,
                                size_t store_len, uint64_t *guest, uint64_t *moved);

/*
 * Hands out the registers of a finished request, once, and makes the guest's row vacant.
 *
 *   desk, desk_len  the guest's row changes
 *   guest           0 to 7
 *   ax to carry     only written. Carry is 0 or 1.
 *
 * 0           done. A request whose blocks were all moved has the posted registers with carry 0 and AH 0. One that met a bad
 *             block has the posted registers with carry 1 and AH 10h (02h, 42h) or CCh (03h, 43h). How many blocks were moved
 *             before it, in the whole request: for 02h and 03h AL says it, less than the posted AL and possibly 0; for 42h and
 *             43h, whose AL stays, the count word of the guest's packet.
 * 25, 20, 22  refused, tested in this order. Nothing is written.
 */
EDD_NODISCARD uint32_t edd_collect(uint8_t *desk, size_t desk_len, uint64_t guest, uint16_t *ax, uint16_t *bx,
                                   uint16_t *cx, uint16_t *dx, uint16_t *ds, uint16_t *si, uint16_t *es,
                                   uint16_t *carry);

/*
 * Ends a request that waits. Blocks that turns have already moved stay moved. The row is vacant at once: there is nothing
 * to collect.
 *
 *   desk, desk_len    the guest's row changes
 *   arena, arena_len  the whole arena. For 42h and 43h the number of blocks moved is written to the packet's count word:
 *                     where the packet was at the post, over whatever is there now.
 *   store, store_len  the whole store. Only the length is looked at.
 *   guest             0 to 7
 *   ax to carry       only written: the posted registers with carry 1 and AH 80h; for 02h and 03h AL is the number of
 *                     blocks moved
 *
 * 0               done.
 * 25, 24, 20, 23  refused, tested in this order. Nothing is written.
 */
EDD_NODISCARD uint32_t edd_withdraw(uint8_t *desk, size_t desk_len, uint8_t *arena, size_t arena_len,
                                    const uint8_t *store, size_t store_len, uint64_t guest, uint16_t *ax, uint16_t *bx,
                                    uint16_t *cx, uint16_t *dx, uint16_t *ds, uint16_t *si, uint16_t *es,
                                    uint16_t *carry);

/*
 * Places the device parameter tables in a guest's window: for each drive with a record of kind 4 sixteen bytes, one table
 * after another in drive order, from the address on. A drive without such a record takes no room. A table is the record's
 * fourteen bytes, with bits 7 and 5 of byte 4 set, then 11h, the revision, and a byte that makes the sum of all sixteen zero
 * modulo 256. From now on, until the desk is opened or the guest's tables are placed anew, 48h gives this guest the pointer
 * to the table of a drive that has one, offset 0 and segment address / 16 of that table, and 41h sets bit 2 of CX.
 *
 *   desk, desk_len    the guest's placement changes
 *   arena, arena_len  the whole arena. The tables are written into the guest's window, so that guest must not run meanwhile.
 *   store, store_len  the whole store. Only the length is looked at.
 *   guest             0 to 7
 *   address           where the first table lies, counted from the start of the window; 0 is a place like any other
 *
 * 0                   done. Without any record of kind 4 nothing is written to the window, but the placement is kept.
 * 25, 24, 20, 21, 26  refused, tested in this order. Nothing is written, and the guest keeps the placement that it had.
 *                     21: the guest's request waits; a finished one does not matter. 26: the address is no multiple of 16,
 *                     the last table ends past the window (with no table: the address lies past its end), or a table's
 *                     segment would be above FFFFh.
 *
 * The tables are the guest's memory, which it or its own reads may overwrite. The library does not look at them again: the
 * pointer can be trusted only as long as the guest leaves the tables alone. Tables that were placed before stay where they
 * are, as bytes that nothing points to.
 */
EDD_NODISCARD uint32_t edd_place(uint8_t *desk, size_t desk_len, uint8_t *arena, size_t arena_len, const uint8_t *store,
                                 size_t store_len, uint64_t guest, uint64_t address);

/*
 * The size of a reader block, EDD_READER_SIZE.
 */
EDD_NODISCARD uint64_t edd_reader_size(void);

/*
 * Opens a reader: a drive table that arrives in fragments is fed to it, and however it is cut, the answer is that of
 * edd_open on the whole. Between the fragments the reader keeps the drives so far and at most one unfinished record.
 *
 *   reader, reader_len  the block to write. Only its size is looked at. It may hold any bytes, even those of a reader in use,
 *                       which then begins anew.
 *   store_length        length in bytes of the store, any number, as for edd_open. Give edd_open the same: with a shorter one
 *                       it may refuse (6) what the reader accepted.
 *
 * 0         done: the whole block is written.
 * 25        reader_len is not EDD_READER_SIZE. Nothing is written.
 *
 * Example: the table comes through a pipe, and a desk is opened with it. The result is that of the first call that refuses.
 *
 *   uint8_t reader[EDD_READER_SIZE], piece[64], table[EDD_TABLE_SIZE_MAX];
 *   uint64_t place = 0, table_len = 0;
 *   ssize_t n;
 *   uint32_t answer = edd_reader_open(reader, EDD_READER_SIZE, store_len);
 *
 *   while (answer == EDD_DONE || answer == EDD_NOTHING_YET) {
 *       if ((n = read(pipe, piece, sizeof piece)) <= 0)
 *           break; // the end of input; a host tells an error (-1) apart
 *       answer = edd_reader_feed(reader, EDD_READER_SIZE, piece, (size_t)n, &place);
 *   }
 *   answer = edd_reader_end(reader, EDD_READER_SIZE, &place);
 *   if (answer == EDD_DONE)
 *       answer = edd_reader_write(reader, EDD_READER_SIZE, table, sizeof table, &table_len);
 *   if (answer == EDD_DONE)
 *       answer = edd_open(desk, EDD_DESK_SIZE, table, table_len, arena_len, store_len, &place);
 */
EDD_NODISCARD uint32_t edd_reader_open(uint8_t *reader, size_t reader_len, uint64_t store_length);

/*
 * Feeds the next bytes of the table. A refusal is made by the feed whose bytes settle it, whatever may follow them: 2 and 3
 * with the fourth byte of a record, 4, 5, 6, 7 and 9 with its last, 8 with the first byte after the end record. That bytes
 * are missing (1) is never settled before the end of input. Once the table is refused, or the end was told, further bytes
 * are ignored, and the same answer is given again.
 *
 *   reader, reader_len  changed: what was fed, or the refusal, is kept in it
 *   bytes, bytes_len    the fragment, of any length; an empty one changes nothing
 *   place               where the table is refused
 *
 * 256       nothing is settled: feed on, or call edd_reader_end if that was all. *place is not written.
 * 0         the end was told before, and the table was accepted; the bytes were ignored. *place is not written.
 * 1 to 9    the table is refused: *place is written, and the refusal is kept. Open the reader anew for another table.
 * 25        the block is not that of a reader. Nothing is written.
 */
EDD_NODISCARD uint32_t edd_reader_feed(uint8_t *reader, size_t reader_len, const uint8_t *bytes, size_t bytes_len,
                                       uint64_t *place);

/*
 * Tells the reader that the input has ended. Told again, it gives the same answer and changes nothing.
 *
 *   reader, reader_len  changed: the answer is kept in it
 *   place               where the table is refused
 *
 * 0         the whole table arrived and is accepted: write it out. *place is not written.
 * 1 to 9    the table is refused, now or before; 1: bytes are missing. *place is written.
 * 25        the block is not that of a reader. Nothing is written.
 */
EDD_NODISCARD uint32_t edd_reader_end(uint8_t *reader, size_t reader_len, uint64_t *place);

/*
 * Writes the table that was read, for edd_open: byte for byte the one that was fed.
 *
 *   reader, reader_len  only read
 *   out, out_len        the buffer for the table. Bytes after the table are left as they are.
 *   written             the length of the table in bytes
 *
 * 0         done: the table is at the start of the buffer, and *written is its length.
 * 25        the block is not that of a reader; tested first.
 * 256       the end was not told: call edd_reader_end.
 * 1 to 9    the table was refused.
 * 19        the buffer is shorter than the table; tested last. Unless the answer is 0, nothing is written.
 */
EDD_NODISCARD uint32_t edd_reader_write(const uint8_t *reader, size_t reader_len, uint8_t *out, size_t out_len,
                                        uint64_t *written);

/*
 * Turns a drive's record of kind 1 into the record of kind 2 for the same drive: the same bytes, but with length 76 and kind 2
 * in the first four, and eight zero bytes at the end (68 to 75), the second half of the device path. To guests both are the
 * same drive: 48h gives the same bytes in each of its sizes. So a host may keep all its drives as kind 2. Needs no desk, and
 * changes none: put the new record into a table, and open a desk with that.
 *
 *   record, record_len  the record alone, EDD_RECORD_SIZE bytes (68); only read
 *   out, out_len        where the new record goes, EDD_RECORD_SIZE_WIDE bytes (76), no more and no fewer
 *
 * 0         done: all of out is written. edd_convert_down makes of it the record that was given, byte for byte.
 * 10        record_len is not 68 or out_len not 76 (for the sizes the other way round there is edd_convert_down): lend slices
 *           of these sizes. Or the record is not a sound one of kind 1: its length word is not 68, its kind not 1, or a field
 *           breaks its rule, for which a table is refused with 5: correct the record. Nothing is written.
 *
 * A record is judged by itself here. Whether its drive lies inside the store (6) and apart from the other drives (7) is not
 * asked: that depends on the store and on the rest of the table.
 */
EDD_NODISCARD uint32_t edd_convert_up(const uint8_t *record, size_t record_len, uint8_t *out, size_t out_len);

/*
 * The way back: turns a drive's record of kind 2 into the record of kind 1 for the same drive, its first 68 bytes with length
 * 68 and kind 1. It is refused where kind 1 cannot say what the record says: nothing is lost. Needs no desk, and changes none.
 *
 *   record, record_len  the record alone, EDD_RECORD_SIZE_WIDE bytes (76); only read
 *   out, out_len        where the new record goes, EDD_RECORD_SIZE bytes (68), no more and no fewer
 *
 * 0         done: all of out is written. edd_convert_up makes of it the record that was given, byte for byte.
 * 10        record_len is not 76 or out_len not 68: lend slices of these sizes. Or the record is not a sound one of kind 2, as
 *           above: correct it. Or it is sound, and its last eight bytes, the second half of the device path, are not all zero,
 *           or its interface is I2O: leave that drive in kind 2. Nothing is written.
 */
EDD_NODISCARD uint32_t edd_convert_down(const uint8_t *record, size_t record_len, uint8_t *out, size_t out_len);

/*
 * Where a guest's window lies in an arena of that length: bytes *start to *start + *length - 1. For a guest of 8 or more
 * both are 0. Needs no desk.
 *
 * 0         always, so the result may be ignored. *start and *length are written.
 */
uint32_t edd_window(uint64_t arena_length, uint64_t guest, uint64_t *start, uint64_t *length);

/*
 * The block of a cylinder, head and sector in a geometry of so many cylinders, heads and sectors:
 * (cylinder * heads + head) * sectors + sector - 1. Needs no desk.
 *
 * 0         done: *block is written.
 * 4         cylinders is not 1 to 1024, heads not 1 to 255 or sectors not 1 to 63; or the address is outside: cylinder is
 *           not below cylinders, head not below heads, or sector not 1 to sectors. Nothing is written.
 */
EDD_NODISCARD uint32_t edd_block(uint32_t cylinders, uint32_t heads, uint32_t sectors, uint32_t cylinder, uint32_t head,
                                 uint32_t sector, uint32_t *block);

/*
 * The reverse: the one address that gives the block. Needs no desk.
 *
 * 0         done: *cylinder, *head and *sector are written.
 * 4         cylinders, heads or sectors outside the limits above, or the block is not below cylinders * heads * sectors.
 *           Nothing is written.
 */
EDD_NODISCARD uint32_t edd_address(uint32_t cylinders, uint32_t heads, uint32_t sectors, uint64_t block,
                                   uint32_t *cylinder, uint32_t *head, uint32_t *sector);

#ifdef __cplusplus
}
#endif

#endif
