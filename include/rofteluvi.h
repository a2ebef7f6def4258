/* rofteluvi: patches LoongArch ELF64 relocation records (psABI 2.01, Table 10) into a section.

   Three functions, numbers and buffers only: patch a section, read an immediate back, and run a sequence of instructions to see the
   address that it loads. No state, no memory of its own, no system call: calls are independent of each
   other and may run on any thread at the same time, as long as no two of them share a buffer that one of them writes.

   What the caller answers for, since no code can test it:
     - each buffer is as long as its length says, and there are 32 registers;
     - the section given to rofteluvi_patch, which is written, overlaps neither the records nor the values, and the registers given
       to rofteluvi_run do not overlap the run.
   Nothing else is asked: every other input, however damaged, gets an answer. An empty buffer may have a null pointer. Byte buffers
   need no alignment. All numbers in them are little-endian. */
#ifndef ROFTELUVI_H
#define ROFTELUVI_H

#include <stddef.h>
#include <stdint.h>

#ifdef __cplusplus
extern "C" {
#endif

/* Limits. A call above one of them is refused with ROFTELUVI_TOO_LONG. */
#define ROFTELUVI_SECTION_BYTES_MAX 65536 /* bytes of a section */
#define ROFTELUVI_RECORDS_MAX 2048        /* records in a call */
#define ROFTELUVI_ROWS_MAX 1024           /* value rows in a call */
#define ROFTELUVI_RECORD_BYTES 24         /* bytes of one record */
#define ROFTELUVI_ROW_BYTES 56            /* bytes of one value row */
#define ROFTELUVI_RECORD_BYTES_MAX 49152  /* bytes of all records: 2,048 times 24 */
#define ROFTELUVI_VALUE_BYTES_MAX 57344   /* bytes of all value rows: 1,024 times 56 */
#define ROFTELUVI_STACK_DEPTH 16          /* entries that the stack of types 22 to 46 holds */
#define ROFTELUVI_RUN_WORDS_MAX 4096      /* words of a run */
#define ROFTELUVI_RUN_BYTES_MAX 16384     /* bytes of a run: 4,096 times 4 */
#define ROFTELUVI_REGISTERS 32            /* registers of a run, 64 bits each */

/* A record is an ELF64 Rela: offset (8 bytes), info (8), addend A (8, signed). The type is the low half of info, the symbol
   index the high half.

   A value row is seven 8-byte numbers: a mask, then S, G, PLT, T, IE and GD. The mask says which of the six are present. A
   present one may be 0; the number of an absent one is not looked at. Symbol k, from 1 up, has row k-1. Symbol 0 has no row: its
   S is present and 0, and it has nothing else. */
#define ROFTELUVI_HAS_S 1
#define ROFTELUVI_HAS_G 2
#define ROFTELUVI_HAS_PLT 4
#define ROFTELUVI_HAS_T 8
#define ROFTELUVI_HAS_IE 16
#define ROFTELUVI_HAS_GD 32

/* The number of an answer: 0, or why the call was refused. They stand in the order of checking, and the first that applies is
   the answer: 1 to 3 over the whole call, then 4 to 15 for record 0, for record 1 and so on, then 16. 18 is tested in 14's place.

   "Record" below: place is the number of the record at fault, from 0, and offset is that record's offset field, as it stands in
   its bytes. At every other number offset is 0. PC is the section's address plus the record's offset, modulo 2^64. (17, a bad line
   of input, is given by the program `patcher` alone and never by these functions.) */
enum {
    /* Done. Place: the number of records. The section is patched. */
    ROFTELUVI_ACCEPTED = 0,
    /* A buffer is longer than its limit. Place: which, 0 section (or run), 1 records, 2 values. */
    ROFTELUVI_TOO_LONG = 1,
    /* A buffer is no whole number of records or rows. Place: which, 1 records, 2 values. */
    ROFTELUVI_NOT_WHOLE = 2,
    /* A value row's mask is above 63. Place: the first such row, from 0. */
    ROFTELUVI_BAD_MASK = 3,
    /* The type is none that the table names: 13 to 19, 59 to 63, 101 and above. Place: record. */
    ROFTELUVI_UNKNOWN_TYPE = 4,
    /* Types 3 to 12 are the run-time loader's work. Place: record. */
    ROFTELUVI_LOADER_TYPE = 5,
    /* The type uses a value, and the symbol index is past the rows. Place: record. */
    ROFTELUVI_NO_SUCH_SYMBOL = 6,
    /* The value that the type uses is absent in the symbol's row. Place: record. */
    ROFTELUVI_VALUE_ABSENT = 7,
    /* The bytes to be written are not all inside the section. Place: record. */
    ROFTELUVI_OUTSIDE = 8,
    /* The type patches an instruction word (38 to 46, 64 to 98) and PC is no multiple of 4. Place: record. */
    ROFTELUVI_UNALIGNED = 9,
    /* Too few entries on the stack for what the type takes. Place: record. */
    ROFTELUVI_STACK_EMPTY = 10,
    /* A push on a full stack: a seventeenth entry. Place: record. */
    ROFTELUVI_STACK_FULL = 11,
    /* Types 33 and 34: a shift count that is not 0 to 63. Place: record. */
    ROFTELUVI_SHIFT_COUNT = 12,
    /* Type 30: the entry taken is zero. Place: record. */
    ROFTELUVI_ASSERTION = 13,
    /* The value is above the field's range. Place: record. */
    ROFTELUVI_ABOVE_RANGE = 14,
    ROFTELUVI_OUT_OF_RANGE = 14, /* an older name of the same, from when 14 was also said of values below */
    /* The value is below the field's range. Place: record. */
    ROFTELUVI_BELOW_RANGE = 18,
    /* The value fits the range, but must be a multiple of 4 and is none. Place: record. */
    ROFTELUVI_NOT_MULTIPLE = 15,
    /* Entries are left on the stack after the last record. Place: the number of records. */
    ROFTELUVI_STACK_LEFT = 16,
    /* Of rofteluvi_run alone: a word is none of the six instructions. Place: its number in the run, from 0. */
    ROFTELUVI_UNKNOWN_WORD = 19
};

typedef struct {
    uint32_t number; /* 0, or the number of the refusal */
    uint32_t place;  /* what it means is said at each number above */
    uint64_t offset; /* of the record at fault; 0 where no record is */
} rofteluvi_answer;

typedef struct {
    uint32_t number; /* 0, or the number of the refusal */
    uint32_t place;  /* always 0 */
    int64_t value;   /* the immediate; 0 when refused */
} rofteluvi_immediate;

typedef struct {
    uint32_t number; /* 0, or the number of the refusal */
    uint32_t place;  /* of the word at fault; the number of words when accepted */
} rofteluvi_ran;

/* Applies the records, in their order, to a section that is to stand at `address`. `gp` is the address that G, IE and GD count
   from. Accepted: every record is applied, each to the section as the earlier ones left it, and no other bit of the section is
   changed. Refused: the section is as it came. Records and values are only read.

   Types 71, 75, 87, 95 and 97, for pcalau12i, take the target's upper part after adding 800h to the target: with addi.d or a load,
   which add the target's low 12 bits as a signed number, the pair lands on the target, wherever the distance from PC's page to that
   upper part fits 32 bits signed. That it fits is not checked: rofteluvi_run shows where the pair points. */
rofteluvi_answer rofteluvi_patch(uint8_t *section, size_t section_len,
                                 const uint8_t *records, size_t records_len,
                                 const uint8_t *values, size_t values_len,
                                 uint64_t address, uint64_t gp);

/* Reads the immediate of a type out of the instruction word at `offset`. Serves types 38 to 46 and 64 to 98. Types 38 to 46 and
   64 to 66 give the value as rofteluvi_patch took it: signed (39 and 46 unsigned), with the low zeros that the field leaves out.
   Types 67 to 98 give the bare field.
   Refusals, in this order: ROFTELUVI_TOO_LONG (the section), ROFTELUVI_UNKNOWN_TYPE (any type not served), ROFTELUVI_OUTSIDE and
   ROFTELUVI_UNALIGNED. */
rofteluvi_immediate rofteluvi_read_back(const uint8_t *section, size_t section_len,
                                        uint64_t address, uint64_t offset, uint32_t type);

/* Runs the words of a buffer, one after the other, as instructions at `start`, `start`+4 and so on, and ends after the last. It knows
   lu12i.w, lu32i.d, lu52i.d, ori, addi.d and pcalau12i, as the LoongArch reference manual has them. No memory is looked at but the run,
   and none is written but the registers: they hold the caller's numbers at the start, but that the first, $zero, is taken as 0, and
   afterwards what the run leaves. The first is 0 then, always: a write to it is lost.
   Refusals, in this order: ROFTELUVI_TOO_LONG (place 0; the registers are those at the start) and ROFTELUVI_UNKNOWN_WORD (the registers
   are those before that word). A last piece of 1 to 3 bytes is such a word.

   Given a patched section that holds only lu12i.w, ori, lu32i.d, lu52i.d, patched by types 67 to 70 for one symbol and addend, all on one
   register that is not the first, and the section's address, that register then holds S+A. With pcalau12i and addi.d, patched by 71 and
   72, it holds S+A exactly if the distance fits (see rofteluvi_patch), and else an address that is a
   non-zero multiple of 2^32 away. */
rofteluvi_ran rofteluvi_run(const uint8_t *run, size_t run_len, uint64_t start, uint64_t registers[ROFTELUVI_REGISTERS]);

#ifdef __cplusplus
}
#endif

#endif
