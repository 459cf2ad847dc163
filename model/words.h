/* The numbers of document 01, each named once: words, answers, registers, refusals (16 is ticket 1's), return codes,
   capacities. */
#ifndef MODEL_WORDS_H
#define MODEL_WORDS_H

/* "All traffic with a unit is in 32-bit words, whose top four bits are the kind." */
enum kind {
    KIND_SLOT = 0, KIND_WRITE = 1, KIND_READ = 2,
    KIND_TAKEN = 8, KIND_WRITTEN = 9, KIND_VALUE = 10, KIND_REFUSED = 15
};
#define KIND_SHIFT 28
#define REGISTER_SHIFT 24
#define REGISTER_MASK 0xFu
#define VALUE_MASK 0xFFu

/* "0, slot: bits 1-0 are 0 or 1 (settled level), 2 (start), 3 (idle)." */
enum slot { SLOT_LEVEL_0 = 0, SLOT_LEVEL_1 = 1, SLOT_START = 2, SLOT_IDLE = 3 };
#define SLOT_MASK 3u

/* "bits 9-8 what the unit drives in the next slot: 0, 1 (released) or 2 (start)" */
enum drive { DRIVE_0 = 0, DRIVE_RELEASED = 1, DRIVE_START = 2 };
#define DRIVE_SHIFT 8
#define DRIVE_MASK 3u

/* The bits that each kind of word names; any other bit set is refusal 2. */
#define NAMED_IN_SLOT 0xF0000003u
#define NAMED_IN_WRITE 0xFF0000FFu
#define NAMED_IN_READ 0xFF000000u

enum write_register {
    WRITE_CTR = 0x0, WRITE_CMR = 0x1, WRITE_UAR1 = 0x2, WRITE_UAR2 = 0x3,
    WRITE_SAR1 = 0x4, WRITE_SAR2 = 0x5, WRITE_MCR = 0x6, WRITE_TBF = 0xE
};
enum read_register {
    READ_STR = 0x0, READ_FLG = 0x1, READ_RDR1 = 0x2, READ_RDR2 = 0x3,
    READ_LOR1 = 0x4, READ_LOR2 = 0x5, READ_RCR = 0x8, READ_RBF = 0xE
};

enum ctr_value { CTR_NOTHING = 0x00, CTR_RESET = 0x08, CTR_SET_SLRE = 0x10 };
enum cmr_value {
    CMR_MASTER_REQUEST = 0x08, CMR_OFFER_SLAVE_DATA = 0x0B, CMR_CLEAR_SLRE = 0x0F, CMR_COPY_LOCK = 0x40
};
#define UAR1_ZERO_BITS 0x0Cu
#define UAR1_SENDING_ENABLED 0x02u
#define UAR1_MODE 0x01u
#define SAR1_ZERO_BITS 0x0Fu
/* "MCR (broadcast bit as on the wire, retries 0 to 7, control)" */
#define MCR_INDIVIDUAL 0x80u
#define MCR_RETRIES_SHIFT 4
#define MCR_RETRIES_MASK 7u
#define MCR_CONTROL_MASK 0xFu
#define MCR_AFTER_RESET 0x80u
#define LOR2_LOCKED 0x10u

enum str_bit { STR_TFL = 0x80, STR_TEP = 0x40, STR_RFL = 0x20, STR_REP = 0x10 };
enum flg_bit { FLG_MARQ = 0x40, FLG_STRQ = 0x20, FLG_SLRE = 0x10 };
/* "bit 0 STRQ, bit 1 .., bit 2 locked, bit 4 sending enabled, bits 7-6 = 10 (note 4)"; bit 1 is ticket 2's. */
enum status_bit {
    STATUS_STRQ = 0x01, STATUS_RECEPTION_CLOSED = 0x02, STATUS_LOCKED = 0x04,
    STATUS_SENDING_ENABLED = 0x10, STATUS_FIXED = 0x80
};

enum refusal {
    TAKEN = 0,
    REFUSED_KIND = 1, REFUSED_STRAY_BIT = 2, REFUSED_REGISTER = 3, REFUSED_VALUE = 4, REFUSED_LEVEL = 5,
    REFUSED_OUT_OF_TURN = 6, REFUSED_TBF_FULL = 7, REFUSED_TBF_SHORT = 8, REFUSED_RBF_EMPTY = 9,
    REFUSED_CANNOT_SERVE = 10, REFUSED_BYTE_COUNT = 11, REFUSED_SHORT_LIST = 12, REFUSED_CONTENDERS = 13,
    REFUSED_CONTENDER = 14, REFUSED_ALIKE = 15, REFUSED_NO_SLOT = 16
};

/* "Codes, in the order started, data wanted or full, normal, aborted: 0 to 3 sending, 4 to 7 receiving,
   8 to 11 broadcast reception." */
enum code_step { CODE_STARTED = 0, CODE_WANTED = 1, CODE_NORMAL = 2, CODE_ABORTED = 3 };
enum code_base { CODES_SENDING = 0, CODES_RECEIVING = 4, CODES_BROADCAST = 8 };
/* "Reset: RCR FFH" */
#define CODE_AFTER_RESET 15

enum control {
    CONTROL_STATUS = 0x0, CONTROL_READ_LOCK = 0x3, CONTROL_HOLDER_LOW = 0x4, CONTROL_HOLDER_HIGH = 0x5,
    CONTROL_STATUS_UNLOCK = 0x6, CONTROL_READ = 0x7,
    CONTROL_COMMAND_LOCK = 0xA, CONTROL_DATA_LOCK = 0xB, CONTROL_COMMAND = 0xE, CONTROL_DATA = 0xF
};
/* Set in every control that writes, by source document 000, table 2-3, note 1. */
#define CONTROL_WRITES 0x8u

#define TBF_CAPACITY 33
#define RBF_CAPACITY 40
#define MIN_TBF_TO_SEND 2
/* "A reception puts three bytes into RBF when length is accepted" */
#define HEADER_BYTES 3
/* "Length 00H means 256." */
#define LENGTH_OF_ZERO 256
/* "At most 16 attempts (mode 0) or 32 (mode 1) per frame" */
#define ATTEMPTS_MODE_0 16
#define ATTEMPTS_MODE_1 32
/* "That is 45 slots and 10 per attempt." */
#define SLOTS_BEFORE_DATA 45
#define SLOTS_PER_ATTEMPT 10
/* "Group broadcast: same top four address bits; FFFH is general." */
#define GENERAL_BROADCAST 0xFFFu
#define GROUP_SHIFT 8
#define ADDRESS_BITS 12
#define CONTROL_BITS 4
#define BYTE_BITS 8
#define MAX_ADDRESS 0xFFFu
#define MAX_CONTENDERS 50
/* "the slot where each other one lost (2 to 14, start being 1)" */
#define FIRST_CONTEST_SLOT 2
#define LAST_CONTEST_SLOT 14

#endif
