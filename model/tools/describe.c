/* Words and answers in plain words. */
#include <stdio.h>

#include "../words.h"
#include "describe.h"

static const char *const slot_names[] = {"level 0", "level 1", "start", "idle"};
static const char *const drive_names[] = {"drives 0", "drives 1", "drives start", "drives 3?"};
static const char *const write_names[16] = {
    [WRITE_CTR] = "CTR", [WRITE_CMR] = "CMR", [WRITE_UAR1] = "UAR1", [WRITE_UAR2] = "UAR2", [WRITE_SAR1] = "SAR1",
    [WRITE_SAR2] = "SAR2", [WRITE_MCR] = "MCR", [WRITE_TBF] = "TBF"
};
static const char *const read_names[16] = {
    [READ_STR] = "STR", [READ_FLG] = "FLG", [READ_RDR1] = "RDR1", [READ_RDR2] = "RDR2", [READ_LOR1] = "LOR1",
    [READ_LOR2] = "LOR2", [READ_RCR] = "RCR", [READ_RBF] = "RBF"
};
static const char *const refusal_names[] = {
    [REFUSED_KIND] = "kind not 0, 1, 2", [REFUSED_STRAY_BIT] = "an unnamed bit is set",
    [REFUSED_REGISTER] = "register not in the list", [REFUSED_VALUE] = "value not listed",
    [REFUSED_LEVEL] = "level 1 while the unit drives 0", [REFUSED_OUT_OF_TURN] = "request out of turn",
    [REFUSED_TBF_FULL] = "TBF full", [REFUSED_TBF_SHORT] = "TBF under 2 bytes", [REFUSED_RBF_EMPTY] = "RBF empty",
    [REFUSED_CANNOT_SERVE] = "own address, or sending disabled"
};

static const char *register_name(const char *const names[16], unsigned reg)
{
    return names[reg] ? names[reg] : "no register";
}

void describe_word(uint32_t word, char text[DESCRIPTION_SIZE])
{
    unsigned reg = word >> REGISTER_SHIFT & REGISTER_MASK;
    unsigned value = word & VALUE_MASK;
    switch (word >> KIND_SHIFT) {
    case KIND_SLOT:
        snprintf(text, DESCRIPTION_SIZE, "%s%s", slot_names[word & SLOT_MASK],
                 word & ~NAMED_IN_SLOT ? " with a stray bit" : "");
        break;
    case KIND_WRITE:
        snprintf(text, DESCRIPTION_SIZE, "write %s %02XH%s", register_name(write_names, reg), value,
                 word & ~NAMED_IN_WRITE ? " with a stray bit" : "");
        break;
    case KIND_READ:
        snprintf(text, DESCRIPTION_SIZE, "read %s%s", register_name(read_names, reg),
                 word & ~NAMED_IN_READ ? " with a stray bit" : "");
        break;
    default:
        snprintf(text, DESCRIPTION_SIZE, "unknown kind");
    }
}

void describe_answer(uint32_t answer, char text[DESCRIPTION_SIZE])
{
    unsigned value = answer & VALUE_MASK;
    const char *drive = drive_names[answer >> DRIVE_SHIFT & DRIVE_MASK];
    switch (answer >> KIND_SHIFT) {
    case KIND_TAKEN:
        snprintf(text, DESCRIPTION_SIZE, "taken, %s", drive);
        break;
    case KIND_WRITTEN:
        snprintf(text, DESCRIPTION_SIZE, "written, %s", drive);
        break;
    case KIND_VALUE:
        snprintf(text, DESCRIPTION_SIZE, "read %02XH, %s", value, drive);
        break;
    case KIND_REFUSED:
        snprintf(text, DESCRIPTION_SIZE, "refused %u: %s", value,
                 value >= REFUSED_KIND && value <= REFUSED_CANNOT_SERVE ? refusal_names[value] : "no such number");
        break;
    default:
        snprintf(text, DESCRIPTION_SIZE, "no answer of document 01: %08XH", (unsigned)answer);
    }
}
