/* Lists of words as a bench could send them, made with a fixed seed. A model of the unit runs along, because the line
   is the wired AND (level 0 wins) of what the unit and the simulated parties drive. */
#ifndef TRAFFIC_TRAFFIC_H
#define TRAFFIC_TRAFFIC_H

#include "../unit.h"
#include "random.h"

/* How often things happen in one list, in thousandths. */
struct habits {
    uint32_t reset;          /* of a host word in the middle of a frame */
    uint32_t garble;         /* random words between frames */
    uint32_t look;           /* the host reads all registers after a frame */
    uint32_t request;        /* the host prepares a master request */
    uint32_t read_request;   /* and it reads */
    uint32_t contend;        /* simulated masters start in the same slot as the unit */
    uint32_t offer;          /* the host offers slave data */
    uint32_t enable;         /* the host sets SLRE */
    uint32_t empty_rbf;      /* the host reads RBF until it is empty */
    uint32_t own_slave;      /* a simulated master calls the unit */
    uint32_t ask;            /* it is a desk that asks for the status, or that has asked and writes or reads */
    uint32_t cut;            /* a frame is cut */
    uint32_t spoil;          /* a frame's first attempts all fail */
    uint32_t meddle;         /* somebody drives 0 in every A slot of a frame */
    uint32_t no_idle;        /* no idle slot before the next start */
    uint32_t turn;           /* a long frame that nothing disturbs, with bytes written and read meanwhile */
    bool quiet;              /* no flag is set for long, so that UAR can be written */
};

/* Whose frames line_frame makes: anybody's, those of the master `holder` alone, or all but its. */
enum whose { FRAMES_OF_ALL, FRAMES_OF_HOLDER, FRAMES_OF_STRANGERS };

struct traffic {
    struct random random;
    struct habits habits;
    struct unit unit;
    unsigned drive;          /* bits 9-8 of the latest answer that is no refusal */
    unsigned desk;           /* the latest master drawn to ask for the status */
    bool desk_asked;         /* and it has not been drawn since */
    uint32_t *words;
    uint32_t *answers;       /* the model's, place for place */
    size_t len;
    size_t capacity;

    /* Limits for lists that demand 3 speaks of; all zero for free traffic. */
    enum whose whose;
    unsigned holder;
    bool idle_between_starts;
    bool no_master_request;  /* a request that the unit would accept is left out */
    void (*between_slots)(struct traffic *t);   /* in place of the host words that fall inside a frame */
};

/* Fills words and answers with capacity places, from a reset unit. The same seed and capacity give the same list. */
void traffic_make(struct traffic *t, uint64_t seed, uint32_t *words, uint32_t *answers, size_t capacity);

/* The same with long frames throughout and hardly a reset, so that the buffers are gone through many times. */
void traffic_make_turning(struct traffic *t, uint64_t seed, uint32_t *words, uint32_t *answers, size_t capacity);

/* Ready for words after a reset, or after words that another part has made; habits are drawn from the seed. */
void traffic_begin(struct traffic *t, uint64_t seed, uint32_t *words, uint32_t *answers, size_t capacity);

static inline bool traffic_full(const struct traffic *t)
{
    return t->len == t->capacity;
}

/* Sends one word to the unit and keeps it with its answer; a full list takes no more. */
void emit(struct traffic *t, uint32_t word);
void emit_slot(struct traffic *t, unsigned slot);
void emit_write(struct traffic *t, unsigned reg, unsigned value);
void emit_read(struct traffic *t, unsigned reg);

/* An address from a small pool: the unit's own, the holder, near misses, the same group, FFFH, others. */
unsigned pool_address(struct traffic *t);

/* The host: one word at any place, one that would turn a judgement just made, own address and mode written, slave data
   offered, RBF read until it is empty, TBF bytes for a sender that wants data, TBF bytes for one that has some, a few
   bytes of RBF read, all registers read, and its work between frames. */
void host_word(struct traffic *t);
void host_after_judgement(struct traffic *t);
void host_turn_uar(struct traffic *t);
void host_offer(struct traffic *t);
void host_empty_rbf(struct traffic *t);
void host_refill(struct traffic *t);
void host_top_up(struct traffic *t);
void host_read_some(struct traffic *t);
void host_look(struct traffic *t);
void host_between_frames(struct traffic *t);

/* One start slot and the frame after it, cut or not, with what the simulated parties and the unit drive. */
void line_frame(struct traffic *t);

#endif
