/*
 * The PSpec policy engine for C: thirteen calls. Link with libcapi.a (rt lib in crates/capi; Linux on
 * x86-64-v2).
 *
 * Parameters. A slice is a pointer and a length in elements: bytes for a book, a block, a plan and a
 * buffer, 64-bit words for `words` and `ledger`. A record, `tally` or `holds`, is a pointer to one
 * struct. The record that is edited is three pointers: `blocks` to 18,432 bytes, `rules` and `marks` to one
 * number each. The caller owes only this: each pointer is not null, fits its type's alignment and points to
 * that many elements, or to one record or number; a slice, record or number that is written overlaps no
 * other; and nothing else writes one, or reads one that is written, while the call runs.
 *
 * Promises, for any bytes, any length and any number:
 *  - no call asks anything of what it is given: there is no input that it may not have;
 *  - it returns, reads and writes nothing outside its slices, records and numbers, and keeps no state, so
 *    calls that write different ones may run at the same time;
 *  - its answer is the one that crates/capi/specs/Packing.antt says, over specs/Answers.antt of the
 *    crates below, and so are the elements of a slice, the fields of a record and the numbers on leaving;
 *  - what the numbers of pspec_judge, pspec_idle, pspec_blocked, pspec_culprits, pspec_ask, pspec_commit,
 *    pspec_drop, pspec_arrive and pspec_depart mean for a policy, and those of pspec_tree for a plan, is one
 *    page, crates/capi/specs/Demands.antt, and is proved of them;
 *  - a refusal leaves `block`, `words`, `buffer`, `ledger`, `tally`, `holds`, `blocks`, `rules` and `marks` as
 *    they were.
 *
 * Answers. Each is one 64-bit number: refusal number x 2^40 + place x 2^32 + value. The refusal number
 * is 0 where nothing is refused; number and place are below 256. The value is below 2^32, and 0 where
 * something is refused. Where nothing is refused the place is 0, but in one answer: that of pspec_ask for a
 * held plan has 1 there. So the functions at the end of this file give the answer's own parts (proved:
 * crates/capi/proofs/Unpacking.antt and Edits.antt).
 *
 * Not proved: this file, and that there is stack enough. On the largest book, on one with 64 categories in
 * a chain, and on a blocked rule of such books the smallest stacks that worked were 16 KiB for
 * pspec_check, pspec_flows, pspec_judge, pspec_commit, pspec_drop and pspec_tree, 32 KiB for pspec_ask, 54
 * KiB for pspec_idle, 56 KiB for pspec_blocked, 58 KiB for pspec_culprits, 68 KiB for pspec_arrive and
 * pspec_depart (bench stack); on a thread with less the process is stopped. Give them 128 KiB. The calls
 * use memcpy, memmove and memset and nothing else from outside.
 */
#ifndef PSPEC_H
#define PSPEC_H

#include <stddef.h>
#include <stdint.h>

#ifdef __cplusplus
extern "C" {
#endif

/* Bytes of a block; of the shortest and the longest book (4 to 36 blocks). The blocks of a record that is edited
 * are as long as the longest book. */
#define PSPEC_BLOCK 512
#define PSPEC_BOOK_LEAST 2048
#define PSPEC_BOOK_MOST 18432
/* Words that pspec_flows writes; rows of the longest plan; bytes that pspec_idle asks of its buffer. */
#define PSPEC_WORDS 32
#define PSPEC_ROWS_MOST 64
#define PSPEC_BUFFER_LEAST 36
/* Words of a ledger, 32 for each user number; plans that are held at most, over all users together; the number of
 * a user's plans from which on pspec_ask refuses him. */
#define PSPEC_LEDGER_WORDS 1024
#define PSPEC_HOLDS_MOST 8
#define PSPEC_COUNTS_LIMIT 1000000
/* Nodes of the largest tree that pspec_tree writes; bytes with room for the text of any such tree, 136 a node. */
#define PSPEC_NODES_MOST 4096
#define PSPEC_TREE_MOST 557056

/*
 * Refusal numbers. Where several apply, the first in this order is given: 1; 2 over all blocks; 3 over
 * all blocks; 4 to 9 block by block; then the call's own from 20 on, but that 33 comes before all. The place
 * is the block for 2 to 9, the row for 22, and 0 for all others. docs/FORMAT.md says what causes each and what
 * to do.
 */
enum pspec_refusal {
    PSPEC_NOT_REFUSED = 0,
    PSPEC_BOOK_LENGTH = 1,        /* length of the book not 512 times 4 to 36; of a block that arrives not 512 */
    PSPEC_BLOCK_CHECK = 2,        /* a block's check is wrong */
    PSPEC_BLOCK_KIND = 3,         /* a block's kind is wrong; block 1 may be of kind 2 or 6 */
    PSPEC_COUNT_OR_ZERO = 4,      /* a count outside its bounds, or a byte that should be zero */
    PSPEC_PARENT_OR_OWN = 5,      /* a category's parent, or its own or withdrawn operations */
    PSPEC_LABEL_OR_FUNCTION = 6,  /* a label that is no leaf and not 255, or a function above 15 */
    PSPEC_RULE_NUMBER = 7,        /* a rule's category number, action or exclusion */
    PSPEC_SHARED_LEAF = 8,        /* references of a rule share a leaf */
    PSPEC_MASK_OPERATION = 9,     /* bit 0, an unsupported operation or an absent reference in a mask */
    PSPEC_BLOCK_LENGTH = 10,      /* the block to seal is not 512 bytes long */
    PSPEC_NO_USER = 20,           /* the user is no leaf */
    PSPEC_PLAN_LENGTH = 21,       /* length of the plan not a multiple of 4, or above 256 */
    PSPEC_FAULTY_ROW = 22,        /* the lowest faulty row of the plan */
    PSPEC_WORD_COUNT = 23,        /* not 32 words */
    PSPEC_NO_RULE = 24,           /* no such rule */
    PSPEC_BUFFER_LENGTH = 25,     /* buffer under 36 bytes */
    PSPEC_RULE_FORBIDS = 26,      /* the rule has no restriction */
    PSPEC_LEDGER_LENGTH = 27,     /* not 1,024 words */
    PSPEC_COUNTS_FULL = 28,       /* the user's admitted + dropped + held + declined is 1,000,000 or more */
    PSPEC_NO_VALUE_ROW = 29,      /* the row is absent, or not of kind 1 to 3 */
    PSPEC_TREE_SIZE = 30,         /* the tree has above 4,096 nodes, or its text exceeds the buffer */
    PSPEC_PLACES_FULL = 31,       /* eight plans are held */
    PSPEC_NOT_HELD = 32,          /* the user holds no plan under the number */
    PSPEC_RULES_FULL = 33         /* the record has 32 rules or more */
};

/*
 * Book check. Refuses 1 to 9. Value: the number of rules, 0 to 32.
 */
uint64_t pspec_check(const uint8_t *book, size_t book_length);

/*
 * Seal: writes a block's check in its last two bytes and changes no other byte. Refuses 10. Value: 0.
 */
uint64_t pspec_seal(uint8_t *block, size_t block_length);

/*
 * Flows: writes a plan's accesses. Bit d of word 16 x s + k is set exactly when the plan gives access to
 * the leaf d by operation k, s being 0 for projection and 1 for condition. An Apply with two rows (c not
 * 255) does not count as an operation, nor does anything applied to its result. Refuses 1 to 9, 21, 22,
 * 23. Value: 0.
 */
uint64_t pspec_flows(const uint8_t *book, size_t book_length, const uint8_t *plan, size_t plan_length,
                     uint64_t *words, size_t words_length);

/*
 * Judge: which rules a user and a plan break. Refuses 1 to 9, 20, 21, 22. Value: a mask, bit r for
 * rule r; 0 opens the gate.
 */
uint64_t pspec_judge(const uint8_t *book, size_t book_length, uint32_t user, const uint8_t *plan,
                     size_t plan_length);

/*
 * Idle: whether no user and accepted plan break the rule alone. Refuses 1 to 9, 24, 25. Value: 0 when the
 * rule is idle, the buffer then being as it was. Otherwise user x 256 + rows, of the lowest user who can
 * break the rule and no other, and of a plan that does: for each reference a column, a function or none, and
 * an output or a condition. It is the one with the fewest functions; of equal ones the first, reference by
 * reference by action (projection first), leaf and operation. Its 4 x rows bytes (2 to 9 rows) are at the
 * buffer's front and the rest is as it was.
 */
uint64_t pspec_idle(const uint8_t *book, size_t book_length, uint32_t rule, uint8_t *buffer,
                    size_t buffer_length);

/*
 * Blocked: whether a rule with restrictions permits data that no operation can open. An association has
 * for each reference of the rule one action that fits it and one leaf that it covers and some column
 * carries. It is closed to a user whom the rule covers when every choice of operations that can be had
 * breaks a rule of the book: this one or another, those that forbid among them. Refuses 1 to 9, 24, 26.
 * Value: 0 when nothing is closed. Otherwise user x 2^24 + byte 2 x 2^16 + byte 1 x 2^8 + byte 0, of the
 * first user and association that are closed: by user, then reference by reference by action (projection
 * first) and leaf. The byte of reference i is 128 + 64 x action + leaf, action being 0 for projection and
 * 1 for condition; it is 0 where the rule has no reference i.
 */
uint64_t pspec_blocked(const uint8_t *book, size_t book_length, uint32_t rule);

/*
 * Culprits: which few rules close the user and association that pspec_blocked gives. All other rules of the
 * book are dropped by trial from the highest number down; a drop is kept when every choice of operations still
 * breaks a rule that is left or the asking one, which always counts and is never dropped. So the others that
 * are left close the association together with the asking rule, and no proper subset of them does. Refuses
 * 1 to 9, 24, 26, as pspec_blocked does. Value: 0 when the rule is not blocked. Otherwise a mask, bit r for
 * rule r, of the others that are left and the asking rule: 2^rule alone when it closes the association by
 * itself. Of the rules at least one of these has to change before the association opens; that one is enough
 * is not said, as rules that were dropped may close it too.
 */
uint64_t pspec_culprits(const uint8_t *book, size_t book_length, uint32_t rule);

/*
 * How many plans of each user were admitted, declined and dropped: three counts for each user number, which is the
 * index. Any counts may be given; fresh, all are 0, as in {{0}, {0}, {0}}. A call raises at most one count, its own
 * user's, by one; one at 2^32 - 1 stays there. A refusal raises none, and the counts of numbers that are no leaf
 * stay as they are.
 */
struct pspec_tally {
    uint32_t admitted[32], declined[32], dropped[32];
};

/*
 * The hold record: the plans that are held, in eight places. Place i has its user in users[i], its number in
 * numbers[i] and the accesses of its plan in words[32 x i] to words[32 x i + 31], laid out as by pspec_flows: those of
 * the plan as it was asked, not joined with anything. A place is empty when its number is 0, whatever its user and
 * words. Any record may be given; fresh, all is 0, as in {{0}, {0}, {0}}, and a freed place is all 0 again.
 */
struct pspec_holds {
    uint32_t users[8], numbers[8];
    uint64_t words[256];
};

/*
 * Reserve, then run. pspec_ask checks a plan and holds it or declines it; pspec_commit admits a held plan, which may
 * then be run; pspec_drop forgets it. All three work on a ledger, a tally and a hold record, which belong together and
 * to one book. The ledger has 32 words for each user number, the accesses of his admitted plans: bit d of word
 * 32 x user + 16 x s + k is set when one of them had access to the leaf d by operation k, s being 0 for projection
 * and 1 for condition. Fresh, all its words are 0; any other words are joined and judged as they are. The words,
 * counts and places of other users neither matter nor change, but that eight places are for all.
 *
 * For every list of these calls with one book, from a fresh ledger, tally and hold record:
 *  - each user's words are exactly the accesses of his committed plans;
 *  - with these and all his held plans he breaks no rule;
 *  - his admitted + dropped + held + declined is the number of his asks that were not refused;
 *  - his numbers are 1, 2, 3 and so on as they are given, so none is given to him twice;
 *  - at most eight plans are held;
 *  - his replies depend on the book, his own calls and whether eight plans were held at each of his asks: two such
 *    lists that have the same calls of his in the same order and agree on that, whatever others do between, give him
 *    equal replies and leave him equal words and counts
 * (stated in Demand.antt and Alike.antt of crates/ledger/specs, proved in crates/ledger/proofs).
 *
 * Storing. Let no two calls begin from the same stored copy: what one of them held, admitted or dropped would be
 * lost. After an ask store the tally and the hold record before its number is used: a number that was not stored
 * is given again, for another plan. After a commit store all three together before the plan is run: a plan that was
 * run and not stored is forgotten, and its user may be shown what breaks a rule with it. After a drop store the tally
 * and the hold record. When the caller starts again, the plans that are held stand in the hold record; each keeps its
 * place until it is committed or dropped.
 */

/*
 * Ask: holds a plan or declines it. The plan is declined exactly when its accesses, joined with its user's words and
 * with all his held plans, break a rule. Refuses 1 to 9, 20, 21, 22, 27, 28, 31. It refuses 28 when admitted[user] +
 * dropped[user] + declined[user] and the number of places that are his, added up without overflow, are 1,000,000 or
 * more; 31 exactly while no place is empty, whoever has them, also for a plan that would be declined. The ledger is
 * only read.
 * Held (pspec_is_held): the answer is 2^32 + number, number being 1 + admitted[user] + dropped[user] + the places that
 * were his, 1 to 1,000,000. The lowest empty place now has the user, that number and the plan's accesses; the tally
 * is as it was. Declined (pspec_is_declined): the answer is the mask of the rules that he would break, bit r for rule
 * r, never 0; declined[user] is one more, and the hold record is as it was. Take the answer apart by pspec_is_held,
 * pspec_hold_number, pspec_is_declined and pspec_declined_mask, and not by pspec_value, which is the number of the one
 * and the mask of the other.
 */
uint64_t pspec_ask(const uint8_t *book, size_t book_length, uint32_t user, const uint8_t *plan, size_t plan_length,
                   const uint64_t *ledger, size_t ledger_length, struct pspec_tally *tally,
                   struct pspec_holds *holds);

/*
 * Commit: admits the plan that the user holds under a number; any number may be given. No rule is tested: the ask
 * did. Refuses 1 to 9, 20, 27, 32; 32 for a number that is in no place of that user, so for 0, for another user's and
 * for one that is committed or dropped already. Value: the number. Where nothing is refused (pspec_number of the
 * answer is 0), the words of the place are joined to the user's words of the ledger, admitted[user] is one more, the
 * place is empty, and the plan may be run once all three are stored: the one that was asked about under this number
 * and no other, as the call has its accesses and not the plan. Where a record handed in has several places of that
 * user and number, the lowest is meant.
 */
uint64_t pspec_commit(const uint8_t *book, size_t book_length, uint32_t user, uint32_t number, uint64_t *ledger,
                      size_t ledger_length, struct pspec_tally *tally, struct pspec_holds *holds);

/*
 * Drop: forgets the plan that the user holds under a number; any number may be given. Refuses what pspec_commit
 * refuses and means the same place. Value: the number. Where nothing is refused, dropped[user] is one more and the
 * place is empty; the ledger is only read.
 */
uint64_t pspec_drop(const uint8_t *book, size_t book_length, uint32_t user, uint32_t number, const uint64_t *ledger,
                    size_t ledger_length, struct pspec_tally *tally, struct pspec_holds *holds);

/*
 * Tree: writes the lineage tree of a row as text. The row is a Column, an Apply or a Choose of the plan, counted
 * from 0. One line a node, a node before its children: two spaces for each level below the top, the row's
 * number in decimal, a space, `column`, `apply` or `choose`, and a line feed (byte 10); no zero byte ends the
 * text. The children of an Apply are b, and c unless that is 255; of a Choose a, b and c; of a Column none. A row
 * that is reached twice is written twice. Refuses 1 to 9, 21, 22, 29, 30; 30 also where the buffer is long
 * enough and the tree has above 4,096 nodes, which is known after 4,097. Value: (nodes - 1) x 2^20 + length; the
 * nodes are the lines written, 1 to 4,096 and at most 3^(row + 1), and the length is at most 136 x nodes. The
 * text's `length` bytes are at the buffer's front and the rest is as it was; a text exactly as long as the
 * buffer fits.
 */
uint64_t pspec_tree(const uint8_t *book, size_t book_length, const uint8_t *plan, size_t plan_length,
                    uint32_t row, uint8_t *buffer, size_t buffer_length);

/*
 * Editing with the idle marks showing. pspec_arrive puts a rule behind the last one of a book, pspec_depart takes one
 * out by its number. Both work on a record: `blocks`, 18,432 bytes (PSPEC_BOOK_MOST) with the book at the front;
 * `rules`, the number of its rules; `marks`, a mask, bit r for an idle rule r. The book is the first
 * 512 x (4 + rules) bytes. The bytes behind it may be any and are not looked at. A mask handed in may be wrong, and
 * its bits past the last rule count for nothing. The three do not overlap one another, nor does the block of an
 * arrival.
 *
 * An accepted edit leaves the new book at the front of `blocks` and zero bytes behind it, its number of rules in
 * `rules`, and in `marks` the new mask, which is the value too (pspec_mask); all its bits past the last rule are 0.
 * A refusal leaves all three as they were.
 *
 * After every list of these calls from an accepted book without rules and a mask of 0, the mask is the one that
 * pspec_idle gives afresh: bit r is set exactly when it calls rule r of the book idle. No arrival makes an idle rule
 * needed, and no departure makes a needed rule idle (stated in crates/editing/specs, proved in crates/editing/proofs).
 * So an edit asks only about the marks that can change, and keeps the others even in a mask handed in wrong. To begin
 * with a book that has rules, begin with its first four blocks and let the rules arrive one after the other; or hand in
 * the book without its last rule and a mask of 0 and let that rule arrive, which asks for every mark once.
 *
 * Storing. The three belong together: store them together, and let no two calls begin from the same stored copy, as
 * what one of them did would be lost.
 */

/*
 * Arrive: puts a rule, as a sealed block, behind the last one. Any block of any length n may be given. Refuses, in
 * this order: 33 when `rules` is 32 or more, before anything else is looked at; 1 when n is not 512; 2 to 9 as
 * pspec_check does for the book with the new block behind it, where the new block is block 4 + rules. Accepted, the
 * book has the block at its end and `rules` is one more. A mark that was set for a rule already there stays set, also
 * where it was wrong; every other mark, the new rule's among them, is what pspec_idle says in the new book. Value:
 * the new mask.
 */
uint64_t pspec_arrive(uint8_t *blocks, uint32_t *rules, uint32_t *marks, const uint8_t *block, size_t n);

/*
 * Depart: takes a rule out; later ones move down by one, and so do their marks. Any number may be given. Refuses, in
 * this order: 1 when `rules` is above 32, before anything else is looked at; 2 to 9 as pspec_check does for the book
 * as it is; 24 when `rule` is `rules` or more. Accepted, the book is without the block and `rules` is one less. A mark
 * that was clear for a rule that stays stays clear, also where it was wrong; every other mark is what pspec_idle says
 * in the new book. Value: the new mask.
 */
uint64_t pspec_depart(uint8_t *blocks, uint32_t *rules, uint32_t *marks, uint32_t rule);

/* The parts of an answer. */

/* 0 where nothing is refused, else one of enum pspec_refusal. */
static inline uint32_t pspec_number(uint64_t answer) { return (uint32_t)(answer >> 40); }

/* The block or the row of a refusal. Look at pspec_number first: that of a held plan is no place. */
static inline uint32_t pspec_place(uint64_t answer) { return (uint32_t)(answer >> 32) & 255u; }

/* pspec_check: the number of rules. pspec_commit and pspec_drop, not refused: the number given. */
static inline uint32_t pspec_value(uint64_t answer) { return (uint32_t)answer; }

/* pspec_judge, pspec_culprits, pspec_arrive and pspec_depart: bit r for rule r. Look at pspec_number first: a
 * refusal's mask is 0 too. */
static inline uint32_t pspec_mask(uint64_t answer) { return pspec_value(answer); }

/* pspec_ask: not refused, and the plan is held; it may be run once it is committed. */
static inline int pspec_is_held(uint64_t answer) { return answer >> 32 == 1; }

/* pspec_ask: the number under which the plan is held; 0, which no plan has, where it is declined or refused. */
static inline uint32_t pspec_hold_number(uint64_t answer) { return pspec_is_held(answer) ? (uint32_t)answer : 0; }

/* pspec_ask: not refused, and the plan is declined. */
static inline int pspec_is_declined(uint64_t answer) { return answer >> 32 == 0; }

/* pspec_ask: bit r for rule r that the plan breaks with what its user has and holds; 0 where it is held or refused. */
static inline uint32_t pspec_declined_mask(uint64_t answer)
{
    return pspec_is_declined(answer) ? (uint32_t)answer : 0;
}

/* pspec_idle: not refused, and nobody breaks the rule alone. */
static inline int pspec_is_idle(uint64_t answer) { return answer == 0; }

/* pspec_idle, neither refused nor idle: the user, and the number of rows of the plan in the buffer. */
static inline uint32_t pspec_user(uint64_t answer) { return pspec_value(answer) >> 8; }
static inline uint32_t pspec_rows(uint64_t answer) { return pspec_value(answer) & 255u; }

/* pspec_blocked: not refused, and some operations open every association to every covered user. */
static inline int pspec_is_open(uint64_t answer) { return answer == 0; }

/* pspec_blocked, neither refused nor open: the user to whom the data stay closed. */
static inline uint32_t pspec_closed_user(uint64_t answer) { return pspec_value(answer) >> 24; }

/* pspec_blocked, neither refused nor open: the byte of reference 0, 1 or 2; 0 where there is none. */
static inline uint32_t pspec_closed_byte(uint64_t answer, unsigned reference)
{
    return reference < 3 ? pspec_value(answer) >> (8 * reference) & 255u : 0;
}

/* A byte that is not 0: whether its data would be used as condition, not put out; and their leaf. */
static inline int pspec_is_condition(uint32_t byte) { return (byte & 64u) != 0; }
static inline uint32_t pspec_leaf(uint32_t byte) { return byte & 63u; }

/* pspec_culprits: not refused, and the rule is not blocked. */
static inline int pspec_is_unblocked(uint64_t answer) { return answer == 0; }

/* pspec_culprits of this rule, neither refused nor unblocked: the others; 0 where the rule is enough alone. */
static inline uint32_t pspec_other_rules(uint64_t answer, uint32_t rule)
{
    return rule < 32 ? pspec_mask(answer) & ~(UINT32_C(1) << rule) : pspec_mask(answer);
}

/* pspec_tree, not refused: the nodes of the tree, which are the lines of its text, and the text's bytes. Look at
 * pspec_number first: a refusal has neither. */
static inline uint32_t pspec_nodes(uint64_t answer) { return (pspec_value(answer) >> 20) + 1; }
static inline uint32_t pspec_length(uint64_t answer) { return pspec_value(answer) & 0xFFFFFu; }

#ifdef __cplusplus
}
#endif

#endif
