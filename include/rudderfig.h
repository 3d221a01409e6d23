/*
 * Rudderfig: NAND pages written and read through binary BCH codes.
 *
 * Link librudderfig.a, which `make lib` leaves beside this file. Nine calls answer the seven questions of the project's document 01, two more
 * hand a remainder to a hardware locator and take it back, three take a block's message in pieces, and three explain answers; the numbers and
 * names below are the documents'. Each call is total: any layout words, any lengths, any page content get an answer, and a caller has to have
 * tested nothing. Each is proved to return what its definition says, and to leave every lent byte as that definition says. The header is C99, and C++.
 *
 * For callers of rudderfig_read_page, which is gone: call rudderfig_look_page for the counts, then rudderfig_take_page for metadata and data, and
 * test both replies; after reply 9 the counts no longer hold what they held, but the count of every block, 255 for a ruined one.
 *
 * For callers of a header in which no call has an edition: hand in 1 before the record or the level field, in rudderfig_parity_start behind the state,
 * and every answer is as it was. The calls on fragments, rudderfig_parity_feed and rudderfig_parity_finish stay as they are.
 *
 *
 * The answer word
 *
 * Every call returns one uint64_t:
 *
 *     bits 0 to 7      the reply: 0 done, 1 to 11 the reason of a refusal (enum rudderfig_reply_number)
 *     bits 8 to 23     the block that the reply is about: 0 except in reply 9 about a page
 *     bits 24 to 31    the kind of an answer: 0, except for a page bit in the tail or in the mark
 *     bits 32 to 63    the value of an answer
 *
 * The calls rudderfig_explain_.. put other numbers beside the reply; what takes their words apart is declared with them.
 *
 * On a refusal kind and value are 0, and every lent buffer is byte for byte as it was, but for the counts of rudderfig_look_page that replies 9:
 * document 02, E6, has amended document 01 so in this one case. Of several reasons the smallest number is given, but 11 is looked at after 3 and
 * before 4; only an edition or a field choice that is not offered (7) comes before everything else, and the length of a layout record (6) before what
 * the record says.
 *
 *
 * What is lent
 *
 * A buffer is a pointer and a number of elements (bytes, or numbers of 16 or 32 bits where the type says so), all of which can be read, and
 * written where the pointer is not to const. An empty buffer may come with any pointer, NULL too. A pointer is aligned as its type asks.
 * A buffer that the call may write does not overlap any other buffer of the call. Nothing is kept after the call, and nothing is shared between
 * calls: there are no variables outside the stack and no heap, so calls may run at the same time on different buffers.
 * Numbers are taken at 64 bits and never cut: a block number of 2^32 is out of range.
 *
 * The edition, 1 or 2, says which level fields there are: up to 0x14 in edition 1, up to 0x1F in edition 2. t is twice the level field, so at most 40 or
 * 62. The edition is part of the layout: a page is read under the one that it was written under. Another edition is 7, looked at before the length of
 * the record too.
 *
 * A layout record is two 32-bit words in eight bytes, or three in twelve, word 0 first, each most significant byte first. The third word tells where
 * the factory's bad-block mark stands in the page: its offset (16 bits) and its length (8 bits), both in bytes, and eight zero bits. Eight bytes mean
 * offset 0 and length 0, no mark. The blocks and the tail run through the page without the mark's bytes, which no call writes and no answer depends on.
 * A page has PAGE_SIZE bytes, metadata META_SIZE, data 4 * (DATA0_SIZE + NBLOCKS * DATAN_SIZE), counts NBLOCKS + 1.
 * Position p of a page, the mark's bytes counted too, is byte p / 8, bit 7 - p % 8. A block of n bits has the coefficient of x^(n-1) first; exponents
 * run from n - 1 down to 0.
 *
 *
 * What an archive needs
 *
 * The processor that it was compiled for: x86-64 (`make lib`), or AArch64, ARMv7-A or 64-bit RISC-V (`make boards`), little-endian, with the calling
 * convention of Linux there; memcpy and memset with C's meaning (a boot loader supplies its own), on ARMv7-A also __aeabi_uidiv, which compilers bring
 * along; and room on the stack: RUDDERFIG_STACK_.. below, without what these functions take. It needs nothing else, has no variables, can be linked
 * freestanding and runs at any address. On x86-64 it takes SSE2 to be switched on, on AArch64 the SIMD registers; the code for the others has no
 * floating-point instruction. On x86-64 the code uses the red zone: an interrupt must not write the 128 bytes below the stack pointer, so one that is
 * taken on the same stack has to step over them. But for ARMv7-A a large frame is touched page by page from above, so that a guard page below the stack
 * is always hit. The two ARM processors must let unaligned accesses to memory pass, as they do once the memory unit is switched on.
 */
#ifndef RUDDERFIG_H
#define RUDDERFIG_H

#include <stddef.h>
#include <stdint.h>

#ifdef __cplusplus
#define RUDDERFIG_CAST(type, value) static_cast<type>(value)
extern "C" {
#else
#define RUDDERFIG_CAST(type, value) ((type)(value))
#endif

#if defined(__BYTE_ORDER__) && defined(__ORDER_LITTLE_ENDIAN__) && __BYTE_ORDER__ != __ORDER_LITTLE_ENDIAN__
#error "rudderfig.h: the archives are for little-endian processors"
#endif

#define RUDDERFIG_VERSION "0.2.0"

/* A number of elements: size_t, but 64 bits wide where pointers have 32, since the calls take every number at 64 bits. */
#if UINTPTR_MAX > 0xFFFFFFFF
typedef size_t rudderfig_length;
#else
typedef uint64_t rudderfig_length;
#endif

enum rudderfig_reply_number {
    RUDDERFIG_DONE = 0,
    RUDDERFIG_LEVEL_TOO_HIGH = 1,      /* a level field above 0x14, in edition 2 above 0x1F; for fragments, one that the locator does not have */
    RUDDERFIG_EMPTY_MESSAGE = 2,       /* a block with an empty message; a remainder of a code with no message */
    RUDDERFIG_BLOCK_TOO_LONG = 3,      /* a block with t > 0 longer than 2^m - 1 bits */
    RUDDERFIG_PAGE_TOO_SMALL = 4,      /* the blocks need more than 8 * (PAGE_SIZE - mark length) bits */
    RUDDERFIG_PAGE_LENGTH = 5,         /* the lent page has another length than PAGE_SIZE */
    RUDDERFIG_BUFFER_LENGTH = 6,       /* another lent buffer has a wrong length */
    RUDDERFIG_OUT_OF_RANGE = 7,        /* an edition, block number, page bit, exponent or field choice outside its range */
    RUDDERFIG_REMAINDER_TOO_WIDE = 8,  /* a remainder, or fragments, with a one above bit mt - 1 */
    RUDDERFIG_UNCORRECTABLE = 9,       /* no codeword within t flips, and not erased; for a page the lowest such block is named */
    RUDDERFIG_CLAIM_WRONG = 10,        /* the claimed locations are wrong */
    RUDDERFIG_MARK_OUTSIDE = 11        /* mark offset plus mark length beyond PAGE_SIZE, or the record's zero bits not zero */
};

/*
 * Bytes of stack that a call takes at most on any of the four processors, its return address included. `make lib` and `make boards` compare them with
 * the code.
 * With today's kit x86-64, AArch64 and ARMv7-A have been compared, and RISC-V has not: run `make boards` before a figure is relied on there.
 * Most of it are the decoder's tables, which are filled only where a block is damaged or erased; the compiler makes room for them on entry of some calls.
 */
#define RUDDERFIG_STACK_CHECK_LAYOUT 256
#define RUDDERFIG_STACK_LOCATE_BIT 512
#define RUDDERFIG_STACK_BIT_POSITION 256
#define RUDDERFIG_STACK_WRITE_PAGE 45056
#define RUDDERFIG_STACK_LOOK_PAGE 217088
#define RUDDERFIG_STACK_TAKE_PAGE 184320
#define RUDDERFIG_STACK_JUDGE_BLOCK 114688
#define RUDDERFIG_STACK_LOCATE_ERRORS 106496
#define RUDDERFIG_STACK_CHECK_CLAIM 45056
#define RUDDERFIG_STACK_EXPORT_FRAGMENTS 1024
#define RUDDERFIG_STACK_IMPORT_FRAGMENTS 1024
#define RUDDERFIG_STACK_PARITY_START 256
#define RUDDERFIG_STACK_PARITY_FEED 45056
#define RUDDERFIG_STACK_PARITY_FINISH 1024
#define RUDDERFIG_STACK_EXPLAIN_LAYOUT 512
#define RUDDERFIG_STACK_EXPLAIN_BLOCK 114688
#define RUDDERFIG_STACK_EXPLAIN_BIT 512

/* The largest of them. */
#define RUDDERFIG_STACK RUDDERFIG_STACK_LOOK_PAGE

static inline unsigned rudderfig_reply(uint64_t answer) { return RUDDERFIG_CAST(unsigned, answer & 0xFF); }
static inline unsigned rudderfig_block(uint64_t answer) { return RUDDERFIG_CAST(unsigned, answer >> 8 & 0xFFFF); }
static inline unsigned rudderfig_kind(uint64_t answer) { return RUDDERFIG_CAST(unsigned, answer >> 24 & 0xFF); }
static inline uint32_t rudderfig_value(uint64_t answer) { return RUDDERFIG_CAST(uint32_t, answer >> 32); }

/* What rudderfig_locate_bit answers of a page bit: in the tail, in the mark, or else its block and its exponent there. */
static inline int rudderfig_in_tail(uint64_t answer) { return rudderfig_kind(answer) == 1; }
static inline int rudderfig_in_mark(uint64_t answer) { return rudderfig_kind(answer) == 2; }
static inline unsigned rudderfig_located_block(uint64_t answer) { return rudderfig_value(answer) >> 16; }
static inline unsigned rudderfig_located_exponent(uint64_t answer) { return rudderfig_value(answer) & 0xFFFF; }

/*
 * What a count of rudderfig_look_page or the value of rudderfig_judge_block says of its block. Below 128 it is the number of flips: the block is
 * repaired to the codeword within t flips of it. From 128 on, but for 255, the block is erased, and the count is 128 plus its zeros: no codeword lies
 * within t flips of it, and of its covered bits, data and parity, at most t are zeros, as in flash that was never written. Its message is taken as
 * bytes of 0xFF. A block with t = 0 is never erased, and one of nearly all ones that does lie within t flips of a codeword is taken as that codeword.
 * 255 is the count of a ruined block, which is neither; a look gives it with reply 9. rudderfig_zeros is 0 for a block that is not erased.
 */
#define RUDDERFIG_RUINED 255

static inline int rudderfig_is_ruined(uint32_t count) { return count == RUDDERFIG_RUINED; }
static inline int rudderfig_is_erased(uint32_t count) { return count >= 128 && count != RUDDERFIG_RUINED; }
static inline unsigned rudderfig_zeros(uint32_t count) { return rudderfig_is_erased(count) ? count - 128 : 0; }

/*
 * Is this layout acceptable? Reads the record. Replies 0 to 4, 6, 11, and 7 for another edition; no value.
 */
uint64_t rudderfig_check_layout(uint64_t edition, const uint8_t *record, rudderfig_length record_len);

/*
 * Where does the page bit at `position` belong? Reads the record.
 * Kind 0: a covered bit, the value is located block << 16 | exponent. Kind 1: in the tail after the last block, the value is 0. Kind 2: in the mark,
 * the value is 0. Replies 0 to 4, 6, 11, and 7 for another edition or a position of 8 * PAGE_SIZE or more.
 */
uint64_t rudderfig_locate_bit(uint64_t edition, const uint8_t *record, rudderfig_length record_len, uint64_t position);

/*
 * Where does the coefficient of x^exponent of a block lie? Reads the record. The value is the position in the page.
 * Replies 0 to 4, 6, 11, and 7 for another edition, a block that the layout does not have or an exponent of the block's length or more.
 */
uint64_t rudderfig_bit_position(uint64_t edition,
                                const uint8_t *record, rudderfig_length record_len,
                                uint64_t block, uint64_t exponent);

/*
 * Writes a page: every block with its parity, the tail bits as ones. Reads record, metadata and data; writes all of `page` but the mark's bytes, and
 * only on reply 0. The mark's bytes keep what they held: to leave the factory's mark in flash as it is, lend a page that has it there, as read from
 * the chip, or bytes of 0xFF, which program nothing. Replies 0 to 6, 11, and 7 for another edition; no value.
 */
uint64_t rudderfig_write_page(uint64_t edition,
                              const uint8_t *record, rudderfig_length record_len,
                              const uint8_t *metadata, rudderfig_length metadata_len,
                              const uint8_t *data, rudderfig_length data_len,
                              uint8_t *page, rudderfig_length page_len);

/*
 * Looks at a page: one count a block, before anything is taken. Reads record and page; writes all of `counts`, on reply 0 and on reply 9. counts[b] is
 * the number of covered bits, data or parity, in which block b and the codeword within t flips of it differ; 128 plus its zeros where the block is
 * erased; 255 where it is ruined. Replies 0 to 6, 11, 7 for another edition, and 9 with the lowest ruined block: the one refusal of this header that
 * writes, the counts of all blocks, those behind a ruined one too. 1 to 7 and 11 write nothing. A page of all ones is never refused. No value.
 */
uint64_t rudderfig_look_page(uint64_t edition,
                             const uint8_t *record, rudderfig_length record_len,
                             const uint8_t *page, rudderfig_length page_len,
                             uint8_t *counts, rudderfig_length counts_len);

/*
 * Takes metadata and data out of a page: of each block the message of the codeword within t flips of it, or bytes of 0xFF where it is erased. Reads
 * record and page; writes all of `metadata` and `data`, and only on reply 0, once every block is decided. Replies 0 to 6, 11, 7 for another
 * edition, and 9 with the lowest ruined block, as looking at the same page does; no value. A look need not come before it.
 */
uint64_t rudderfig_take_page(uint64_t edition,
                             const uint8_t *record, rudderfig_length record_len,
                             const uint8_t *page, rudderfig_length page_len,
                             uint8_t *metadata, rudderfig_length metadata_len,
                             uint8_t *data, rudderfig_length data_len);

/*
 * Judges one block of a page. Reads record and page, of the page no other bits than the block's; writes nothing. The value is the count that looking
 * at the page gives for it: its flips, or 128 plus its zeros. Replies 0 to 6, 11, 7 for another edition or a block that the layout does not have, and
 * 9, with that block and no value, where it is ruined.
 */
uint64_t rudderfig_judge_block(uint64_t edition,
                               const uint8_t *record, rudderfig_length record_len,
                               const uint8_t *page, rudderfig_length page_len,
                               uint64_t block);

/*
 * From a remainder alone, which bits are wrong? t is twice level_field, field_choice 0 is m = 13 and 1 is m = 14, n is the code's length in bits.
 * The remainder has exactly (m * t + 7) / 8 bytes, highest coefficient first, right-aligned. Reads it; writes, on reply 0 only, the exponents of
 * the wrong bits, the highest first, to the first places of `places`, which has at least t: so they run forward through a page. The value is
 * how many; places after them keep what they held. Replies 0; 7 first of all for another edition or field choice; 1; 2 where t = 0 or n is at most
 * m * t; 3 for n above 2^m - 1; 6; 8; and 9, with block 0, where there is no such set of at most t exponents.
 */
uint64_t rudderfig_locate_errors(uint64_t edition, uint64_t level_field, uint64_t field_choice, uint64_t n,
                                 const uint8_t *remainder, rudderfig_length remainder_len,
                                 uint16_t *places, rudderfig_length places_len);

/*
 * Are these error locations of a block right? Accepted if they are distinct, each below the block's length, at most t, and flipping them gives a
 * codeword; they may stand in any order. So no claim on an erased block is right. Reads record, page and claims; writes nothing.
 * Replies 0 to 6, 11, 7 for another edition or a block that the layout does not have, and 10; no value.
 */
uint64_t rudderfig_check_claim(uint64_t edition,
                               const uint8_t *record, rudderfig_length record_len,
                               const uint8_t *page, rudderfig_length page_len,
                               uint64_t block,
                               const uint16_t *claims, rudderfig_length claims_len);

/*
 * A remainder for a hardware locator that takes seven 32-bit fragments (ELM_SYNDROME_FRAGMENT_0 to 6 of document 004), with m = 13 and t = 4, 8
 * or 16: level_field is 2, 4 or 8. The coefficient of x^p stands in bit p % 32 of fragment p / 32; every other bit is zero, the start bit too.
 * To start the locator, set RUDDERFIG_START_BIT in fragment 6 afterwards.
 * Reads the remainder, (13 * t + 7) / 8 bytes, highest coefficient first, right-aligned; writes all seven fragments, and only on reply 0.
 * Replies 0; 1 for another level field; 6 for a remainder of another length or not exactly seven fragments; 8 for a one above bit mt - 1;
 * no value.
 */
#define RUDDERFIG_FRAGMENTS 7
#define RUDDERFIG_START_BIT UINT32_C(0x10000)

uint64_t rudderfig_export_fragments(uint64_t level_field,
                                    const uint8_t *remainder, rudderfig_length remainder_len,
                                    uint32_t *fragments, rudderfig_length fragments_len);

/*
 * The same the other way. Reads the seven fragments; writes all of `remainder`, and only on reply 0. Replies as above, 8 where an unused bit of
 * the fragments or the start bit is one. Import undoes export, and export undoes import.
 * rudderfig_locate_errors takes the remainder, with field choice 0. A locator that is told the message's length alone counts addresses within
 * the message: each is smaller by the 13 * t parity bits than the exponent.
 */
uint64_t rudderfig_import_fragments(uint64_t level_field,
                                    const uint32_t *fragments, rudderfig_length fragments_len,
                                    uint8_t *remainder, rudderfig_length remainder_len);

/*
 * The parity of one block whose message arrives in pieces. The caller keeps the state and lends it to each call; what is in it is the calls' own.
 * Any bytes may be in it before rudderfig_parity_start, and it may be copied and thrown away at any time. No refusal and no finish changes it: a
 * piece that was refused can be followed by another, and a message can be finished twice. A state that no start has made does no harm: where its
 * numbers do not fit (a field choice, level field or length that a start refuses, more fed than the message has, a one above bit m * t - 1 of what
 * is carried) feeding and finishing refuse it with 7; where they fit, the call goes on with it as what its numbers say. A state holds no edition: what
 * a start in edition 2 accepts fits.
 */
struct rudderfig_parity {
    uint64_t words[18];
};

/*
 * Starts a block with a message of `length` bytes; t is twice level_field, 0 means no ECC, field_choice 0 is m = 13 and 1 is m = 14.
 * Writes the state, on reply 0 only. Replies 0; 7 first of all for another edition or field choice; 1; 2 where the length is 0; 3 where t > 0 and the
 * message with its m * t bits of parity is longer than 2^m - 1 bits. No value.
 */
uint64_t rudderfig_parity_start(struct rudderfig_parity *state, uint64_t edition,
                                uint64_t level_field, uint64_t field_choice, uint64_t length);

/*
 * Feeds one more piece of the message, of any length, 0 too. Reads the piece; writes the state, on reply 0 only. Replies 0; 7 for a state whose
 * numbers do not fit, which no start has made; 6 for a piece that would pass the length stated at the start, of which no part is taken. No value.
 */
uint64_t rudderfig_parity_feed(struct rudderfig_parity *state, const uint8_t *piece, rudderfig_length piece_len);

/*
 * Finishes: the parity of the message, wherever it was cut, in exactly (m * t + 7) / 8 bytes, highest coefficient first, right-aligned. It is the
 * parity that rudderfig_write_page puts after that message. Writes all of `parity`, on reply 0 only; the state stays as it is. Replies 0; 7 for a
 * state whose numbers do not fit, which no start has made; 6 where the message is not whole yet, or the buffer has another length. No value.
 */
uint64_t rudderfig_parity_finish(struct rudderfig_parity *state, uint8_t *parity, rudderfig_length parity_len);

/*
 * Explanations, for a boot console or a log (document 02, E2). Their words have no block, kind and value beside the reply.
 * The word of a refusal has in bits 8 to 15 what it is about, and in bits 16 to 39 and 40 to 63 the two numbers that were compared:
 *
 *     1    the level field, and the highest that the edition has
 *     2    the bits of the message, and 1
 *     3    the bits of the block, and the bits that its field allows
 *     4    the bits that the blocks need, and the bits that there are for them
 *     5    the length of the lent page, and PAGE_SIZE
 *     6    the length of the record, and 8 (12 is taken too); or the length of the list, and t
 *     7    the edition, and 2; or the block, and the number of blocks; or the position, and 8 * PAGE_SIZE
 *     11   mark offset plus mark length, and PAGE_SIZE; where that sum is allowed, the zero bits, and 0
 *
 * A number that is handed in and has more than 24 bits shows as 0xFFFFFF. The reason is the one that decided: no rule that is looked at before it is
 * broken, and where both kinds of block break it block 0 is named.
 */
enum rudderfig_about_number {
    RUDDERFIG_ABOUT_EDITION = 1,
    RUDDERFIG_ABOUT_RECORD = 2,       /* the length of the layout record */
    RUDDERFIG_ABOUT_BLOCK_0 = 3,      /* block 0 of the layout */
    RUDDERFIG_ABOUT_LATER_BLOCK = 4,  /* each block after block 0 */
    RUDDERFIG_ABOUT_PAGE = 5,         /* the page of the layout */
    RUDDERFIG_ABOUT_LENT_PAGE = 6,    /* the length of the lent page */
    RUDDERFIG_ABOUT_LENT_LIST = 7,    /* the length of the lent list */
    RUDDERFIG_ABOUT_BLOCK = 8,        /* the block that is asked about; in reply 9, the ruined one */
    RUDDERFIG_ABOUT_POSITION = 9      /* the position that is asked about */
};

static inline unsigned rudderfig_about(uint64_t explanation) { return RUDDERFIG_CAST(unsigned, explanation >> 8 & 0xFF); }
static inline uint32_t rudderfig_found(uint64_t explanation) { return RUDDERFIG_CAST(uint32_t, explanation >> 16 & 0xFFFFFF); }
static inline uint32_t rudderfig_limit(uint64_t explanation) { return RUDDERFIG_CAST(uint32_t, explanation >> 40); }

/* Is this layout accepted, and if not, why? Reads the record. 0 where it is, else the word of a refusal: 1 to 4, 6, 7 for another edition, 11. */
uint64_t rudderfig_explain_layout(uint64_t edition, const uint8_t *record, rudderfig_length record_len);

/*
 * What became of one block of a page? Reads record and page, of the page no other bits than the block's. Writes to `list`, which has at least t
 * places, only where the block is repaired: the page positions of its covered bits, data and parity, in which page and codeword differ, all of them and
 * ascending. The places behind them keep what they held.
 * Reply 0: rudderfig_found is the number of flips, or where rudderfig_explains_erased says so, of zeros; rudderfig_limit is t.
 * Reply 9, the block is ruined: rudderfig_found is its number, and rudderfig_limit is t.
 * Any other reply is the word of a refusal: 1 to 7 and 11. A block that the page does not have is 7, however long the list is.
 */
static inline int rudderfig_explains_erased(uint64_t explanation) {
    return rudderfig_reply(explanation) == RUDDERFIG_DONE && rudderfig_about(explanation) == 1;
}

uint64_t rudderfig_explain_block(uint64_t edition,
                                 const uint8_t *record, rudderfig_length record_len,
                                 const uint8_t *page, rudderfig_length page_len,
                                 uint64_t block,
                                 uint32_t *list, rudderfig_length list_len);

/*
 * What is the page bit at `position`? Reads the record. Reply 0: the part of the page that it belongs to, the byte of the page and the bit of that byte, 0
 * being the lowest; of metadata, data and parity the block, of metadata and data which byte of them it belongs to, and 0 where there is none.
 * Any other reply is the word of a refusal: 1 to 4, 6, 7 for another edition or a position of 8 * PAGE_SIZE or more, 11.
 */
enum rudderfig_part_number {
    RUDDERFIG_PART_METADATA = 1,
    RUDDERFIG_PART_DATA = 2,
    RUDDERFIG_PART_PARITY = 3,
    RUDDERFIG_PART_TAIL = 4,
    RUDDERFIG_PART_MARK = 5
};

static inline unsigned rudderfig_part(uint64_t place) { return RUDDERFIG_CAST(unsigned, place >> 8 & 0xFF); }
static inline unsigned rudderfig_part_block(uint64_t place) { return RUDDERFIG_CAST(unsigned, place >> 16 & 0xFF); }
static inline unsigned rudderfig_page_bit(uint64_t place) { return RUDDERFIG_CAST(unsigned, place >> 24 & 0xFF); }
static inline unsigned rudderfig_page_byte(uint64_t place) { return RUDDERFIG_CAST(unsigned, place >> 32 & 0xFFFF); }
static inline unsigned rudderfig_part_byte(uint64_t place) { return RUDDERFIG_CAST(unsigned, place >> 48); }

uint64_t rudderfig_explain_bit(uint64_t edition, const uint8_t *record, rudderfig_length record_len, uint64_t position);

#undef RUDDERFIG_CAST

#ifdef __cplusplus
}
#endif

#endif
