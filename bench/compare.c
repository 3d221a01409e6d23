/*
 * Compares this library with lib/bch.c of the Linux kernel, a program of other authors, on the same words.
 *
 *   compare [SEED [PAGES]]    PAGES pages and as many remainders for each of the sixty-two codes (m = 13, 14; t = 2, 4, .., 62), those with t up to 40
 *                             in edition 1 and the others in edition 2
 *
 * For each page: every block's parity, in the page and from its message in pieces, beside bch_encode's; then every block is damaged by 0 to t + 2
 * flips, and what rudderfig_judge_block, rudderfig_locate_errors, rudderfig_look_page and rudderfig_take_page answer stands beside bch_decode's. Then
 * remainders alone: random ones, and ones whose error places lie past the end of the word. lib/bch.c is linked twice: as the kernel builds it
 * (bch_..), and with the exhaustive root search that its authors keep for comparison (search_.., -DUSE_CHIEN_SEARCH).
 *
 * Every answer has to be that of the exhaustive search. Where the kernel's own root finder differs from both, its list is tried with bch_encode:
 * a list that gives no codeword is counted, anything else is a difference. The exit status is 0 only where there is none.
 */
#include <stdbool.h>
#include <stdint.h>
#include <stdio.h>
#include <stdlib.h>
#include <string.h>

#include "rudderfig.h"
#include "linux/bch.h"

struct bch_control *search_init(int m, int t, unsigned int prim_poly, bool swap_bits);
void search_free(struct bch_control *bch);
int search_decode(struct bch_control *bch, const uint8_t *data, unsigned int len, const uint8_t *recv_ecc, const uint8_t *calc_ecc,
		  const unsigned int *syn, unsigned int *errloc);

enum { MAX_BYTES = 2048, MAX_PARITY = 112, MAX_T = 62, MAX_PLACES = 128, MAX_BLOCKS = 4, REFUSED = -1 };

/* One of the codes, and what was compared of it. */
struct code {
	uint64_t edition;
	unsigned m, t, parity_bits, parity_bytes, longest;
	struct bch_control *kernel, *search;
	unsigned long parities, near, ruined, remainders, wrong_lists;
};

/* A word: its message, its parity as the kernel keeps it (left-aligned, pad bits 0), and its length in bits. */
struct word {
	uint8_t message[MAX_BYTES], parity[MAX_PARITY];
	unsigned bytes, bits;
};

/* Where a decoder says that a word is wrong: how many places, or REFUSED, and their exponents, the highest first. */
struct places {
	int count;
	uint16_t exponents[MAX_PLACES];
};

/* A page of one code: block 0 with its metadata, and later blocks. */
struct page {
	uint8_t record[8], metadata[256], data[MAX_BLOCKS * MAX_BYTES], bytes[MAX_BLOCKS * (MAX_BYTES + MAX_PARITY)];
	unsigned metadata_bytes, data_bytes[MAX_BLOCKS], blocks, page_bytes;
	struct word words[MAX_BLOCKS];
	unsigned starts[MAX_BLOCKS];
};

/* A word with no codeword within t for which lib/bch.c gives a list; the remainder is right-aligned. */
struct example {
	unsigned m, t, bits, bytes;
	uint8_t remainder[MAX_PARITY];
	struct places list;
};

static struct example example;
static uint64_t seed, state;
static unsigned long differences;

static uint32_t next_random(void)
{
	state ^= state << 13;
	state ^= state >> 7;
	state ^= state << 17;
	return state >> 32;
}

static unsigned below(unsigned n)
{
	return next_random() % n;
}

static void random_bytes(uint8_t *bytes, unsigned n)
{
	for (unsigned i = 0; i < n; i++)
		bytes[i] = next_random();
}

static void differ(const struct code *c, const struct word *w, const char *what)
{
	differences++;
	if (differences <= 20)
		printf("DIFFERENCE: m %u, t %u, %u message bytes, seed %llu: %s\n", c->m, c->t, w->bytes, (unsigned long long)seed, what);
}

static bool bit_of(const uint8_t *bytes, unsigned p)
{
	return bytes[p / 8] >> (7 - p % 8) & 1;
}

static void turn(uint8_t *bytes, unsigned p)
{
	bytes[p / 8] ^= 0x80 >> p % 8;
}

/* The word of `bits` bits that starts at position `start` of a page. */
static void take_word(const uint8_t *page, unsigned start, struct word *w)
{
	memset(w->message, 0, sizeof w->message);
	memset(w->parity, 0, sizeof w->parity);
	for (unsigned j = 0; j < w->bits; j++)
		if (bit_of(page, start + j))
			turn(j < 8 * w->bytes ? w->message : w->parity, j < 8 * w->bytes ? j : j - 8 * w->bytes);
}

static int descending(const void *a, const void *b)
{
	return *(const uint16_t *)b - *(const uint16_t *)a;
}

/* The kernel's list: a position of its own byte and bit order becomes the exponent of document 01. */
static struct places kernel_places(const struct word *w, int found, const unsigned *errloc)
{
	struct places p = { .count = found < 0 ? REFUSED : found };

	for (int i = 0; i < p.count; i++)
		p.exponents[i] = w->bits - 1 - ((errloc[i] & ~7u) | (7 - (errloc[i] & 7)));
	if (p.count > 0)
		qsort(p.exponents, p.count, sizeof p.exponents[0], descending);
	return p;
}

static struct places by_kernel(const struct code *c, const struct word *w, const uint8_t *remainder)
{
	unsigned errloc[MAX_PLACES];

	return kernel_places(w, bch_decode(c->kernel, NULL, w->bytes, NULL, remainder, NULL, errloc), errloc);
}

static struct places by_search(const struct code *c, const struct word *w, const uint8_t *remainder)
{
	unsigned errloc[MAX_PLACES];

	return kernel_places(w, search_decode(c->search, NULL, w->bytes, NULL, remainder, NULL, errloc), errloc);
}

/* The remainder moved from the left of its bytes, where the kernel keeps it, to the right. */
static void to_the_right(const struct code *c, const uint8_t *remainder, uint8_t *right)
{
	unsigned pad = 8 * c->parity_bytes - c->parity_bits;

	memset(right, 0, MAX_PARITY);
	for (unsigned j = 0; j < c->parity_bits; j++)
		if (bit_of(remainder, j))
			turn(right, pad + j);
}

static struct places by_rudderfig(const struct code *c, const struct word *w, const uint8_t *remainder)
{
	struct places p;
	uint8_t right[MAX_PARITY];
	uint64_t answer;

	to_the_right(c, remainder, right);
	answer = rudderfig_locate_errors(c->edition, c->t / 2, c->m - 13, w->bits, right, c->parity_bytes, p.exponents, MAX_PLACES);
	p.count = rudderfig_reply(answer) == RUDDERFIG_DONE ? (int)rudderfig_value(answer) : REFUSED;
	if (p.count == REFUSED && rudderfig_reply(answer) != RUDDERFIG_UNCORRECTABLE)
		differ(c, w, "rudderfig_locate_errors did not take the word");
	return p;
}

static bool same(const struct places *p, const struct places *q)
{
	return p->count == q->count && (p->count <= 0 || memcmp(p->exponents, q->exponents, p->count * sizeof p->exponents[0]) == 0);
}

/* Do these places leave that remainder, by bch_encode? Distinct, inside the word, at most t. */
static bool leaves(const struct code *c, const struct word *w, const struct places *p, const uint8_t *remainder)
{
	uint8_t message[MAX_BYTES] = { 0 }, parity[MAX_PARITY] = { 0 }, sum[MAX_PARITY] = { 0 };

	for (int i = 0; i < p->count; i++) {
		unsigned at = w->bits - 1 - p->exponents[i];

		if (at >= w->bits || (i > 0 && p->exponents[i] == p->exponents[i - 1]))
			return false;
		turn(at < 8 * w->bytes ? message : parity, at < 8 * w->bytes ? at : at - 8 * w->bytes);
	}
	bch_encode(c->kernel, message, w->bytes, sum);
	for (unsigned i = 0; i < c->parity_bytes; i++)
		sum[i] ^= parity[i];
	return p->count <= (int)c->t && memcmp(sum, remainder, c->parity_bytes) == 0;
}

/* Counts a list of the kernel's that gives no codeword, and keeps the first one as an example. */
static void count_wrong_list(struct code *c, const struct word *w, const struct places *p, const uint8_t *remainder)
{
	c->wrong_lists++;
	if (example.bits > 0)
		return;
	example = (struct example){ .m = c->m, .t = c->t, .bits = w->bits, .bytes = c->parity_bytes, .list = *p };
	to_the_right(c, remainder, example.remainder);
}

/* Compares the three on one remainder and returns this library's answer. */
static struct places compare_remainder(struct code *c, const struct word *w, const uint8_t *remainder)
{
	struct places ours = by_rudderfig(c, w, remainder), kernel = by_kernel(c, w, remainder), search = by_search(c, w, remainder);

	if (!same(&ours, &search))
		differ(c, w, "the exhaustive search of lib/bch.c answers otherwise");
	if (ours.count >= 0 && !leaves(c, w, &ours, remainder))
		differ(c, w, "by bch_encode the listed places do not leave the remainder");
	if (!same(&ours, &kernel)) {
		if (ours.count == REFUSED && !leaves(c, w, &kernel, remainder))
			count_wrong_list(c, w, &kernel, remainder);
		else
			differ(c, w, "lib/bch.c answers otherwise");
	}
	if (ours.count == REFUSED)
		c->ruined++;
	else
		c->near++;
	return ours;
}

static void remainder_of(const struct code *c, const struct word *w, uint8_t *remainder)
{
	memset(remainder, 0, c->parity_bytes);
	bch_encode(c->kernel, w->message, w->bytes, remainder);
	for (unsigned i = 0; i < c->parity_bytes; i++)
		remainder[i] ^= w->parity[i];
}

/* A layout half word: level field, field choice, units of four bytes. */
static unsigned half(const struct code *c, unsigned units)
{
	return (c->t / 2) << 11 | (c->m - 13) << 10 | units;
}

static unsigned smaller(unsigned a, unsigned b)
{
	return a < b ? a : b;
}

/* A random layout of this code: lengths from one byte to the longest that fits, later blocks at any bit position. */
static void random_page(const struct code *c, struct page *p)
{
	unsigned units = below(c->longest / 4 + 1), later = 1 + below(c->longest / 4), end = 0;

	p->metadata_bytes = below(smaller(255, c->longest - 4 * units) + 1);
	if (units == 0 && p->metadata_bytes == 0)
		p->metadata_bytes = 1;
	p->blocks = 1 + below(MAX_BLOCKS);
	for (unsigned b = 0; b < p->blocks; b++) {
		p->data_bytes[b] = 4 * (b == 0 ? units : later);
		p->words[b].bytes = p->data_bytes[b] + (b == 0 ? p->metadata_bytes : 0);
		p->words[b].bits = 8 * p->words[b].bytes + c->parity_bits;
		p->starts[b] = end;
		end += p->words[b].bits;
	}
	p->page_bytes = (end + 7) / 8;
	p->record[0] = p->blocks - 1;
	p->record[1] = p->metadata_bytes;
	p->record[2] = half(c, units) >> 8;
	p->record[3] = half(c, units);
	p->record[4] = p->page_bytes >> 8;
	p->record[5] = p->page_bytes;
	p->record[6] = half(c, later) >> 8;
	p->record[7] = half(c, later);
	random_bytes(p->metadata, p->metadata_bytes);
	random_bytes(p->data, sizeof p->data);
}

static unsigned data_length(const struct page *p)
{
	return p->data_bytes[0] + (p->blocks > 1 ? (p->blocks - 1) * p->data_bytes[1] : 0);
}

/* The parity of a message that is handed over in pieces of random lengths. */
static void compare_pieces(struct code *c, const struct word *w, const uint8_t *message, const uint8_t *parity)
{
	struct rudderfig_parity pieces;
	uint8_t found[MAX_PARITY], wanted[MAX_PARITY];
	uint64_t answer = rudderfig_parity_start(&pieces, c->edition, c->t / 2, c->m - 13, w->bytes);

	for (unsigned fed = 0; fed < w->bytes && rudderfig_reply(answer) == RUDDERFIG_DONE;) {
		unsigned piece = below(w->bytes - fed + 1);

		answer = rudderfig_parity_feed(&pieces, message + fed, piece);
		fed += piece;
	}
	if (rudderfig_reply(answer) == RUDDERFIG_DONE)
		answer = rudderfig_parity_finish(&pieces, found, c->parity_bytes);
	to_the_right(c, parity, wanted);
	if (rudderfig_reply(answer) != RUDDERFIG_DONE || memcmp(found, wanted, c->parity_bytes) != 0)
		differ(c, w, "the parity of the message in pieces is not that of bch_encode");
}

/* Writes the page and compares each block: the message is the payload's, the parity bch_encode's. */
static void compare_written(struct code *c, struct page *p)
{
	const uint8_t *data = p->data;
	uint8_t wanted[MAX_BYTES], parity[MAX_PARITY];
	uint64_t answer = rudderfig_write_page(c->edition, p->record, 8, p->metadata, p->metadata_bytes, p->data, data_length(p), p->bytes, p->page_bytes);

	if (rudderfig_reply(answer) != RUDDERFIG_DONE)
		differ(c, &p->words[0], "the page was not written");
	for (unsigned b = 0; b < p->blocks; b++) {
		struct word *w = &p->words[b];

		take_word(p->bytes, p->starts[b], w);
		memcpy(wanted, p->metadata, b == 0 ? p->metadata_bytes : 0);
		memcpy(wanted + (w->bytes - p->data_bytes[b]), data, p->data_bytes[b]);
		data += p->data_bytes[b];
		memset(parity, 0, sizeof parity);
		bch_encode(c->kernel, wanted, w->bytes, parity);
		if (memcmp(w->message, wanted, w->bytes) != 0)
			differ(c, w, "the message in the page is not the payload");
		if (memcmp(w->parity, parity, c->parity_bytes) != 0)
			differ(c, w, "the parity is not that of bch_encode");
		compare_pieces(c, w, wanted, parity);
		c->parities++;
	}
}

/* Turns `flips` different bits of a block over. */
static void damage(struct page *p, unsigned b, unsigned flips)
{
	uint8_t turned[MAX_BYTES + MAX_PARITY] = { 0 };

	flips = smaller(flips, p->words[b].bits);
	while (flips > 0) {
		unsigned j = below(p->words[b].bits);

		if (bit_of(turned, j))
			continue;
		turn(turned, j);
		turn(p->bytes, p->starts[b] + j);
		flips--;
	}
}

/* Judges a damaged block and locates its errors from the remainder. */
static struct places compare_block(struct code *c, struct page *p, unsigned b)
{
	struct word *w = &p->words[b];
	struct places ours;
	uint8_t remainder[MAX_PARITY];
	uint64_t answer = rudderfig_judge_block(c->edition, p->record, 8, p->bytes, p->page_bytes, b);

	take_word(p->bytes, p->starts[b], w);
	remainder_of(c, w, remainder);
	ours = compare_remainder(c, w, remainder);
	if (ours.count == REFUSED) {
		if (rudderfig_reply(answer) != RUDDERFIG_UNCORRECTABLE || rudderfig_block(answer) != b)
			differ(c, w, "judging the block does not refuse it");
	} else if (rudderfig_reply(answer) != RUDDERFIG_DONE || rudderfig_value(answer) != (unsigned)ours.count) {
		differ(c, w, "judging the block gives another count");
	}
	return ours;
}

/* Whether a call about a page names its lowest refused block, or is done where there is none. */
static bool names_lowest(const struct page *p, const struct places *found, uint64_t answer)
{
	unsigned lowest = 0;

	while (lowest < p->blocks && found[lowest].count != REFUSED)
		lowest++;
	if (lowest == p->blocks)
		return rudderfig_reply(answer) == RUDDERFIG_DONE;
	return rudderfig_reply(answer) == RUDDERFIG_UNCORRECTABLE && rudderfig_block(answer) == lowest;
}

/* Looks at the damaged page: the lowest refused block, and the count of every block. */
static void compare_look(struct code *c, struct page *p, const struct places *found)
{
	uint8_t counts[MAX_BLOCKS];
	uint64_t answer = rudderfig_look_page(c->edition, p->record, 8, p->bytes, p->page_bytes, counts, p->blocks);

	if (!names_lowest(p, found, answer))
		differ(c, &p->words[0], "looking at the page does not answer by its lowest ruined block");
	for (unsigned b = 0; b < p->blocks; b++)
		if (counts[b] != (found[b].count == REFUSED ? RUDDERFIG_RUINED : found[b].count))
			differ(c, &p->words[b], "the count is not the number of places");
}

/* Takes the damaged page: the lowest refused block, or every message as the listed places repair it. */
static void compare_take(struct code *c, struct page *p, const struct places *found)
{
	uint8_t metadata[256], data[MAX_BLOCKS * MAX_BYTES], *out = data;
	uint64_t answer = rudderfig_take_page(c->edition, p->record, 8, p->bytes, p->page_bytes, metadata, p->metadata_bytes, data, data_length(p));

	if (!names_lowest(p, found, answer))
		differ(c, &p->words[0], "taking the page does not answer by its lowest ruined block");
	if (rudderfig_reply(answer) != RUDDERFIG_DONE)
		return;
	for (unsigned b = 0; b < p->blocks; b++) {
		struct word *w = &p->words[b];
		unsigned before = w->bytes - p->data_bytes[b];

		for (int i = 0; i < found[b].count; i++)
			if (found[b].exponents[i] >= c->parity_bits)
				turn(w->message, w->bits - 1 - found[b].exponents[i]);
		if (memcmp(w->message, metadata, before) != 0 || memcmp(w->message + before, out, p->data_bytes[b]) != 0)
			differ(c, w, "the message taken is not the repaired one");
		out += p->data_bytes[b];
	}
}

/*
 * Of every four remainders two are random, for a word of any length and for the longest one, and two are those of at most t places in the longest
 * word while the word is any shorter one, so that some lie past its end.
 */
static void compare_alone(struct code *c, unsigned number)
{
	struct word w = { .bytes = 1 + below(c->longest) }, longer = { .bytes = c->longest };
	uint8_t remainder[MAX_PARITY] = { 0 };

	if (number % 4 == 0)
		w.bytes = c->longest;
	w.bits = 8 * w.bytes + c->parity_bits;
	longer.bits = 8 * longer.bytes + c->parity_bits;
	if (number % 4 < 2) {
		random_bytes(remainder, c->parity_bytes);
		remainder[c->parity_bytes - 1] &= 0xFF << (8 * c->parity_bytes - c->parity_bits);
	} else {
		for (unsigned flips = 1 + below(c->t); flips > 0; flips--) {
			unsigned at = below(longer.bits);

			turn(at < 8 * longer.bytes ? longer.message : longer.parity, at < 8 * longer.bytes ? at : at - 8 * longer.bytes);
		}
		remainder_of(c, &longer, remainder);
	}
	compare_remainder(c, &w, remainder);
	c->remainders++;
}

static void open_code(struct code *c, unsigned m, unsigned t)
{
	unsigned polynomial = m == 13 ? 0x201B : 0x402B;

	*c = (struct code){ .edition = t > 40 ? 2 : 1, .m = m, .t = t, .parity_bits = m * t, .parity_bytes = (m * t + 7) / 8 };
	c->kernel = bch_init(m, t, polynomial, false);
	c->search = search_init(m, t, polynomial, false);
	if (!c->kernel || !c->search || c->kernel->ecc_bits != c->parity_bits) {
		fprintf(stderr, "compare: bch_init gave no code for m = %u, t = %u\n", m, t);
		exit(2);
	}
	c->longest = ((1u << m) - 1 - c->parity_bits) / 8;
}

/* Compares one code, prints its row and adds it to the sums. */
static void compare_code(struct code *sums, unsigned m, unsigned t, unsigned pages)
{
	static struct page p;
	struct code c;
	unsigned flips = 0;

	open_code(&c, m, t);
	for (unsigned i = 0; i < pages; i++) {
		struct places found[MAX_BLOCKS];

		random_page(&c, &p);
		compare_written(&c, &p);
		for (unsigned b = 0; b < p.blocks; b++, flips++) {
			damage(&p, b, flips % (t + 3));
			found[b] = compare_block(&c, &p, b);
		}
		compare_look(&c, &p, found);
		compare_take(&c, &p, found);
		compare_alone(&c, i);
	}
	printf("| %u | %u | %lu | %lu | %lu | %lu |\n", m, t, c.parities, c.near, c.ruined, c.wrong_lists);
	fflush(stdout);
	sums->parities += c.parities;
	sums->near += c.near;
	sums->ruined += c.ruined;
	sums->remainders += c.remainders;
	sums->wrong_lists += c.wrong_lists;
	bch_free(c.kernel);
	search_free(c.search);
}

static void explain(const struct code *sums)
{
	printf("Of the %lu words with no codeword within t lib/bch.c, as the kernel builds it, gives a list of places for %lu. None of these lists gives a\n"
	       "codeword, by its own encoder; its own exhaustive search refuses all of these words, as this library does. The first of them:\n",
	       sums->ruined, sums->wrong_lists);
	printf("m = %u, t = %u, n = %u, remainder ", example.m, example.t, example.bits);
	for (unsigned i = 0; i < example.bytes; i++)
		printf("%02X", example.remainder[i]);
	printf(", list");
	for (int i = 0; i < example.list.count; i++)
		printf(" %u", example.list.exponents[i]);
	printf("\n\n");
}

int main(int argc, char **argv)
{
	struct code sums = { 0 };
	unsigned pages = argc > 2 ? strtoul(argv[2], NULL, 0) : 300;

	seed = argc > 1 ? strtoull(argv[1], NULL, 0) : 1;
	state = seed * 0x9E3779B97F4A7C15 | 1;
	printf("| m | t | parities | words with a codeword within t | words with none | of these with a list by lib/bch.c |\n");
	printf("|---|---|---|---|---|---|\n");
	for (unsigned m = 13; m <= 14; m++)
		for (unsigned t = 2; t <= MAX_T; t += 2)
			compare_code(&sums, m, t, pages);
	printf("| | | %lu | %lu | %lu | %lu |\n\n", sums.parities, sums.near, sums.ruined, sums.wrong_lists);
	if (sums.wrong_lists > 0 && differences == 0)
		explain(&sums);
	printf("seed %llu: %lu parities, %lu damaged words and %lu remainders compared with lib/bch.c, %lu differences\n", (unsigned long long)seed,
	       sums.parities, sums.near + sums.ruined - sums.remainders, sums.remainders, differences);
	return differences != 0;
}
