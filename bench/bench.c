/*
 * Writing pages, looking at them and taking them: this library and lib/bch.c of the Linux kernel, built with -O2 and with -O3, side by side in one run.
 *
 *   bench times      a line 'LAYOUT|ROW|OURS|O2|O3' for each row: microseconds of processor time of one page, the best of many short runs that the
 *                    three take in turn
 *   bench count      runs each row once between callgrind's marks 'LAYOUT|ROW|SIDE'; scripts/bench reads the counts
 *   bench growth     the same for pages that grow by a factor of eight in one respect: bytes of a block, blocks, flips
 *
 * All work on warm buffers. A page of the kernel's is its blocks' data and parity bytes side by side, as a driver keeps them; it decodes each block from
 * data and parity and turns the found bits over, and where it finds no codeword it counts the zeros of the block, as its drivers do for erased flash.
 * Looking at a page and taking it each stand beside one such decoding of the whole page. Flips are placed by a seeded generator.
 */
#include <stdbool.h>
#include <stdint.h>
#include <stdio.h>
#include <stdlib.h>
#include <string.h>
#include <time.h>

#include <valgrind/callgrind.h>

#include "rudderfig.h"
#include "linux/bch.h"

enum { MAX_PAGE = 8192, MAX_BLOCKS = 256, MAX_ECC = 128, BUILDS = 2, SIDES = 1 + BUILDS, RUNS = 25, RUN_MICROSECONDS = 3000 };

/* The kernel's library twice: scripts/bench gives the functions of each build these names. */
#define BUILD(level)                                                                                                        \
	struct bch_control *bch_init_##level(int m, int t, unsigned prim_poly, bool swap_bits);                             \
	void bch_free_##level(struct bch_control *bch);                                                                     \
	void bch_encode_##level(struct bch_control *bch, const uint8_t *data, unsigned len, uint8_t *ecc);                  \
	int bch_decode_##level(struct bch_control *bch, const uint8_t *data, unsigned len, const uint8_t *recv_ecc, const uint8_t *calc_ecc, \
			       const unsigned *syn, unsigned *errloc);
BUILD(O2)
BUILD(O3)

enum call { WRITE, LOOK, TAKE };

struct build {
	struct bch_control *(*init)(int, int, unsigned, bool);
	void (*release)(struct bch_control *);
	void (*encode)(struct bch_control *, const uint8_t *, unsigned, uint8_t *);
	int (*decode)(struct bch_control *, const uint8_t *, unsigned, const uint8_t *, const uint8_t *, const unsigned *, unsigned *);
};

static const struct build builds[BUILDS] = {
	{ bch_init_O2, bch_free_O2, bch_encode_O2, bch_decode_O2 },
	{ bch_init_O3, bch_free_O3, bch_encode_O3, bch_decode_O3 },
};
static const char *const side_names[SIDES] = { "ours", "O2", "O3" };

struct layout {
	const char *name;
	uint64_t edition;
	uint8_t record[8];
	unsigned m, t, blocks, data_bytes, parity_bits, page_bytes;
};

/*
 * A: m = 13, t = 16, 8 blocks of 512 bytes. B: m = 14, t = 40, 4 blocks of 1,024 bytes. C: m = 14, t = 60, 4 blocks of 1,024 bytes, in edition 2, which
 * alone has levels above 40. No metadata, pages with no tail byte to spare.
 */
static struct layout make_layout(const char *name, unsigned m, unsigned t, unsigned blocks, unsigned data_bytes)
{
	struct layout l = { .name = name, .m = m, .t = t, .blocks = blocks, .data_bytes = data_bytes, .parity_bits = m * t };
	unsigned half = (t / 2) << 11 | (m - 13) << 10 | data_bytes / 4;

	l.edition = t > 40 ? 2 : 1;
	l.page_bytes = (blocks * (8 * data_bytes + l.parity_bits) + 7) / 8;
	l.record[0] = blocks - 1;
	l.record[1] = 0;
	l.record[2] = l.record[6] = half >> 8;
	l.record[3] = l.record[7] = half & 255;
	l.record[4] = l.page_bytes >> 8;
	l.record[5] = l.page_bytes & 255;
	return l;
}

static uint64_t state = 1;

static uint32_t next_random(void)
{
	state ^= state << 13;
	state ^= state >> 7;
	state ^= state << 17;
	return state >> 32;
}

struct bench {
	struct layout l;
	struct bch_control *control[BUILDS];
	uint8_t data[MAX_PAGE], out[MAX_PAGE], counts[MAX_BLOCKS];
	uint8_t clean[MAX_PAGE], page[MAX_PAGE];
	uint8_t kernel_clean[MAX_PAGE], kernel_data[MAX_PAGE], kernel_out[MAX_PAGE];
	uint8_t ecc_clean[MAX_BLOCKS][MAX_ECC], ecc[MAX_BLOCKS][MAX_ECC];
};

static void fail(const char *what)
{
	fprintf(stderr, "bench: %s\n", what);
	exit(1);
}

static unsigned data_length(const struct bench *b)
{
	return b->l.blocks * b->l.data_bytes;
}

static uint64_t write_ours(struct bench *b)
{
	return rudderfig_write_page(b->l.edition, b->l.record, 8, NULL, 0, b->data, data_length(b), b->clean, b->l.page_bytes);
}

static void write_kernel(struct bench *b, unsigned build)
{
	for (unsigned i = 0; i < b->l.blocks; i++) {
		memset(b->ecc_clean[i], 0, b->control[build]->ecc_bytes);
		builds[build].encode(b->control[build], b->data + i * b->l.data_bytes, b->l.data_bytes, b->ecc_clean[i]);
	}
	memcpy(b->kernel_clean, b->data, data_length(b));
}

static uint64_t look_ours(struct bench *b)
{
	return rudderfig_look_page(b->l.edition, b->l.record, 8, b->page, b->l.page_bytes, b->counts, b->l.blocks);
}

static uint64_t take_ours(struct bench *b)
{
	return rudderfig_take_page(b->l.edition, b->l.record, 8, b->page, b->l.page_bytes, NULL, 0, b->out, data_length(b));
}

/* The zeros of some bytes, eight bytes at a time. Words of ones are passed over, and the count stops above `most`, as in the kernel's drivers. */
static unsigned zeros_of(const uint8_t *bytes, unsigned length, unsigned most)
{
	unsigned zeros = 0;
	uint64_t word;

	for (; length >= 8 && zeros <= most; length -= 8, bytes += 8) {
		memcpy(&word, bytes, 8);
		if (word != UINT64_MAX)
			zeros += __builtin_popcountll(~word);
	}
	for (; length > 0 && zeros <= most; length--, bytes++)
		zeros += __builtin_popcount(0xFF & ~*bytes);
	return zeros;
}

/* Decodes one block in place; the flips, 128 and its zeros where it is erased, or a negative number. */
static int decode_kernel(struct bench *b, unsigned build, unsigned i, uint8_t *block)
{
	unsigned places[64], in_data, zeros;
	int found = builds[build].decode(b->control[build], block, b->l.data_bytes, b->ecc[i], NULL, NULL, places);

	if (found < 0) {
		in_data = zeros_of(block, b->l.data_bytes, b->l.t);
		if (in_data > b->l.t)
			return found;
		zeros = in_data + zeros_of(b->ecc[i], b->control[build]->ecc_bytes, b->l.t - in_data);
		if (zeros > b->l.t)
			return found;
		if (in_data > 0)
			memset(block, 0xFF, b->l.data_bytes);
		return 128 + zeros;
	}
	for (int k = 0; k < found; k++)
		if (places[k] < 8 * b->l.data_bytes)
			block[places[k] / 8] ^= 1 << places[k] % 8;
	return found;
}

/*
 * The flips of the worst block, or a negative number where one cannot be read: beside a take the decoding ends there, and beside a look, which counts
 * every block, it goes on.
 */
static int read_kernel(struct bench *b, unsigned build, enum call call)
{
	int worst = 0, failed = 0;

	memcpy(b->kernel_out, b->kernel_data, data_length(b));
	for (unsigned i = 0; i < b->l.blocks; i++) {
		int found = decode_kernel(b, build, i, b->kernel_out + i * b->l.data_bytes);

		if (found < 0 && call == TAKE)
			return found;
		if (found < 0)
			failed = found;
		if (found > worst)
			worst = found;
	}
	return failed < 0 ? failed : worst;
}

static void unharmed(struct bench *b)
{
	memcpy(b->page, b->clean, b->l.page_bytes);
	memcpy(b->kernel_data, b->kernel_clean, data_length(b));
	memcpy(b->ecc, b->ecc_clean, sizeof b->ecc);
}

/* Turns over the same data bits of a block of both pages, `flips` different ones. */
static void damage_block(struct bench *b, unsigned i, unsigned flips)
{
	unsigned covered = 8 * b->l.data_bytes + b->l.parity_bits;
	bool turned[8 * MAX_PAGE] = { false };

	for (unsigned k = 0; k < flips;) {
		unsigned bit = next_random() % (8 * b->l.data_bytes), at = i * covered + bit;

		if (turned[bit])
			continue;
		turned[bit] = true;
		b->page[at / 8] ^= 1 << (7 - at % 8);
		b->kernel_data[i * b->l.data_bytes + bit / 8] ^= 1 << (7 - bit % 8);
		k++;
	}
}

static void damage(struct bench *b, unsigned flips)
{
	unharmed(b);
	for (unsigned i = 0; i < b->l.blocks; i++)
		damage_block(b, i, flips);
}

/* Pages as erased flash has them, with so many zeros in each block. */
static void erase(struct bench *b, unsigned zeros)
{
	memset(b->page, 0xFF, b->l.page_bytes);
	memset(b->kernel_data, 0xFF, data_length(b));
	memset(b->ecc, 0xFF, sizeof b->ecc);
	for (unsigned i = 0; i < b->l.blocks; i++)
		damage_block(b, i, zeros);
}

/* Every block must come back on all sides, the counts adding up to `sum` and the worst being `worst`. */
static void check(struct bench *b, const uint8_t *data, unsigned sum, unsigned worst)
{
	if (rudderfig_reply(look_ours(b)) != RUDDERFIG_DONE)
		fail("a page was refused");
	for (unsigned i = 0; i < b->l.blocks; i++)
		sum -= b->counts[i];
	if (sum != 0)
		fail("a count is wrong");
	if (rudderfig_reply(take_ours(b)) != RUDDERFIG_DONE || memcmp(b->out, data, data_length(b)) != 0)
		fail("a page did not read back");
	for (unsigned build = 0; build < BUILDS; build++)
		if (read_kernel(b, build, TAKE) != (int)worst || memcmp(b->kernel_out, data, data_length(b)) != 0)
			fail("the kernel's page did not read back");
}

/* Every block must be ruined on all sides. */
static void check_ruined(struct bench *b)
{
	if (rudderfig_reply(look_ours(b)) != RUDDERFIG_UNCORRECTABLE || rudderfig_reply(take_ours(b)) != RUDDERFIG_UNCORRECTABLE)
		fail("a ruined page was read");
	for (unsigned i = 0; i < b->l.blocks; i++)
		if (!rudderfig_is_ruined(b->counts[i]))
			fail("a block of a ruined page was read");
	for (unsigned build = 0; build < BUILDS; build++)
		if (read_kernel(b, build, LOOK) >= 0 || read_kernel(b, build, TAKE) >= 0)
			fail("a ruined page was read by the kernel");
}

/* Side 0 is ours, the others are the builds of the kernel's. */
static void once(struct bench *b, enum call call, unsigned side)
{
	if (side == 0 && call == WRITE)
		write_ours(b);
	else if (side == 0 && call == LOOK)
		look_ours(b);
	else if (side == 0)
		take_ours(b);
	else if (call == WRITE)
		write_kernel(b, side - 1);
	else
		read_kernel(b, side - 1, call);
}

/* Microseconds of processor time, so that other work on the machine counts as little as can be. */
static double now(void)
{
	struct timespec t;

	clock_gettime(CLOCK_PROCESS_CPUTIME_ID, &t);
	return t.tv_sec * 1e6 + t.tv_nsec / 1e3;
}

static double run(struct bench *b, enum call call, unsigned side)
{
	double start = now(), spent;
	unsigned n = 0;

	do {
		once(b, call, side);
		n++;
		spent = now() - start;
	} while (spent < RUN_MICROSECONDS);
	return spent / n;
}

static void time_row(struct bench *b, const char *what, enum call call)
{
	double best[SIDES];

	for (unsigned side = 0; side < SIDES; side++)
		best[side] = 1e18;
	for (unsigned i = 0; i < RUNS; i++)
		for (unsigned side = 0; side < SIDES; side++) {
			double took = run(b, call, side);

			if (took < best[side])
				best[side] = took;
		}
	printf("%s|%s|%.2f|%.2f|%.2f\n", b->l.name, what, best[0], best[1], best[2]);
	fflush(stdout);
}

/* One page of each side between callgrind's marks. */
static void count_row(struct bench *b, const char *what, enum call call)
{
	char label[96];

	for (unsigned side = 0; side < SIDES; side++) {
		once(b, call, side);
		snprintf(label, sizeof label, "%s|%s|%s", b->l.name, what, side_names[side]);
		CALLGRIND_ZERO_STATS;
		once(b, call, side);
		CALLGRIND_DUMP_STATS_AT(label);
	}
}

static void row(struct bench *b, const char *what, enum call call, bool counting)
{
	if (counting)
		count_row(b, what, call);
	else
		time_row(b, what, call);
}

/* A page looked at, and taken. */
static void read_rows(struct bench *b, const char *page, bool counting)
{
	char what[64];

	snprintf(what, sizeof what, "look, %s", page);
	row(b, what, LOOK, counting);
	snprintf(what, sizeof what, "take, %s", page);
	row(b, what, TAKE, counting);
}

static void damaged_rows(struct bench *b, unsigned flips, bool counting)
{
	char page[32];

	damage(b, flips);
	check(b, b->data, b->l.blocks * flips, flips);
	snprintf(page, sizeof page, flips == 0 ? "clean" : flips == 1 ? "1 flip a block" : "%u flips a block", flips);
	read_rows(b, page, counting);
}

/* The commonest damage: one flip in one block. */
static void single_rows(struct bench *b, bool counting)
{
	unharmed(b);
	damage_block(b, b->l.blocks / 2, 1);
	check(b, b->data, 1, 1);
	read_rows(b, "1 flip in all", counting);
}

static void ruined_rows(struct bench *b, bool counting)
{
	damage(b, b->l.t + 5);
	check_ruined(b);
	read_rows(b, "every block ruined", counting);
}

static void erased_rows(struct bench *b, const char *page, unsigned zeros, bool counting)
{
	static uint8_t ones[MAX_PAGE];

	memset(ones, 0xFF, sizeof ones);
	erase(b, zeros);
	check(b, ones, b->l.blocks * (128 + zeros), 128 + zeros);
	read_rows(b, page, counting);
}

static void start(struct bench *b, struct layout l)
{
	memset(b, 0, sizeof *b);
	b->l = l;
	for (unsigned build = 0; build < BUILDS; build++) {
		b->control[build] = builds[build].init(l.m, l.t, 0, false);
		if (!b->control[build])
			fail("bch_init failed");
	}
	for (unsigned i = 0; i < data_length(b); i++)
		b->data[i] = next_random();
	if (rudderfig_reply(write_ours(b)) != 0)
		fail("the page was not written");
	write_kernel(b, 0);
}

static void end(struct bench *b)
{
	for (unsigned build = 0; build < BUILDS; build++)
		builds[build].release(b->control[build]);
}

static void bench_layout(struct layout l, const unsigned *flips, unsigned sizes, bool counting)
{
	static struct bench b;

	start(&b, l);
	row(&b, "write", WRITE, counting);
	damaged_rows(&b, 0, counting);
	single_rows(&b, counting);
	for (unsigned i = 0; i < sizes; i++)
		damaged_rows(&b, flips[i], counting);
	ruined_rows(&b, counting);
	erased_rows(&b, "all ones", 0, counting);
	erased_rows(&b, "erased, 1 zero a block", 1, counting);
	end(&b);
}

/* Counts the rows of one size on the way up. */
static void grow(const char *name, unsigned m, unsigned t, unsigned blocks, unsigned data_bytes, unsigned flips)
{
	static struct bench b;

	start(&b, make_layout(name, m, t, blocks, data_bytes));
	row(&b, "write", WRITE, true);
	damaged_rows(&b, 0, true);
	damage(&b, flips);
	check(&b, b.data, blocks * flips, flips);
	read_rows(&b, "damaged", true);
	end(&b);
}

static void growth(void)
{
	char name[64];

	for (unsigned bytes = 16; bytes <= 512; bytes *= 2) {
		snprintf(name, sizeof name, "%u bytes a block", bytes);
		grow(name, 13, 16, 8, bytes, 4);
	}
	for (unsigned blocks = 1; blocks <= 8; blocks *= 2) {
		snprintf(name, sizeof name, blocks > 1 ? "%u blocks" : "%u block", blocks);
		grow(name, 13, 16, blocks, 512, 4);
	}
	for (unsigned flips = 2; flips <= 16; flips *= 2) {
		snprintf(name, sizeof name, "%u flips a block", flips);
		grow(name, 13, 16, 8, 512, flips);
	}
}

int main(int argc, char **argv)
{
	static const unsigned flips_a[] = { 1, 4, 8, 16 }, flips_b[] = { 1, 4, 8, 16, 40 }, flips_c[] = { 1, 4, 8, 16, 40, 60 };
	const char *mode = argc == 2 ? argv[1] : "";
	bool counting = strcmp(mode, "count") == 0;

	if (strcmp(mode, "growth") == 0) {
		growth();
		return 0;
	}
	if (!counting && strcmp(mode, "times") != 0)
		fail("usage: bench times | count | growth");
	bench_layout(make_layout("A", 13, 16, 8, 512), flips_a, 4, counting);
	bench_layout(make_layout("B", 14, 40, 4, 1024), flips_b, 5, counting);
	bench_layout(make_layout("C", 14, 60, 4, 1024), flips_c, 6, counting);
	return 0;
}
