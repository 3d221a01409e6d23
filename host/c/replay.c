/*
 * Makes the calls of a file on this processor and compares what they answer and leave with the file, which the model has written
 * (host/src/bin/replay; its record.rs tells the format). Every buffer stands between guard bytes, at changing places.
 *
 *     replay FILE
 *
 * Prints how many calls were made, how many differ, and the digest of all answers and buffers. The exit status is 0 only where none differs.
 */
#include <stdio.h>
#include <stdlib.h>
#include <string.h>

#include "rudderfig.h"

enum { ARGUMENTS = 8, SIDE = 64, GUARD = 0x5C };

/* A number, or a lent buffer of so many elements of so many bytes. */
struct argument {
	unsigned size;
	uint64_t number;
	size_t bytes, room;
	uint8_t *around, *after;
	void *lent;
};

/* uint64_t make_call(unsigned call, const struct argument *a) */
#include "dispatch.h"

static FILE *file;
static uint64_t digest = UINT64_C(0xCBF29CE484222325);

static void take(void *to, size_t n)
{
	if (n != 0 && fread(to, 1, n, file) != n) {
		printf("replay: the file ends too early\n");
		exit(2);
	}
}

static uint64_t number(unsigned bytes)
{
	uint8_t taken[8] = { 0 };
	uint64_t value = 0;

	take(taken, bytes);
	for (unsigned i = 0; i < bytes; i++)
		value |= (uint64_t)taken[i] << 8 * i;
	return value;
}

static void add_to_digest(const uint8_t *bytes, size_t n)
{
	for (size_t i = 0; i < n; i++)
		digest = (digest ^ bytes[i]) * UINT64_C(0x100000001B3);
}

static void *room(size_t n)
{
	void *place = malloc(n);

	if (!place) {
		printf("replay: no memory\n");
		exit(2);
	}
	return place;
}

/* The place of a buffer moves by an element from call to call; an empty one comes with NULL every third time. */
static void take_argument(struct argument *a, unsigned call)
{
	size_t before;

	a->around = a->after = NULL;
	a->size = number(1);
	if (a->size == 0) {
		a->number = number(8);
		return;
	}
	a->number = number(4);
	a->bytes = a->number * a->size;
	before = SIDE + call % 8 * a->size;
	a->room = before + a->bytes + SIDE;
	a->around = room(a->room);
	memset(a->around, GUARD, a->room);
	take(a->around + before, a->bytes);
	a->after = room(a->bytes + 1);
	memcpy(a->after, a->around + before, a->bytes);
	if (number(1))
		take(a->after, a->bytes);
	a->lent = a->bytes == 0 && call % 3 == 0 ? NULL : a->around + before;
}

/* Whether a buffer holds what it should, its guards too. */
static int right(const struct argument *a, unsigned call)
{
	size_t before = SIDE + call % 8 * a->size, i;

	for (i = 0; i < a->room; i++)
		if (i < before || i >= before + a->bytes)
			if (a->around[i] != GUARD)
				return 0;
	add_to_digest(a->around + before, a->bytes);
	return memcmp(a->around + before, a->after, a->bytes) == 0;
}

/* Makes one call; whether everything is as it should be. */
static int replayed(unsigned at)
{
	struct argument a[ARGUMENTS];
	unsigned call = number(1), arguments = number(1);
	uint64_t answer, wanted;
	uint8_t bytes[8];
	int good;

	if (arguments > ARGUMENTS)
		exit(2);
	for (unsigned i = 0; i < arguments; i++)
		take_argument(&a[i], at);
	wanted = number(8);
	answer = make_call(call, a);
	good = answer == wanted;
	for (unsigned i = 0; i < 8; i++)
		bytes[i] = (uint8_t)(answer >> 8 * i);
	add_to_digest(bytes, 8);
	for (unsigned i = 0; i < arguments; i++) {
		if (a[i].size != 0 && !right(&a[i], at))
			good = 0;
		free(a[i].around);
		free(a[i].after);
	}
	if (!good)
		printf("call %u (number %u in the header) differs: answer %016llx, to be %016llx\n", at, call, (unsigned long long)answer,
		       (unsigned long long)wanted);
	return good;
}

int main(int argc, char **argv)
{
	unsigned calls, different = 0;

	file = argc == 2 ? fopen(argv[1], "rb") : NULL;
	if (!file) {
		printf("usage: replay FILE\n");
		return 2;
	}
	calls = number(4);
	for (unsigned at = 0; at < calls && different < 10; at++)
		if (!replayed(at))
			different++;
	printf("%u calls, digest %016llx, %u differ\n", calls, (unsigned long long)digest, different);
	return different == 0 ? 0 : 1;
}
