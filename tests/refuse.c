/* Refuses one request for memory: the request with the number that REFUSE says, counted from 1, gets none.
   COUNT names a file that the number of all requests is written to. Loaded before the C library by tests/allocations. */
#include <stdio.h>
#include <stdlib.h>

extern void *__libc_malloc(size_t size);
extern void *__libc_realloc(void *old, size_t size);
static unsigned long asked, refused;

static int is_refused(void)
{
	return ++asked == refused;
}

void *malloc(size_t size)
{
	return is_refused() ? NULL : __libc_malloc(size);
}

void *realloc(void *old, size_t size)
{
	return is_refused() ? NULL : __libc_realloc(old, size);
}

__attribute__((constructor)) static void begin(void)
{
	const char *which = getenv("REFUSE");
	refused = which ? strtoul(which, NULL, 10) : 0;
	asked = 0;
}

__attribute__((destructor)) static void end(void)
{
	const char *path = getenv("COUNT");
	unsigned long all = asked;
	FILE *file = path ? fopen(path, "w") : NULL;
	if (file) {
		fprintf(file, "%lu\n", all);
		fclose(file);
	}
}
