#include "platform.h"
#include "program.h"
#include <stdio.h>
#include <stdlib.h>

const struct platform *platform_open(const char *kind, const char *program, const char *board_file)
{
	const char *board = read_file(board_file);

#ifdef WITH_LIBRARY
	if (!strcmp(kind, "library"))
		return library_open(program, board);
#endif
	if (!strcmp(kind, "once"))
		return single_open(program, board);
	if (!strcmp(kind, "words") || !strcmp(kind, "rings"))
		return session_open(kind, program, board);
	fprintf(stderr, "no kind of platform: %s\n", kind);
	exit(64);
}
