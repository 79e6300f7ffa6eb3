#include "program.h"
#include <fcntl.h>
#include <stdio.h>
#include <stdlib.h>
#include <string.h>
#include <sys/wait.h>
#include <unistd.h>

static char output[1 << 20];

static void fail(const char *what)
{
	fflush(stdout);
	perror(what);
	exit(70);
}

/* A file, not a pipe: the program reads all its input before it writes, however long either is. */
static FILE *input_file(const char *input)
{
	FILE *file = tmpfile();

	if (!file || fputs(input, file) == EOF || fflush(file) || fseek(file, 0, SEEK_SET))
		fail("the input of the program");
	return file;
}

/* What a build of the program has to say beside its output it says at each run, so it is left out here. */
static void become(const char *program, int input, int out)
{
	int nowhere = open("/dev/null", O_WRONLY);

	dup2(input, STDIN_FILENO);
	dup2(out, STDOUT_FILENO);
	dup2(nowhere, STDERR_FILENO);
	close(out);
	execl(program, program, (char *)NULL);
	_exit(127);
}

static size_t read_all(int from)
{
	size_t length = 0;
	ssize_t got;

	while (length + 1 < sizeof(output) && (got = read(from, output + length, sizeof(output) - 1 - length)) > 0)
		length += (size_t)got;
	return length;
}

char *program_run(const char *program, const char *input)
{
	FILE *file = input_file(input);
	int ends[2], status;
	pid_t child;

	fflush(stdout);
	if (pipe(ends) || (child = fork()) < 0)
		fail("a process for the program");
	if (child == 0) {
		close(ends[0]);
		become(program, fileno(file), ends[1]);
	}
	close(ends[1]);
	output[read_all(ends[0])] = 0;
	close(ends[0]);
	fclose(file);
	if (waitpid(child, &status, 0) != child || status != 0) {
		fprintf(stderr, "%s ended with wait status 0x%x; its output was\n%s", program, (unsigned int)status, output);
		exit(70);
	}
	return output;
}

char *read_file(const char *name)
{
	static char text[1 << 16];
	FILE *file = fopen(name, "r");

	if (!file) {
		perror(name);
		exit(70);
	}
	text[fread(text, 1, sizeof(text) - 1, file)] = 0;
	fclose(file);
	return text;
}
