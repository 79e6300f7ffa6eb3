/* One run of the program: all of its input, then all of its output; and a file that goes into an input. */
#ifndef INTEROP_PROGRAM_H
#define INTEROP_PROGRAM_H

/* The output, which stays until the next call. Ends the process where the program can't be run. */
char *program_run(const char *program, const char *input);

/* The text of a file, which stays until the next call. Ends the process where it can't be read. */
char *read_file(const char *name);
#endif
