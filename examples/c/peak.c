/* Runs a program without its output and prints the most memory that it took, in bytes.
 *
 * A shell's or Python's own child would not do: until it becomes the program it is as large as they are,
 * and that counts. */
#include <fcntl.h>
#include <stdio.h>
#include <sys/resource.h>
#include <sys/wait.h>
#include <unistd.h>

static int become(char **command)
{
	int null = open("/dev/null", O_WRONLY);

	if (null < 0 || dup2(null, STDOUT_FILENO) < 0)
		return 126;
	execv(command[0], command);
	return 127;
}

int main(int count, char **arguments)
{
	struct rusage usage;
	int status;
	pid_t child;

	if (count < 2)
		return 64;
	child = fork();
	if (child < 0)
		return 71;
	if (child == 0)
		_exit(become(arguments + 1));
	if (wait4(child, &status, 0, &usage) != child || !WIFEXITED(status))
		return 70;
	printf("%ld\n", usage.ru_maxrss * 1024L);
	return WEXITSTATUS(status);
}
