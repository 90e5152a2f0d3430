/*
 * Runs a command with a pipe that never waits at one end: at its input, what this program is given and then neither bytes nor an end;
 * at its output, a pipe that nobody reads before the command has ended. Ends with the command's status.
 *
 * usage: ends in COMMAND..      this program's input goes to the command's
 *        ends out COMMAND..     the command's output goes to this program's
 */
#define _POSIX_C_SOURCE 200809L
#include <fcntl.h>
#include <signal.h>
#include <stdio.h>
#include <stdlib.h>
#include <string.h>
#include <sys/wait.h>
#include <unistd.h>

static void fail(const char *what)
{
	perror(what);
	exit(2);
}

/* Puts n bytes; an end that nobody reads any more takes none, and that is for the command to answer for. */
static int put(int to, const char *from, size_t n)
{
	while (n > 0) {
		ssize_t took = write(to, from, n);
		if (took <= 0) {
			return 0;
		}
		from += took;
		n -= (size_t)took;
	}
	return 1;
}

static void copy(int from, int to)
{
	char block[4096];
	ssize_t n;
	while ((n = read(from, block, sizeof block)) > 0 && put(to, block, (size_t)n)) {
	}
}

static pid_t start(char **command, int end, int theirs, int ours)
{
	pid_t child = fork();
	if (child < 0) {
		fail("fork");
	}
	if (child == 0) {
		dup2(theirs, end);
		close(theirs);
		close(ours);
		execvp(command[0], command);
		fail(command[0]);
	}
	close(theirs);
	return child;
}

static int status_of(pid_t child)
{
	int status;
	if (waitpid(child, &status, 0) != child) {
		fail("waitpid");
	}
	return WIFEXITED(status) ? WEXITSTATUS(status) : 128 + WTERMSIG(status);
}

int main(int argc, char **argv)
{
	int in = argc > 2 && strcmp(argv[1], "in") == 0;
	int ends[2];
	if (argc < 3 || (!in && strcmp(argv[1], "out") != 0)) {
		fprintf(stderr, "usage: ends in|out COMMAND..\n");
		return 2;
	}
	if (pipe(ends) != 0) {
		fail("pipe");
	}
	int theirs = ends[in ? 0 : 1], ours = ends[in ? 1 : 0];
	if (fcntl(theirs, F_SETFL, O_NONBLOCK) != 0) {
		fail("fcntl");
	}
	pid_t child = start(argv + 2, in ? 0 : 1, theirs, ours);
	signal(SIGPIPE, SIG_IGN);
	alarm(60); /* for a command that never ends */
	if (in) {
		copy(0, ours);
		return status_of(child);
	}
	int status = status_of(child);
	copy(ours, 1);
	return status;
}
