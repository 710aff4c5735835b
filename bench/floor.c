/* The least that a program can do that puts a header in front of each file of a tree and leaves
   whole files whenever it is stopped: it reads each file once, writes header and bytes to a new
   file beside it, and renames that. Without a journal, a digest, or a look at what the bytes are.
   usage: floor TREE HEADER */
#define _GNU_SOURCE
#include <fcntl.h>
#include <fts.h>
#include <stdio.h>
#include <stdlib.h>
#include <string.h>
#include <sys/stat.h>
#include <sys/uio.h>
#include <unistd.h>

static void fail(const char *what) {
  perror(what);
  exit(1);
}

static char *buffer;
static size_t room;

/* Reads a file into the buffer; its length. */
static size_t read_file(const char *path, mode_t *mode) {
  struct stat about;
  int file = open(path, O_RDONLY | O_NOFOLLOW | O_CLOEXEC);
  if (file < 0 || fstat(file, &about)) fail(path);
  *mode = about.st_mode;
  if (room <= (size_t)about.st_size) {
    room = 2 * (size_t)about.st_size + 4096;
    buffer = realloc(buffer, room);
    if (!buffer) fail("memory");
  }
  size_t length = 0;
  for (;;) {
    ssize_t more = read(file, buffer + length, room - length);
    if (more < 0) fail(path);
    if (!more) break;
    length += (size_t)more;
    if (length == room) fail("a file grew");
  }
  close(file);
  return length;
}

static void write_file(const char *path, const char *header, size_t length, mode_t mode) {
  char beside[4200];
  snprintf(beside, sizeof beside, "%s.floor", path);
  int file = open(beside, O_WRONLY | O_CREAT | O_EXCL | O_NOFOLLOW | O_CLOEXEC, 0600);
  if (file < 0) fail(beside);
  struct iovec parts[2] = {{(void *)header, strlen(header)}, {buffer, length}};
  if (writev(file, parts, 2) != (ssize_t)(parts[0].iov_len + length)) fail(beside);
  if (fchmod(file, mode & 07777) || close(file) || rename(beside, path)) fail(path);
}

int main(int count, char **words) {
  if (count != 3) return 2;
  char *roots[] = {words[1], NULL};
  FTS *walk = fts_open(roots, FTS_PHYSICAL | FTS_NOCHDIR, NULL);
  if (!walk) fail(words[1]);
  /* all paths first, so that no new file is met */
  size_t known = 0, most = 1024;
  char **paths = malloc(most * sizeof *paths);
  for (FTSENT *at; paths && (at = fts_read(walk));) {
    if (at->fts_info != FTS_F) continue;
    if (known == most) paths = realloc(paths, (most *= 2) * sizeof *paths);
    if (paths && !(paths[known++] = strdup(at->fts_path))) fail("memory");
  }
  if (!paths) fail("memory");
  fts_close(walk);
  for (size_t k = 0; k < known; k++) {
    mode_t mode;
    size_t length = read_file(paths[k], &mode);
    write_file(paths[k], words[2], length, mode);
  }
  return 0;
}
