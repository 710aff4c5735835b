/* The least that a program can do that puts a header in front of each file of a tree and leaves
   whole files after a loss of power: it works in batches of at most 1,024 files and 8 MiB of new
   bytes. It writes the files of a batch aside in one folder, syncs the data of each, and renames
   each. Last it syncs each folder that got a name, and the one that lost them. Without a journal, a
   digest, or a look at what the bytes are.
   usage: sync_floor MODE TREE HEADER
   MODE is `batch`; `each`, for batches of one file, with fsync; or `none`, for no syncs. */
#define _GNU_SOURCE
#include <fcntl.h>
#include <fts.h>
#include <stdio.h>
#include <stdlib.h>
#include <string.h>
#include <sys/resource.h>
#include <sys/stat.h>
#include <sys/uio.h>
#include <unistd.h>

enum { MOST_FILES = 1024, MOST_BYTES = 8 << 20, MOST_PATH = 4200 };

static char *buffer;
static size_t room;
static char aside[4096];

static void fail(const char *what) {
  perror(what);
  exit(1);
}

/* Reads a file into the buffer; its length. */
static size_t read_file(const char *path, mode_t *mode) {
  struct stat about;
  int file = open(path, O_RDONLY | O_NOFOLLOW | O_CLOEXEC);
  if (file < 0 || fstat(file, &about)) fail(path);
  *mode = about.st_mode;
  if (room <= (size_t)about.st_size) {
    room = 2 * (size_t)about.st_size + 4096;
    buffer = realloc(buffer, room);
    if (!buffer) fail("memory");
  }
  size_t length = 0;
  for (;;) {
    ssize_t more = read(file, buffer + length, room - length);
    if (more < 0) fail(path);
    if (!more) break;
    length += (size_t)more;
    if (length == room) fail("a file grew");
  }
  close(file);
  return length;
}

static void name_aside(char *name, size_t number) {
  snprintf(name, MOST_PATH, "%s/new.%zu", aside, number);
}

/* Writes the header and the buffer aside; the file, which stays open. */
static int write_aside(size_t number, const char *header, size_t length, mode_t mode) {
  char name[MOST_PATH];
  name_aside(name, number);
  int file = open(name, O_WRONLY | O_CREAT | O_EXCL | O_NOFOLLOW | O_CLOEXEC, 0600);
  if (file < 0) fail(name);
  struct iovec parts[2] = {{(void *)header, strlen(header)}, {buffer, length}};
  if (writev(file, parts, 2) != (ssize_t)(parts[0].iov_len + length)) fail(name);
  if (fchmod(file, mode & 07777)) fail(name);
  return file;
}

/* Syncs the files of a batch, and gives them their names. */
static void end_batch(char **paths, int *files, size_t count, int (*sync_file)(int)) {
  for (size_t k = 0; k < count; k++) {
    if ((sync_file && sync_file(files[k])) || close(files[k])) fail(paths[k]);
  }
  for (size_t k = 0; k < count; k++) {
    char name[MOST_PATH];
    name_aside(name, k);
    if (rename(name, paths[k])) fail(paths[k]);
  }
}

static void sync_folder(const char *path) {
  int folder = open(path, O_RDONLY | O_DIRECTORY | O_CLOEXEC);
  if (folder < 0 || fsync(folder) || close(folder)) fail(path);
}

/* Syncs the folders of the paths. They are in byte order, so those of one folder stand together
   but for the folders in it. */
static void sync_folders(char **paths, size_t known) {
  char last[MOST_PATH] = "";
  for (size_t k = 0; k < known; k++) {
    char *slash = strrchr(paths[k], '/');
    *slash = 0;
    if (strcmp(last, paths[k])) sync_folder(paths[k]);
    snprintf(last, sizeof last, "%s", paths[k]);
  }
  sync_folder(aside);
}

static int by_bytes(const void *one, const void *other) {
  return strcmp(*(char *const *)one, *(char *const *)other);
}

/* The paths of all files, in byte order. */
static char **paths_of(char *root, size_t *known) {
  char *roots[] = {root, NULL};
  FTS *walk = fts_open(roots, FTS_PHYSICAL | FTS_NOCHDIR, NULL);
  if (!walk) fail(root);
  size_t most = 1024;
  char **paths = malloc(most * sizeof *paths);
  for (FTSENT *at; paths && (at = fts_read(walk));) {
    if (at->fts_info != FTS_F) continue;
    if (*known == most) paths = realloc(paths, (most *= 2) * sizeof *paths);
    if (paths && !(paths[(*known)++] = strdup(at->fts_path))) fail("memory");
  }
  if (!paths) fail("memory");
  fts_close(walk);
  qsort(paths, *known, sizeof *paths, by_bytes);
  return paths;
}

int main(int count, char **words) {
  if (count != 4) return 2;
  int is_batch = !strcmp(words[1], "batch"), is_each = !strcmp(words[1], "each");
  if (!is_batch && !is_each && strcmp(words[1], "none")) return 2;
  size_t most = is_each ? 1 : MOST_FILES;
  int (*sync_file)(int) = is_batch ? fdatasync : is_each ? fsync : NULL;
  struct rlimit limit;
  if (getrlimit(RLIMIT_NOFILE, &limit)) fail("limit");
  limit.rlim_cur = limit.rlim_max;
  if (setrlimit(RLIMIT_NOFILE, &limit)) fail("limit");
  size_t known = 0;
  char **paths = paths_of(words[2], &known);
  snprintf(aside, sizeof aside, "%s/.floor", words[2]);
  if (mkdir(aside, 0777)) fail(aside);
  int files[MOST_FILES];
  size_t first = 0, bytes = 0, header = strlen(words[3]);
  for (size_t k = 0; k < known; k++) {
    mode_t mode;
    size_t length = read_file(paths[k], &mode);
    if (k - first == most || (k > first && bytes + header + length > MOST_BYTES)) {
      end_batch(paths + first, files, k - first, sync_file);
      first = k;
      bytes = 0;
    }
    files[k - first] = write_aside(k - first, words[3], length, mode);
    bytes += header + length;
  }
  end_batch(paths + first, files, known - first, sync_file);
  if (sync_file) sync_folders(paths, known);
  return rmdir(aside) ? 1 : 0;
}
