/* A store of redo from C: a child runs `redo -C FOLDER run`, lines go to it by one pipe, and answers come by another. */
#include <stdio.h>
#include <stdlib.h>
#include <string.h>
#include <sys/wait.h>
#include <unistd.h>

struct store {
  pid_t child;
  FILE *lines, *answers;
};

/* 0 where the child was started; whether the store is there, its first answer tells. */
static int store_open(struct store *store, const char *folder) {
  int lines[2], answers[2];
  if (pipe(lines) || pipe(answers)) return -1;
  store->child = fork();
  if (store->child < 0) return -1;
  if (store->child == 0) {
    dup2(lines[0], 0);
    dup2(answers[1], 1);
    close(lines[0]), close(lines[1]), close(answers[0]), close(answers[1]);
    execlp("redo", "redo", "-C", folder, "run", (char *)NULL);
    _exit(127);
  }
  close(lines[0]), close(answers[1]);
  store->lines = fdopen(lines[1], "w");
  store->answers = fdopen(answers[0], "r");
  return store->lines && store->answers ? 0 : -1;
}

/* The answer to a line, without its newline; NULL where the run has ended. */
static char *store_ask(struct store *store, const char *line, char *answer, int size) {
  if (fprintf(store->lines, "%s\n", line) < 0 || fflush(store->lines)) return NULL;
  if (!fgets(answer, size, store->answers)) return NULL;
  answer[strcspn(answer, "\n")] = 0;
  return answer;
}

/* The end of the input closes an open group, and forces. The status of the run, or -1. */
static int store_close(struct store *store) {
  int status;
  fclose(store->lines);
  fclose(store->answers);
  if (waitpid(store->child, &status, 0) < 0) return -1;
  return WIFEXITED(status) ? WEXITSTATUS(status) : -1;
}

/* Answers the words of the command line, each a line of the store in the folder that is named first. */
int main(int words, char **word) {
  struct store store;
  char answer[65536];
  if (words < 2 || store_open(&store, word[1])) return 1;
  for (int i = 2; i < words; i++) {
    if (!store_ask(&store, word[i], answer, sizeof answer)) break;
    printf("%s: %s\n", word[i], answer);
  }
  return store_close(&store);
}
