/* Applies the edit files of wrong/ to a folder that holds a copy of the unit's files.

   edit FILE.edit FOLDER

   An edit file has, after comment lines that begin with '#', one or more changes:

       file NAME
       find
       lines as they are in the file
       with
       lines that take their place
       end

   The lines sought must be there exactly once: an edit that no longer fits is an error. */
#include <stdbool.h>
#include <stdio.h>
#include <stdlib.h>
#include <string.h>

#define MAX_TEXT 65536

static bool read_text(const char *path, char *text)
{
    FILE *f = fopen(path, "rb");
    if (!f)
        return false;
    size_t len = fread(text, 1, MAX_TEXT - 1, f);
    text[len] = 0;
    fclose(f);
    return len < MAX_TEXT - 1;
}

static bool replace_once(const char *path, const char *find, const char *with)
{
    static char text[MAX_TEXT];
    if (!read_text(path, text))
        return false;
    char *at = strstr(text, find);
    if (!at || strstr(at + 1, find))
        return false;
    FILE *f = fopen(path, "wb");
    if (!f)
        return false;
    fwrite(text, 1, (size_t)(at - text), f);
    fputs(with, f);
    fputs(at + strlen(find), f);
    return fclose(f) == 0;
}

/* The next line is the keyword alone. */
static bool take_keyword(char **at, const char *keyword)
{
    size_t len = strlen(keyword);
    if (strncmp(*at, keyword, len) != 0 || (*at)[len] != '\n')
        return false;
    *at += len + 1;
    return true;
}

/* Cuts the text up to the line that is the keyword alone. */
static char *take_until(char **at, const char *keyword)
{
    char *begin = *at;
    for (char *line = begin; *line; line = strchr(line, '\n') + 1) {
        *at = line;
        if (take_keyword(at, keyword)) {
            *line = 0;
            return begin;
        }
        if (!strchr(line, '\n'))
            break;
    }
    return NULL;
}

static bool apply_change(char **at, const char *folder)
{
    char name[64], path[1024];
    if (sscanf(*at, "file %63s", name) != 1)
        return false;
    snprintf(path, sizeof path, "%s/%s", folder, name);
    *at = strchr(*at, '\n') + 1;
    if (!take_keyword(at, "find"))
        return false;
    char find[4096];
    char *sought = take_until(at, "with");
    if (!sought || strlen(sought) >= sizeof find || strlen(sought) == 0)
        return false;
    strcpy(find, sought);
    char *with = take_until(at, "end");
    return with && replace_once(path, find, with);
}

int main(int argc, char **argv)
{
    static char edit[MAX_TEXT];
    if (argc != 3 || !read_text(argv[1], edit)) {
        fputs("usage: edit FILE.edit FOLDER\n", stderr);
        return 2;
    }
    char *at = edit;
    while (*at == '#')
        at = strchr(at, '\n') + 1;
    do {
        if (!apply_change(&at, argv[2])) {
            printf("%s does not fit\n", argv[1]);
            return 1;
        }
    } while (*at);
    return 0;
}
