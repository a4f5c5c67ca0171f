/* mvstore.c - asks an H2 MVStore file, format 1, from the command line.
 * It exits with 0, with 1 when something was refused, with 2 for misuse. */
#include <errno.h>
#include <stdio.h>
#include <string.h>

#include "command.h"
#include "edition.h"
#include "mvstore.h"
#include "option.h"
#include "refusal.h"

#define MISUSE 2

static const char usage[] =
    "usage: mvstore info FILE\n"
    "       mvstore maps FILE\n"
    "       mvstore check FILE [MAP KIND]\n"
    "       mvstore get FILE MAP KIND KEY\n"
    "       mvstore list FILE MAP KIND [--csv]\n"
    "       mvstore --help | --version\n"
    "       with --edition 1, 2 or auto anywhere among the words; -- ends options\n";

static const char help[] =
    "\n"
    "Reads H2 MVStore files, format 1, and never writes them.\n"
    "\n"
    "  info    the newest chunk: its id, version and blocks, and the edition\n"
    "  maps    name, id and number of entries of every map\n"
    "  check   examines a map, or the metadata and every map\n"
    "  get     the value of a key, or 'absent'\n"
    "  list    a map's entries in order\n"
    "\n"
    "MAP is a name, or #ID for an id; #0 is the metadata, whose KIND is text.\n"
    "KIND is number (0): keys are signed 64-bit numbers, or text (1).\n"
    "A value of 24 bytes is shown as axial force, shear and moment; others by their\n"
    "length, and as text where all is printable, otherwise in hexadecimal.\n"
    "\n"
    "A file doesn't record the kind of a map. maps takes the count of the root page,\n"
    "which is the same whatever the kind: it tries number and, where that is refused,\n"
    "text. check without MAP examines as number and as text, and says which one the\n"
    "map is sound as, or 'either'.\n"
    "\n"
    "A file's lines have sums, which two editions take differently: H2 1.4.197 writes\n"
    "edition 2. --edition 1, --edition=2 and so on name the one by which all lines are\n"
    "judged. auto, the default, is the one in which the file opens. Where both open it\n"
    "is 1, or 2 if only there all maps are located; where they open at different chunks\n"
    "a warning names them. Behind a word -- no option is looked for: get FILE MAP text\n"
    "-- --edition asks for that key.\n"
    "\n"
    "Exit status: 0; 1 when something was refused; 2 for misuse, or where the file\n"
    "can't be mapped or the output not written.\n";

static int misuse(void)
{
    fputs(usage, stderr);
    return MISUSE;
}

static int bad_word(const char *what, const char *word)
{
    fprintf(stderr, "mvstore: %s is no %s\n", word, what);
    return misuse();
}

static int bad_edition(const char *word)
{
    if (*word != '\0')
        return bad_word("edition", word);
    fputs("mvstore: --edition takes 1, 2 or auto\n", stderr);
    return misuse();
}

/* MAP KIND; gives the exit status, or 0. */
static int ask(image file, char **word, asked *m)
{
    m->word = word[0];
    if (!word_kind(word[1], &m->kind))
        return bad_word("kind", word[1]);
    if (word[0][0] == '#')
        return word_id(word[0], &m->map) ? 0 : bad_word("map id", word[0]);
    const uint8_t *name = (const uint8_t *)word[0];
    mvstore_id id = mvstore_map(file.at, file.len, file.view, name, strlen(word[0]));
    m->map = id.id;
    return id.refusal != 0 ? refusal_say(id.refusal) : 0;
}

static int info(image file, char **word, int words)
{
    (void)word;
    return words == 0 ? command_info(file) : misuse();
}

static int maps(image file, char **word, int words)
{
    (void)word;
    return words == 0 ? command_maps(file) : misuse();
}

static int check(image file, char **word, int words)
{
    asked m;
    if (words == 0)
        return command_check_all(file);
    if (words != 2)
        return misuse();
    int status = ask(file, word, &m);
    return status != 0 ? status : command_check(file, m);
}

static int get(image file, char **word, int words)
{
    asked m;
    word_key key;
    if (words != 3)
        return misuse();
    int status = ask(file, word, &m);
    if (status != 0)
        return status;
    if (!word_to_key(word[2], m.kind, &key))
        return bad_word("signed 64-bit number", word[2]);
    return command_get(file, m, &key);
}

static int list(image file, char **word, int words)
{
    asked m;
    int csv = words == 3 && strcmp(word[2], "--csv") == 0;
    if (words != 2 && !csv)
        return misuse();
    int status = ask(file, word, &m);
    return status != 0 ? status : command_list(file, m, csv);
}

typedef int command(image file, char **word, int words);

static const struct {
    const char *name;
    command *run;
} commands[] = {{"info", info}, {"maps", maps}, {"check", check}, {"get", get}, {"list", list}};

/* FILE and the command's words, of which there are so many. */
static int answer(command *run, uint64_t edition, char **word, int words)
{
    image file;
    if (!image_open(word[0], &file))
        return MISUSE;
    file.view = edition_choose(file, edition);
    return run(file, word + 1, words);
}

static int run(int argc, char **argv)
{
    options o = options_take(&argc, argv);
    if (o.wrong != NULL)
        return bad_edition(o.wrong);
    if (argc == 2 && strcmp(argv[1], "--help") == 0)
        return fputs(usage, stdout), fputs(help, stdout), 0;
    if (argc == 2 && strcmp(argv[1], "--version") == 0)
        return puts("mvstore " MVSTORE_VERSION), 0;
    for (size_t i = 0; argc >= 3 && i < sizeof commands / sizeof *commands; i++)
        if (strcmp(argv[1], commands[i].name) == 0)
            return answer(commands[i].run, o.edition, argv + 2, argc - 3);
    return misuse();
}

/* A listing that could not be written whole must not look like one that was. */
int main(int argc, char **argv)
{
    int status = run(argc, argv);
    if (fflush(stdout) == 0 && !ferror(stdout))
        return status;
    fprintf(stderr, "mvstore: standard output: %s\n", strerror(errno));
    return MISUSE;
}
