/* Reads calls, one to a line, from a file or from standard input, makes them on one session and answers each. */
#include <string.h>

#include "line.h"

static const char help_text[] =
    "start | new D OWNER | sign USER AGREEMENT | load D IMAGE | save D [ROOM] | clipboard [ROOM] | log [ROOM]\n"
    "ask IMAGE ROLE USER TIME PATH NAME ACTION [ROOM]\n"
    "read-node, add-node, delete-branch, copy-branch, cut-branch, paste-branch: D ROLE USER TIME PATH\n"
    "read-attribute, delete-attribute, copy-attribute, cut-attribute, paste-attribute: D ROLE USER TIME PATH NAME\n"
    "add-attribute, change-value: D ROLE USER TIME PATH NAME VALUE\n"
    "add-permission, delete-permission, delegate: D ROLE USER TIME PATH NAME PERMISSION\n"
    "add-image: D ROLE USER TIME PATH IMAGE\n"
    "request NUMBER D ROLE USER TIME PATH NAME VALUE PERMISSION [IMAGE]\n"
    "store D FILE | show D | help; an IMAGE may be written as @FILE\n";

static struct session session;
static struct line_call call;
static uint8_t buffer[MAX_ROOM];

enum { BLANK = 0xa5 };

/* Bytes beyond those written must stay. */
static bool rest_is_kept(size_t written)
{
    for (size_t i = written; i < sizeof buffer; i++)
        if (buffer[i] != BLANK)
            return false;
    return true;
}

static bool write_file(const char *name, const uint8_t *bytes, size_t len)
{
    FILE *file = fopen(name, "wb");
    if (file == NULL)
        return false;
    bool good = fwrite(bytes, 1, len, file) == len;
    return fclose(file) == 0 && good;
}

/* Written beside and renamed, so that the old file stays as it was where the new one cannot be written. */
static bool store(const char *name, const uint8_t *bytes, size_t len)
{
    char beside[MAX_FILE_NAME + 8];
    snprintf(beside, sizeof beside, "%s.new", name);
    if (write_file(beside, bytes, len) && rename(beside, name) == 0)
        return true;
    remove(beside);
    return false;
}

static void answer_store(size_t number)
{
    size_t written;
    enum refusal refusal = plain_save(&session, call.request.dossier, buffer, call.room, &written);
    if (refusal != GRANTED)
        printf("refused %d\n", (int)refusal);
    else if (store(call.file, buffer, written))
        printf("ok bytes=%zu\n", written);
    else
        printf("bad line %zu: the file cannot be written\n", number);
}

static void answer_show(void)
{
    uint8_t n = call.request.dossier;
    if (n == 1 || n == 2)
        show_dossier(stdout, &session.dossier[n - 1]);
    else
        printf("refused %d\n", BAD_OPERAND);
}

static bool answer_call(void)
{
    struct line_result result;
    memset(buffer, BLANK, sizeof buffer);
    make_call(&session, &call, buffer, &result);
    print_result(stdout, &call, &result, buffer);
    return rest_is_kept(result.written);
}

/* False if the call wrote where it must not. */
static bool answer_line(const char *line, size_t len, size_t number)
{
    const char *why;
    if (len == 0 || line[0] == '#')
        return true;
    if (!parse_line(line, len, &call, &why))
        printf("bad line %zu: %s\n", number, why);
    else if (call.kind == CALL_STORE)
        answer_store(number);
    else if (call.kind == CALL_SHOW)
        answer_show();
    else if (call.kind == CALL_HELP)
        fputs(help_text, stdout);
    else
        return answer_call();
    return true;
}

/* Reads a line without its end; *len is its length, of which at most MAX_LINE are held. False at the end. */
static bool read_line(FILE *from, char *line, size_t *len)
{
    int c = getc(from);
    *len = 0;
    if (c == EOF)
        return false;
    for (; c != EOF && c != '\n'; c = getc(from)) {
        if (*len < MAX_LINE)
            line[*len] = (char)c;
        (*len)++;
    }
    if (*len > 0 && *len <= MAX_LINE && line[*len - 1] == '\r')
        (*len)--;
    return true;
}

static int answer_all(FILE *from)
{
    static char line[MAX_LINE];
    size_t len, number = 0;
    plain_start(&session);
    while (read_line(from, line, &len)) {
        number++;
        if (len > MAX_LINE)
            printf("bad line %zu: the line is too long\n", number);
        else if (!answer_line(line, len, number)) {
            fprintf(stderr, "lines: line %zu: bytes beyond those written were altered\n", number);
            return 1;
        }
    }
    return 0;
}

int main(int argc, char **argv)
{
    FILE *from = argc < 2 ? stdin : fopen(argv[1], "rb");
    if (argc > 2 || from == NULL) {
        fprintf(stderr, "lines: %s\n", argc > 2 ? "usage: lines [FILE]" : "the file cannot be read");
        return 2;
    }
    return answer_all(from);
}
