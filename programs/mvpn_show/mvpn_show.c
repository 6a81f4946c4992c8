/*
 * Shows what MCAST-VPN octets say: a run of NLRIs, a PMSI Tunnel attribute, a table as it is stored, or BGP messages, field by field in
 * the notation of each field, and why a flow takes its route. mvpn_show(1) is its manual.
 *
 * lines.c and json.c print a line, for people and for programs; show.c and messages.c go through an input; input.c reads it. What the
 * examples use too stands in programs/shared.
 */
#include "input.h"
#include "print.h"
#include "show.h"
#include "text.h"

#include <stdio.h>
#include <stdlib.h>
#include <string.h>

static const char usage[] =
    "usage: mvpn_show [-4 | -6] [-x] [--json] [--ssm ADDRESS/LENGTH]... [--why ROUTER SOURCE GROUP]... KIND [FILE]\n"
    "Shows MCAST-VPN octets of a file, or of standard input. KIND is one of\n"
    "  run        NLRIs, one after another\n"
    "  attribute  the value of a PMSI Tunnel attribute\n"
    "  table      a table of the library, as it is stored\n"
    "  messages   BGP messages; UPDATEs are taken apart\n"
    "Options:\n"
    "  -4, -6                     the AFI of a run: 1, as where neither is given, or 2\n"
    "  -x                         the input is in hexadecimal\n"
    "  --json                     an object of JSON for each line\n"
    "  --why ROUTER SOURCE GROUP  which route and tunnel a flow takes in a table, or of the messages' routes, and why\n"
    "  --ssm ADDRESS/LENGTH       an SSM range; those of a family replace its standard one\n"
    "  --help, --version          print this, or the version\n"
    "Exit status: 0; 1 where something is refused; 2 where the command line is wrong or the input cannot be read.\n";

/* What goes through an input. */
typedef bool shower(const view *shown, octets input);

typedef struct {
    view shown;
    bool in_hexadecimal;
    shower *show;
    const char *file;
} command;

/* ---- the command line: how many words are taken; 0 where they are none of it, -1, after standard error has been told, where they are
 * wrong */

static int wrong(const char *what, const char *word)
{
    fprintf(stderr, "mvpn_show: %s%s%s\n", what, word ? ": " : "", word ? word : "");
    return -1;
}

static int take_flag(command *asked, const char *word)
{
    if (is_word(word, "-4") || is_word(word, "-6"))
        asked->shown.afi = word[1] == '4' ? MVPN_AFI_IPV4 : MVPN_AFI_IPV6;
    else if (is_word(word, "-x"))
        asked->in_hexadecimal = true;
    else if (is_word(word, "--json"))
        asked->shown.as_json = true;
    else
        return 0;
    return 1;
}

static int take_why(command *asked, char **words)
{
    if (!is_word(words[0], "--why"))
        return 0;
    if (asked->shown.flow_count == MOST_EXPLAINED)
        return wrong("too many flows", NULL);
    customer_flow *flow = &asked->shown.flows[asked->shown.flow_count++];
    mvpn_address *const addresses[] = { &flow->router, &flow->source, &flow->group };
    for (int i = 0; i < 3; i++)
        if (!is_address(words[1 + i], addresses[i]))
            return wrong("--why needs the addresses of a router, a source and a group", words[1 + i]);
    return 4;
}

/* The library judges a prefix with those before it. */
static int take_range(command *asked, char **words)
{
    group_prefix prefix;
    if (!is_word(words[0], "--ssm"))
        return 0;
    if (!is_prefix(words[1], &prefix))
        return wrong("--ssm needs an address, a slash and a length", words[1]);
    uint16_t afi = afi_of(&prefix.address);
    group_prefixes *prefixes = &asked->shown.prefixes[afi - MVPN_AFI_IPV4];
    hold_prefix(prefixes, &prefix);
    uint32_t number = judge_prefixes(afi, prefixes);
    return number == MVPN_DONE ? 2 : wrong(mvpn_number_text(number), words[1]);
}

static int take_option(command *asked, char **words)
{
    int count = take_flag(asked, words[0]);
    if (count == 0)
        count = take_why(asked, words);
    if (count == 0)
        count = take_range(asked, words);
    if (count == 0 && words[0] && words[0][0] == '-')
        return wrong("an option that it does not have", words[0]);
    return count;
}

static shower *shower_of(const char *kind)
{
    static const struct { const char *kind; shower *show; } showers[] = {
        { "run", show_run }, { "attribute", show_attribute }, { "table", show_table }, { "messages", show_messages },
    };
    for (size_t i = 0; i < sizeof showers / sizeof showers[0]; i++)
        if (is_word(kind, showers[i].kind))
            return showers[i].show;
    return NULL;
}

/* The kind, and the file where there is one. */
static int take_kind(command *asked, char **words)
{
    asked->show = shower_of(words[0]);
    if (!asked->show)
        return wrong("KIND is run, attribute, table or messages", words[0]);
    if (asked->shown.flow_count > 0 && (asked->show == show_run || asked->show == show_attribute))
        return wrong("--why is for a table and for messages", NULL);
    asked->file = words[1] ? words[1] : "-";
    if (words[1] && words[2])
        return wrong("one file is shown", words[2]);
    return words[1] ? 2 : 1;
}

static bool take_command(command *asked, char **words)
{
    int count;
    asked->shown.afi = MVPN_AFI_IPV4;
    while ((count = take_option(asked, words)) > 0)
        words += count;
    return count == 0 && take_kind(asked, words) > 0;
}

/* ---- the program */

/* What was printed may not have been written. */
static int finish(int status)
{
    if (fflush(stdout) == 0 && !ferror(stdout))
        return status;
    perror("mvpn_show: standard output");
    return 2;
}

static bool is_among(char **words, const char *name)
{
    while (*words && !is_word(*words, name))
        words++;
    return *words != NULL;
}

int main(int argc, char **argv)
{
    static command asked;
    uint8_t *input;
    size_t size;
    char **words = argv + (argc > 0);
    if (is_among(words, "--help")) {
        fputs(usage, stdout);
        return finish(0);
    }
    if (is_among(words, "--version")) {
        printf("mvpn_show %s\n", MVPN_VERSION);
        return finish(0);
    }
    if (!take_command(&asked, words)) {
        fputs("mvpn_show --help tells how it is used\n", stderr);
        return 2;
    }
    int status = 2;
    if (read_input(asked.file, asked.in_hexadecimal, &input, &size))
        status = finish(asked.show(&asked.shown, (octets){ input, size }) ? 0 : 1);
    free(input);
    return status;
}
